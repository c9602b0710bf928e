/* Texts of modules with mistakes in them, as somebody hostile may give: mutants COUNT FILE..
 *
 * Each file has a text of modules. A mutant is one of these texts, or two, in which words, signs or octets were changed, taken
 * out, swapped, or written often. oer_types_read_modules has to answer with a status that its comment names, to write no more
 * words than there is room for, and to take no more than a second of the processor; with COUNT_MEMORY, no more than 64 MB
 * of heap at any time, and to free all of it. It prints what differs, and then its status is 1. */
#include "oer.h"

#include <malloc.h>
#include <stdio.h>
#include <stdlib.h>
#include <string.h>
#include <time.h>

enum { SEEDS = 64, LARGE = 1 << 16, WORDS = 16384, MOST_MEMORY = 64 << 20, ROOM = 256 };

typedef struct {
    const char *text;
    size_t length;
} span;

static char whole[1 << 22], mutant[LARGE], other[LARGE];
static span seeds[SEEDS], words[WORDS];
static size_t seed_count, word_count;
static int failed = 0;

#ifdef COUNT_MEMORY
static size_t held, most_held;

void *__real_malloc(size_t size);
void *__real_realloc(void *old, size_t size);
void __real_free(void *old);
void *__wrap_malloc(size_t size);
void *__wrap_realloc(void *old, size_t size);
void __wrap_free(void *old);

static void *counted(void *block) {
    if (block) held += malloc_usable_size(block);
    if (held > most_held) most_held = held;
    return block;
}

void *__wrap_malloc(size_t size) {
    return counted(__real_malloc(size));
}

void *__wrap_realloc(void *old, size_t size) {
    size_t before = old ? malloc_usable_size(old) : 0;
    void *block = __real_realloc(old, size);
    if (block || !size) held -= before;
    return counted(block);
}

void __wrap_free(void *old) {
    if (old) held -= malloc_usable_size(old);
    __real_free(old);
}
#endif

/* Numbers that look random, the same in each run (xorshift64). */
static uint64_t state = 88172645463325252u;

static size_t below(size_t count) {
    state ^= state << 13;
    state ^= state >> 7;
    state ^= state << 17;
    return (size_t)(state % count);
}

static int is_word(char c) {
    return (c >= 'a' && c <= 'z') || (c >= 'A' && c <= 'Z') || (c >= '0' && c <= '9') || c == '-' || c == '&';
}

/* Words and signs of a text, from which mutants take some. */
static void keep_words(span seed) {
    size_t at = 0, begin;
    while (at < seed.length && word_count < WORDS) {
        begin = at++;
        while (is_word(seed.text[begin]) && at < seed.length && is_word(seed.text[at])) at++;
        words[word_count].text = seed.text + begin;
        words[word_count++].length = at - begin;
    }
}

static void read_seed(const char *path, size_t *used) {
    FILE *file = fopen(path, "rb");
    size_t length = file ? fread(whole + *used, 1, sizeof whole - *used, file) : 0;
    if (!length || seed_count == SEEDS) {
        fprintf(stderr, "mutants: %s can't be read\n", path);
        exit(2);
    }
    fclose(file);
    seeds[seed_count].text = whole + *used;
    seeds[seed_count].length = length;
    keep_words(seeds[seed_count++]);
    *used += length;
}

/* Puts these octets, some times over, in place of some from the place on. */
static size_t replace(char *text, size_t length, size_t at, size_t gone, const char *with, size_t with_length, size_t times) {
    static char copy[LARGE];
    size_t rest = length - at - gone;
    memcpy(copy, with, with_length);
    while (times && length - gone + with_length * times > LARGE) times--;
    memmove(text + at + with_length * times, text + at + gone, rest);
    for (length = at; times--; length += with_length) memcpy(text + length, copy, with_length);
    return length + rest;
}

/* The end of the word or sign at the place. */
static size_t end_of(const char *text, size_t length, size_t at) {
    size_t end = at + 1;
    while (is_word(text[at]) && end < length && is_word(text[end])) end++;
    return end;
}

static size_t mutate(char *text, size_t length) {
    static const char signs[] = "{}[]()<>,.;:|^&@!\"'-*/=\n\t 0\177\303\377";
    size_t at = below(length), end = end_of(text, length, at), some;
    span word = words[below(word_count)];
    char sign = signs[below(sizeof signs - 1)];
    switch (below(8)) {
    case 0: return replace(text, length, at, 1, &sign, 1, 1);
    case 1: return replace(text, length, at, end - at, word.text, word.length, 1);
    case 2: return replace(text, length, at, 0, word.text, word.length, 1);
    case 3: return replace(text, length, at, end - at, text, 0, 0);
    case 4: return replace(text, length, at, 0, &sign, 1, 1 + below(200));
    case 5: return at ? at : length;
    case 6:
        some = 1 + below(length - at < 400 ? length - at : 400);
        return replace(text, length, at, 0, text + at, some, 1 + below(40));
    default:
        some = 1 + below(length - at < 60 ? length - at : 60);
        return replace(text, length, at, some, text, 0, 0);
    }
}

static size_t make(char *text) {
    span seed = seeds[below(seed_count)];
    size_t length = seed.length < LARGE ? seed.length : LARGE, times = 1 + below(6);
    memcpy(text, seed.text, length);
    while (times-- && length) length = mutate(text, length);
    return length;
}

static void tell(unsigned long number, const char *what, const char *text, size_t length) {
    printf("mutants: %lu: %s: %.*s\n", number, what, (int)(length < 300 ? length : 300), text);
    failed = 1;
}

static int is_status(uint32_t status) {
    return status == OER_OK || status == OER_REJECTED;
}

/* Has the texts read, with that much room for the words. */
static void try_texts(unsigned long number, oer_types *types, const char *texts, size_t length, const oer_message *places, size_t count) {
    static const uint8_t nestings[] = {0, 0, 1, 2, 255};
    char said[ROOM + 16];
    size_t room = below(4) ? ROOM : below(ROOM), i;
    clock_t begin = clock();
    oer_understood answer;
    memset(said, 7, sizeof said);
#ifdef COUNT_MEMORY
    most_held = held;
#endif
    answer = oer_types_read_modules(types, texts, length, places, count, nestings[below(sizeof nestings)], said, room);
    if (!is_status(answer.status)) tell(number, "the status", texts, length);
    for (i = answer.status == OER_OK ? 0 : room; i < sizeof said; i++) {
        if (said[i] != 7) tell(number, "words where there is no room", texts, length);
    }
    if (clock() - begin > CLOCKS_PER_SEC) tell(number, "more than a second", texts, length);
#ifdef COUNT_MEMORY
    if (most_held > MOST_MEMORY) tell(number, "more than 64 MB", texts, length);
#endif
}

static void try_one(unsigned long number) {
    oer_types types = OER_TYPES_NONE;
    oer_message places[2];
    size_t length = make(mutant), more = 0;
    places[0].at = 0;
    places[0].length = length;
    if (below(4) == 0 && length < LARGE / 2) {
        more = make(other);
        if (more > LARGE - length) more = LARGE - length;
        memcpy(mutant + length, other, more);
    }
    places[1].at = length;
    places[1].length = more;
    try_texts(number, &types, mutant, length + more, places, more ? 2 : 1);
    oer_types_free(&types);
#ifdef COUNT_MEMORY
    if (held) tell(number, "memory that is not freed", mutant, length);
    held = 0;
#endif
}

int main(int count, char **arguments) {
    unsigned long number, most = count > 2 ? strtoul(arguments[1], NULL, 10) : 0;
    size_t used = 0;
    int i;
    if (!most) {
        fprintf(stderr, "usage: mutants COUNT FILE..\n");
        return 2;
    }
    for (i = 2; i < count; i++) read_seed(arguments[i], &used);
#ifdef COUNT_MEMORY
    held = 0;
#endif
    for (number = 0; number < most; number++) try_one(number);
    return failed;
}

/* Tests of the library from C: test FOLDER STRINGS [SIZES]
 *
 * FOLDER is examples/ieee1609dot2, and STRINGS is how many random strings of octets are tried. SIZES is how
 * many sizes of a buffer that is too small are tried for one answer, about; where it is left out, every one.
 * With FAIL_MEMORY defined, and linked with --wrap for malloc, realloc and free, allocations fail in turn, and
 * blocks that are left are found. It says what differs, and then its status is 1. */
#include "vectors.h"

#include <stdio.h>
#include <stdlib.h>
#include <string.h>

static int differs;

/* SIZES, or more than any answer has. */
static size_t sizes = (size_t)-1;

#define EXPECT(condition, what)                                                            \
    do {                                                                                   \
        if (!(condition)) {                                                                \
            printf("bindings/c/test.c:%d: %s: %.200s\n", __LINE__, #condition, what);      \
            differs = 1;                                                                   \
        }                                                                                  \
    } while (0)

#define COUNT(array) (sizeof(array) / sizeof((array)[0]))

/* ---- the allocator: the growth number `fail_at` fails, and blocks are counted */

#ifdef FAIL_MEMORY
static long growths, fail_at, blocks;

void *__real_malloc(size_t size);
void *__real_realloc(void *old, size_t size);
void __real_free(void *old);

void *__wrap_malloc(size_t size) {
    void *made;
    if (++growths == fail_at) return NULL;
    made = __real_malloc(size);
    blocks += made != NULL;
    return made;
}

void *__wrap_realloc(void *old, size_t size) {
    void *made;
    if (++growths == fail_at) return NULL;
    made = __real_realloc(old, size);
    blocks += made != NULL && old == NULL;
    return made;
}

void __wrap_free(void *old) {
    blocks -= old != NULL;
    __real_free(old);
}
#endif

/* ---- octets */

struct octets {
    uint8_t at[LONGEST];
    size_t length;
};

static struct octets from_hex(const char *digits) {
    static const char all[] = "0123456789abcdef";
    struct octets octets;
    memset(&octets, 0, sizeof octets);
    for (; digits[0] > ' '; digits += 2)
        octets.at[octets.length++] = (uint8_t)((strchr(all, digits[0]) - all) * 16 + (strchr(all, digits[1]) - all));
    return octets;
}

static struct octets from_text(const char *text) {
    struct octets octets;
    memset(&octets, 0, sizeof octets);
    octets.length = strlen(text);
    memcpy(octets.at, text, octets.length);
    return octets;
}

/* The text of a file, with a zero octet at the end. */
static char *contents(const char *folder, const char *name) {
    static char texts[3][65536];
    static size_t next;
    char *text = texts[next++ % 3];
    char path[1024];
    FILE *file;
    snprintf(path, sizeof path, "%s/%s", folder, name);
    file = fopen(path, "rb");
    if (!file) {
        printf("bindings/c/test.c: no file %s\n", path);
        exit(2);
    }
    text[fread(text, 1, sizeof texts[0] - 1, file)] = 0;
    fclose(file);
    return text;
}

/* ---- calls */

static oer_types types_of(const char *type) {
    char text[1024];
    oer_types types = OER_TYPES_NONE;
    oer_parsed parsed;
    snprintf(text, sizeof text, "A ::= %s", type);
    parsed = oer_types_read(&types, text, strlen(text));
    EXPECT(parsed.status == OER_OK && parsed.why == 0 && parsed.place == strlen(text), text);
    return types;
}

static struct octets given_of(const struct vector *vector) {
    int is_text = vector->task == FROM_JSON || vector->task == EXPLAIN_JSON;
    return is_text ? from_text(vector->given) : from_hex(vector->given);
}

/* The answer of a check, with its `canonical` in `written`. */
static oer_written as_written(oer_checked checked) {
    oer_written written;
    written.status = checked.status;
    written.why = checked.why;
    written.octets = checked.octets;
    written.written = checked.canonical;
    return written;
}

/* What the call of the vector answers, with the octets or the text that it is given. */
static oer_written call_with(oer_types *types, const char *name, const struct vector *vector,
                             const struct octets *given, uint8_t *out, size_t room) {
    size_t length = strlen(name);
    switch (vector->task) {
    case CANON:
        return oer_canon(types, name, length, given->at, given->length, vector->limit, out, room);
    case PART:
        return oer_part(types, name, length, given->at, given->length, vector->path, strlen(vector->path), out, room);
    case TO_JSON:
        return oer_to_json(types, name, length, given->at, given->length, vector->limit, (char *)out, room);
    case FROM_JSON:
        return oer_from_json(types, name, length, (const char *)given->at, given->length, out, room);
    case EXPLAIN_JSON:
        return oer_explain_json(types, name, length, (const char *)given->at, given->length, (char *)out, room);
    case EXPLAIN_OCTETS:
        return oer_explain_octets(types, name, length, given->at, given->length, (char *)out, room);
    case WHOLE:
        return as_written(oer_check_whole(types, name, length, given->at, given->length));
    default:
        return as_written(oer_check(types, name, length, given->at, given->length));
    }
}

static oer_written call(oer_types *types, const char *name, const struct vector *vector, uint8_t *out, size_t room) {
    struct octets given = given_of(vector);
    return call_with(types, name, vector, &given, out, room);
}

static int is_only(oer_written answer, uint32_t status) {
    return answer.status == status && answer.why == 0 && answer.octets == 0 && answer.written == 0;
}

/* That all octets of the buffer from `from` on are `fill`. */
static int are_all(const uint8_t *buffer, size_t from, size_t to, uint8_t fill) {
    for (; from < to; from++)
        if (buffer[from] != fill) return 0;
    return 1;
}

static struct octets wanted(const struct vector *vector) {
    int is_text = vector->task == TO_JSON || vector->task == EXPLAIN_JSON || vector->task == EXPLAIN_OCTETS;
    if (!vector->answer) return from_text("");
    return is_text ? from_text(vector->answer) : from_hex(vector->answer);
}

/* ---- the table */

/* Each size below what is needed is too small, and leaves the buffer as it was. */
static void test_room(oer_types *types, const struct vector *vector, size_t needed) {
    struct octets given = given_of(vector);
    uint8_t out[LONGEST];
    size_t room;
    memset(out, 0xbb, sizeof out);
    for (room = 0; room < needed; room += 1 + needed / sizes) {
        oer_written answer = call_with(types, "A", vector, &given, out, room);
        EXPECT(answer.status == OER_ROOM && answer.why == 0, vector->given);
        EXPECT(answer.octets == vector->octets && answer.written == vector->written, vector->given);
    }
    EXPECT(are_all(out, 0, sizeof out, 0xbb), vector->given);
}

static void test_vector(const struct vector *vector) {
    oer_types types = types_of(vector->type);
    struct octets want = wanted(vector);
    uint8_t out[LONGEST];
    oer_written answer;
    memset(out, 0xaa, sizeof out);
    answer = call(&types, "A", vector, out, sizeof out);
    EXPECT(answer.status == vector->status && answer.why == vector->why, vector->given);
    EXPECT(answer.octets == vector->octets && answer.written == vector->written, vector->given);
    EXPECT(memcmp(out, want.at, want.length) == 0, vector->given);
    EXPECT(are_all(out, want.length, sizeof out, 0xaa), vector->given);
    test_room(&types, vector, want.length);
    memset(out, 0xcc, sizeof out);
    EXPECT(is_only(call(&types, "B", vector, out, sizeof out), OER_UNNAMED), vector->given);
    EXPECT(is_only(call(&types, "", vector, out, sizeof out), OER_UNNAMED), vector->given);
    EXPECT(is_only(call(&types, "\377", vector, out, sizeof out), OER_UNNAMED), vector->given);
    oer_types_free(&types);
    EXPECT(is_only(call(&types, "A", vector, out, sizeof out), OER_NO_TYPES), vector->given);
    oer_types_free(&types);
    EXPECT(is_only(call(&types, "A", vector, out, sizeof out), OER_NO_TYPES), vector->given);
    EXPECT(are_all(out, 0, sizeof out, 0xcc), vector->given);
}

/* What a buffer has in it before the call changes nothing: here it has nothing, as valgrind sees it, and is
 * as long as the answer. */
static void test_unset_buffer(const struct vector *vector) {
    oer_types types = types_of(vector->type);
    struct octets want = wanted(vector);
    uint8_t *out = (uint8_t *)malloc(want.length + !want.length);
    oer_written answer = call(&types, "A", vector, out, want.length);
    EXPECT(answer.status == vector->status && answer.written == vector->written, vector->given);
    EXPECT(memcmp(out, want.at, want.length) == 0, vector->given);
    free(out);
    oer_types_free(&types);
}

static int is_located(oer_located answer, uint32_t status, uint32_t why, uint64_t octets, size_t at, size_t length) {
    return answer.status == status && answer.why == why && answer.octets == octets && answer.at == at &&
        answer.length == length;
}

static oer_located locate(oer_types *types, const char *name, const struct octets *given, const char *path) {
    return oer_part_at(types, name, strlen(name), given->at, given->length, path, strlen(path));
}

static oer_located locate_named(oer_types *types, const char *name, const struct octets *given, const char *names) {
    return oer_part_named_at(types, name, strlen(name), given->at, given->length, names, strlen(names));
}

/* How parts are located: by a path or by names. */
typedef oer_located (*locator)(oer_types *types, const char *name, const struct octets *given, const char *path);

static void test_place(const struct place *place, locator locate) {
    oer_types types = types_of(place->type);
    struct octets given = from_hex(place->given);
    oer_located answer = locate(&types, "A", &given, place->path);
    EXPECT(is_located(answer, place->status, place->why, place->octets, place->at, place->length), place->given);
    EXPECT(is_located(locate(&types, "B", &given, place->path), OER_UNNAMED, 0, 0, 0, 0), place->given);
    EXPECT(is_located(locate(&types, "\377", &given, place->path), OER_UNNAMED, 0, 0, 0, 0), place->given);
    oer_types_free(&types);
    EXPECT(is_located(locate(&types, "A", &given, place->path), OER_NO_TYPES, 0, 0, 0, 0), place->given);
}

static oer_written take_named(oer_types *types, const char *name, const struct octets *given, const char *names,
                              uint8_t *out, size_t room) {
    return oer_part_named(types, name, strlen(name), given->at, given->length, names, strlen(names), out, room);
}

/* That oer_part_named copies the part that lies there, or answers why there is none; and nothing into a buffer that is too small. */
static void test_taken(const struct place *place) {
    oer_types types = types_of(place->type);
    struct octets given = from_hex(place->given);
    uint8_t out[LONGEST];
    oer_written answer;
    size_t room;
    memset(out, 0xaa, sizeof out);
    answer = take_named(&types, "A", &given, place->path, out, sizeof out);
    EXPECT(answer.status == place->status && answer.why == place->why, place->given);
    EXPECT(answer.octets == place->octets && answer.written == place->length, place->given);
    EXPECT(memcmp(out, given.at + place->at, place->length) == 0, place->given);
    EXPECT(are_all(out, place->length, sizeof out, 0xaa), place->given);
    memset(out, 0xbb, sizeof out);
    for (room = 0; room < place->length; room++) {
        answer = take_named(&types, "A", &given, place->path, out, room);
        EXPECT(answer.status == OER_ROOM && answer.octets == place->octets && answer.written == place->length, place->given);
    }
    EXPECT(is_only(take_named(&types, "B", &given, place->path, out, sizeof out), OER_UNNAMED), place->given);
    oer_types_free(&types);
    EXPECT(is_only(take_named(&types, "A", &given, place->path, out, sizeof out), OER_NO_TYPES), place->given);
    EXPECT(are_all(out, 0, sizeof out, 0xbb), place->given);
}

/* That the part which oer_part copies is where oer_part_at says. */
static void test_located(const struct vector *vector) {
    oer_types types = types_of(vector->type);
    struct octets given = from_hex(vector->given), want = wanted(vector);
    oer_located answer = locate(&types, "A", &given, vector->path);
    EXPECT(answer.status == vector->status && answer.why == vector->why && answer.octets == vector->octets, vector->given);
    EXPECT(answer.length == want.length && answer.at + answer.length <= given.length, vector->given);
    EXPECT(memcmp(given.at + answer.at, want.at, want.length) == 0, vector->given);
    oer_types_free(&types);
}

/* That an answer of many is that of the message alone. */
static int is_answer(oer_types *types, const struct octets *given, oer_message message, oer_checked answer) {
    oer_checked alone;
    if (message.at > given->length || message.length > given->length - message.at)
        return answer.status == OER_OUTSIDE && answer.why == 0 && answer.octets == 0 && answer.canonical == 0;
    alone = oer_check(types, "A", 1, given->at + message.at, message.length);
    return alone.status == answer.status && alone.why == answer.why && alone.octets == answer.octets &&
        alone.canonical == answer.canonical;
}

/* That the answers from `from` on are as they were made. */
static int are_kept(const oer_checked *answers, size_t from, size_t to) {
    for (; from < to; from++)
        if (answers[from].status != 77 || answers[from].octets != 77) return 0;
    return 1;
}

/* The octets of the vector as messages: all of them, each front, each rest, and some that aren't all there. */
static void test_many(const struct vector *vector) {
    static oer_message messages[64];
    static oer_checked answers[COUNT(messages) + 2];
    oer_types types = types_of(vector->type);
    struct octets given = from_hex(vector->given);
    size_t count = 0, i;
    for (i = 0; i <= given.length && count < 40; i++) {
        messages[count].at = 0;
        messages[count++].length = i;
        messages[count].at = i;
        messages[count++].length = given.length - i;
    }
    for (i = 1; i <= 2; i++) {
        messages[count].at = i;
        messages[count++].length = given.length;
        messages[count].at = given.length + i;
        messages[count++].length = 0;
        messages[count].at = (size_t)-1;
        messages[count++].length = i;
        messages[count].at = i;
        messages[count++].length = (size_t)-1;
    }
    for (i = 0; i < COUNT(answers); i++) {
        answers[i].status = 77;
        answers[i].octets = 77;
    }
    EXPECT(oer_check_many(&types, "A", 1, given.at, given.length, messages, count, answers, count - 1) == OER_ROOM, vector->given);
    EXPECT(oer_check_many(&types, "B", 1, given.at, given.length, messages, count, answers, count) == OER_UNNAMED, vector->given);
    EXPECT(are_kept(answers, 0, COUNT(answers)), vector->given);
    EXPECT(oer_check_many(&types, "A", 1, given.at, given.length, messages, count, answers, COUNT(answers)) == OER_OK, vector->given);
    for (i = 0; i < count; i++) EXPECT(is_answer(&types, &given, messages[i], answers[i]), vector->given);
    EXPECT(are_kept(answers, count, COUNT(answers)), vector->given);
    oer_types_free(&types);
    EXPECT(oer_check_many(&types, "A", 1, given.at, given.length, messages, count, answers, count) == OER_NO_TYPES, vector->given);
}

static oer_written explain(const char *text, uint8_t *out, size_t room) {
    return oer_explain_types(text, strlen(text), (char *)out, room);
}

/* A text that is rejected leaves the types from before, and there are lines on it. */
static void test_rejected_text(const struct rejected_text *row) {
    uint8_t none;
    oer_types types = OER_TYPES_NONE;
    struct vector check = { CHECK, 0, "ff", 0, OER_NO_LIMIT, 0, 0, 0, 0, 0 };
    oer_parsed parsed = oer_types_read(&types, row->text, strlen(row->text));
    EXPECT(parsed.status == OER_REJECTED && parsed.why == row->why && parsed.place == row->place, row->text);
    EXPECT(is_only(call(&types, "A", &check, 0, 0), OER_NO_TYPES), row->text);
    oer_types_free(&types);
    types = types_of("BOOLEAN");
    parsed = oer_types_read(&types, row->text, strlen(row->text));
    EXPECT(parsed.status == OER_REJECTED && parsed.why == row->why && parsed.place == row->place, row->text);
    EXPECT(call(&types, "A", &check, 0, 0).octets == 1, row->text);
    EXPECT(explain(row->text, &none, 0).status == OER_ROOM, row->text);
    oer_types_free(&types);
}

/* That the lines on the text are written, and nothing into a buffer that is too small. */
static void test_explained_text(const struct explained_text *row) {
    size_t length = strlen(row->lines), room;
    uint8_t out[LONGEST];
    oer_written answer;
    memset(out, 0xaa, sizeof out);
    answer = explain(row->text, out, sizeof out);
    EXPECT(answer.status == OER_OK && answer.why == 0 && answer.octets == 0 && answer.written == length, row->text);
    EXPECT(memcmp(out, row->lines, length) == 0 && are_all(out, length, sizeof out, 0xaa), (char *)out);
    memset(out, 0xbb, sizeof out);
    for (room = 0; room < length; room++) {
        answer = explain(row->text, out, room);
        EXPECT(answer.status == OER_ROOM && answer.why == 0 && answer.octets == 0 && answer.written == length, row->text);
    }
    EXPECT(are_all(out, 0, sizeof out, 0xbb), row->text);
    answer = explain(row->text, out, length);
    EXPECT(answer.status == OER_OK && memcmp(out, row->lines, length) == 0, row->text);
}

/* Definitions whose types have more parts together than they may have leave the types from before. */
static void test_read_within(void) {
    static const struct { const char *text; uint64_t parts; uint32_t status, why; uint64_t place; } rows[] = {
        { "A ::= NULL B ::= SEQUENCE {a A}", 3, OER_OK, 0, 31 },
        { "A ::= NULL B ::= SEQUENCE {a A}", 2, OER_REJECTED, OER_TEXT_PARTS, 11 },
        { "A ::= NULL", UINT64_MAX, OER_OK, 0, 10 },
        { "A ::= NULL", 0, OER_REJECTED, OER_TEXT_PARTS, 0 },
        { "A ::= NULL B ::= C", 1, OER_REJECTED, OER_TEXT_NAME, 17 },
        { "A ::= \377", 1, OER_REJECTED, OER_TEXT_NOT_UTF8, 6 }
    };
    struct vector check = { CHECK, 0, "ff", 0, OER_NO_LIMIT, 0, 0, 0, 0, 0 };
    size_t i;
    for (i = 0; i < COUNT(rows); i++) {
        oer_types types = types_of("BOOLEAN");
        oer_parsed parsed = oer_types_read_within(&types, rows[i].text, strlen(rows[i].text), rows[i].parts);
        EXPECT(parsed.status == rows[i].status && parsed.why == rows[i].why && parsed.place == rows[i].place, rows[i].text);
        EXPECT(call(&types, "A", &check, 0, 0).octets == (rows[i].status == OER_OK ? 0 : 1), rows[i].text);
        oer_types_free(&types);
    }
}

/* NULL has nothing to free, also where the call is known by its address. */
static void test_free_of_null(void) {
    void (*volatile free_by)(oer_types *) = oer_types_free;
    oer_types types = types_of("BOOLEAN");
    struct vector check = { CHECK, 0, "ff", 0, OER_NO_LIMIT, 0, 0, 0, 0, 0 };
    oer_types_free(NULL);
    free_by(NULL);
    EXPECT(call(&types, "A", &check, 0, 0).octets == 1, "types that are not freed");
    free_by(&types);
    EXPECT(is_only(call(&types, "A", &check, 0, 0), OER_NO_TYPES), "types that are freed");
}

static void test_kept_types(void) {
    struct vector check = { CHECK, 0, "ff", 0, OER_NO_LIMIT, 0, 0, 0, 0, 0 };
    oer_types types = OER_TYPES_NONE, other;
    EXPECT(is_only(call(&types, "A", &check, 0, 0), OER_NO_TYPES), "before any types are read");
    oer_types_free(&types);
    types = types_of("BOOLEAN");
    EXPECT(oer_types_read(&types, "B ::= NULL", 10).status == OER_OK, "types in place of others");
    EXPECT(is_only(call(&types, "A", &check, 0, 0), OER_UNNAMED), "the earlier types are gone");
    EXPECT(call(&types, "B", &check, 0, 0).status == OER_OK, "the new types");
    other = types;
    EXPECT(call(&other, "B", &check, 0, 0).status == OER_OK, "types that were moved");
    oer_types_free(&other);
}

/* Types that two have: each has them until it is freed, or has others. */
static void test_shared_types(void) {
    struct vector check = { CHECK, 0, "ff", 0, OER_NO_LIMIT, 0, 0, 0, 0, 0 };
    oer_types types = OER_TYPES_NONE, other = types_of("BOOLEAN");
    EXPECT(oer_types_share(&types, &other) == OER_NO_TYPES, "no types to share");
    EXPECT(call(&other, "A", &check, 0, 0).status == OER_OK, "no types in place of others");
    EXPECT(oer_types_share(&other, &types) == OER_OK, "types that are shared");
    EXPECT(call(&other, "A", &check, 0, 0).status == OER_OK, "the one");
    EXPECT(call(&types, "A", &check, 0, 0).status == OER_OK, "the other");
    EXPECT(oer_types_read(&other, "B ::= BOOLEAN", 13).status == OER_OK, "types in place of shared ones");
    EXPECT(call(&other, "B", &check, 0, 0).status == OER_OK, "the new types");
    EXPECT(call(&types, "A", &check, 0, 0).status == OER_OK, "the shared types");
    EXPECT(oer_types_share(&other, &types) == OER_OK, "types in place of others");
    oer_types_free(&other);
    EXPECT(is_only(call(&other, "B", &check, 0, 0), OER_NO_TYPES), "types that were freed");
    EXPECT(is_only(call(&types, "A", &check, 0, 0), OER_UNNAMED), "the earlier types are gone");
    EXPECT(call(&types, "B", &check, 0, 0).status == OER_OK, "types that the other freed");
    oer_types_free(&types);
}

/* ---- modules */

/* Reads texts that stand one after another. */
static oer_understood read_modules(oer_types *types, const char *const *texts, size_t count, uint8_t nesting,
                                   char *words, size_t room) {
    static char all[2 * 65536];
    oer_message places[2];
    size_t length = 0, i;
    for (i = 0; i < count; i++) {
        places[i].at = length;
        places[i].length = strlen(texts[i]);
        memcpy(all + length, texts[i], places[i].length);
        length += places[i].length;
    }
    return oer_types_read_modules(types, all, length, places, count, nesting, words, room);
}

static int is_understood(oer_understood answer, uint32_t status, uint32_t why, uint64_t text, uint64_t place, uint64_t line,
                         uint64_t column, uint64_t words) {
    return answer.status == status && answer.why == why && answer.text == text && answer.place == place &&
        answer.line == line && answer.column == column && answer.words == words;
}

/* Modules that are rejected leave the types from before, and as many words as there is room for. */
static void test_rejected_modules(const struct modules_row *row) {
    static const size_t rooms[] = { 0, 1, 20, 256 };
    const char *texts[2];
    struct vector check = { CHECK, 0, "ff", 0, OER_NO_LIMIT, 0, 0, 0, 0, 0 };
    oer_types types = types_of("BOOLEAN");
    uint8_t words[300];
    size_t i;
    texts[0] = row->first;
    texts[1] = row->second;
    for (i = 0; i < COUNT(rooms); i++) {
        size_t length = strlen(row->words) < rooms[i] ? strlen(row->words) : rooms[i];
        oer_understood answer;
        memset(words, 0xbb, sizeof words);
        answer = read_modules(&types, texts, row->second ? 2 : 1, 0, (char *)words, rooms[i]);
        EXPECT(is_understood(answer, OER_REJECTED, row->why, row->text, row->place, row->line, row->column, length), row->first);
        EXPECT(memcmp(words, row->words, length) == 0 && are_all(words, length, sizeof words, 0xbb), (char *)words);
    }
    EXPECT(call(&types, "A", &check, 0, 0).octets == 1, row->first);
    oer_types_free(&types);
}

/* A place that isn't all in the texts. */
static void test_modules_outside(void) {
    static const char text[] = MODULE("A ::= NULL");
    static const oer_message outside[] = { { sizeof text, 0 }, { 1, sizeof text - 1 }, { (size_t)-1, 2 }, { 2, (size_t)-1 } };
    oer_message places[2];
    oer_types types = types_of("BOOLEAN");
    struct vector check = { CHECK, 0, "ff", 0, OER_NO_LIMIT, 0, 0, 0, 0, 0 };
    char words[4] = "abc";
    size_t i;
    places[0].at = 0;
    places[0].length = strlen(text);
    for (i = 0; i < COUNT(outside); i++) {
        oer_understood answer;
        places[1] = outside[i];
        answer = oer_types_read_modules(&types, text, strlen(text), places, 2, 0, words, sizeof words);
        EXPECT(is_understood(answer, OER_OUTSIDE, 0, 2, 0, 0, 0, 0), "a text that is outside");
    }
    EXPECT(strcmp(words, "abc") == 0 && call(&types, "A", &check, 0, 0).octets == 1, "a text that is outside");
    EXPECT(oer_types_read_modules(&types, text, strlen(text), places, 1, 0, words, 0).status == OER_OK, text);
    EXPECT(call(&types, "A", &check, 0, 0).octets == 0, "types in place of others");
    places[0].length = 0;
    EXPECT(oer_types_read_modules(&types, text, 0, places, 0, 0, words, 4).why == OER_MODULES_NO_TYPES, "no text");
    oer_types_free(&types);
}

/* The modules of the example, by either order. */
static void test_modules(const char *folder) {
    static const char json[] = "{\"report\":{\"position\":{\"north\":1,\"east\":2}}}";
    struct octets message = from_hex("80000000000100000002"), deep = from_hex("01818000"), out;
    const char *texts[2];
    oer_types types = types_of("BOOLEAN");
    char words[4] = "abc";
    int turn;
    for (turn = 0; turn < 2; turn++) {
        oer_written answer;
        oer_checked checked;
        texts[turn] = contents(folder, "../modules/common.asn");
        texts[1 - turn] = contents(folder, "../modules/messages.asn");
        EXPECT(is_understood(read_modules(&types, texts, 2, 0, words, sizeof words), OER_OK, 0, 0, 0, 0, 0, 0), "modules");
        checked = oer_check_whole(&types, "Message", 7, message.at, message.length);
        EXPECT(checked.status == OER_OK && checked.octets == message.length, "a message");
        answer = oer_from_json(&types, "Message", 7, json, strlen(json), out.at, sizeof out.at);
        EXPECT(answer.status == OER_OK && answer.written == message.length, "a message from JSON");
        EXPECT(memcmp(out.at, message.at, message.length) == 0, "a message from JSON");
        EXPECT(oer_check(&types, "Position", 8, message.at + 2, 8).octets == 8, "a type of the other text");
        EXPECT(oer_check(&types, "Log", 3, message.at, message.length).status == OER_UNNAMED, "a type that is refused");
        EXPECT(oer_check(&types, "A", 1, message.at, message.length).status == OER_UNNAMED, "the earlier types are gone");
        checked = oer_check(&types, "Forwarded", 9, deep.at, deep.length);
        EXPECT(checked.status == OER_REJECTED && checked.why == OER_INTEGER_RANGE && checked.octets == 3, "as deep as it fits");
        EXPECT(is_only(as_written(oer_check_nesting(&types, "Forwarded", 9, deep.at, deep.length)), OER_OK), "as deep as it fits");
        EXPECT(read_modules(&types, texts, 2, 1, words, sizeof words).status == OER_OK, "nesting");
        checked = oer_check(&types, "Forwarded", 9, deep.at, deep.length);
        EXPECT(checked.status == OER_REJECTED && checked.why == OER_UNKNOWN_ALTERNATIVE && checked.octets == 3, "nesting 1");
        checked = oer_check_nesting(&types, "Forwarded", 9, deep.at, deep.length);
        EXPECT(checked.status == OER_REJECTED && checked.why == OER_NESTING && checked.octets == 3 && checked.canonical == 0, "nesting 1");
        EXPECT(is_only(as_written(oer_check_nesting(&types, "Forwarded", 9, deep.at, 2)), OER_OK), "octets that end before");
        EXPECT(is_only(as_written(oer_check_nesting(&types, "A", 1, deep.at, deep.length)), OER_UNNAMED), "no such name");
    }
    EXPECT(strcmp(words, "abc") == 0, "no words");
    oer_types_free(&types);
    EXPECT(is_only(as_written(oer_check_nesting(&types, "Forwarded", 9, deep.at, deep.length)), OER_NO_TYPES), "no types");
}

/* ---- the certificate of the example */

static void test_certificate(const char *folder) {
    char *text = contents(folder, "types.asn");
    struct octets certificate = from_hex(contents(folder, "certificate-rsu.hex"));
    struct octets basic = from_hex(contents(folder, "certificate-rsu-basic.hex"));
    oer_types types = OER_TYPES_NONE;
    struct octets out, json;
    oer_checked checked;
    oer_written answer;
    EXPECT(oer_types_read(&types, text, strlen(text)).status == OER_OK, "types.asn");
    checked = oer_check(&types, "Certificate", 11, certificate.at, certificate.length);
    EXPECT(checked.status == OER_OK && checked.octets == 230 && checked.canonical == 1, "certificate");
    checked = oer_check(&types, "Certificate", 11, basic.at, basic.length);
    EXPECT(checked.status == OER_OK && checked.octets == 236 && checked.canonical == 0, "basic");
    checked = oer_check_whole(&types, "Certificate", 11, certificate.at, certificate.length);
    EXPECT(checked.status == OER_OK && checked.octets == 230, "the whole certificate");
    checked = oer_check_whole(&types, "Certificate", 11, certificate.at, certificate.length + 1);
    EXPECT(checked.status == OER_FOLLOWS && checked.octets == 230, "a certificate and an octet");
    checked = oer_check_whole(&types, "Certificate", 11, basic.at, basic.length);
    EXPECT(checked.status == OER_NOT_CANONICAL && checked.octets == 236, "the whole basic one");
    answer = oer_canon(&types, "Certificate", 11, basic.at, basic.length, 236, out.at, 230);
    EXPECT(answer.status == OER_OK && answer.octets == 236 && answer.written == 230, "canon");
    EXPECT(memcmp(out.at, certificate.at, 230) == 0, "canon");
    answer = oer_canon(&types, "Certificate", 11, basic.at, basic.length, 235, out.at, 230);
    EXPECT(answer.status == OER_REJECTED && answer.why == OER_LIMIT && answer.written == 0, "limit");
    answer = oer_part(&types, "Certificate", 11, certificate.at, 230, "c3", 2, out.at, sizeof out.at);
    EXPECT(answer.status == OER_OK && answer.octets == 230 && answer.written == 152, "toBeSigned");
    EXPECT(memcmp(out.at, certificate.at + 12, 152) == 0, "toBeSigned");
    EXPECT(is_located(locate(&types, "Certificate", &certificate, "c3"), OER_OK, 0, 230, 12, 152), "toBeSigned");
    EXPECT(is_located(locate_named(&types, "Certificate", &certificate, "toBeSigned"), OER_OK, 0, 230, 12, 152), "toBeSigned");
    EXPECT(is_located(locate_named(&types, "Certificate", &certificate, "toBeSigned.crlSeries"), OER_OK, 0, 230, 32, 2), "crlSeries");
    EXPECT(is_located(locate_named(&types, "Certificate", &certificate, "toBeSigned.appPermissions.0.psid"), OER_OK, 0, 230, 70, 2), "psid");
    answer = oer_to_json(&types, "Certificate", 11, basic.at, basic.length, OER_NO_LIMIT, (char *)json.at, sizeof json.at);
    EXPECT(answer.status == OER_OK && answer.octets == 236, "to_json");
    answer = oer_from_json(&types, "Certificate", 11, (char *)json.at, (size_t)answer.written, out.at, sizeof out.at);
    EXPECT(answer.status == OER_OK && answer.written == 230, "from_json");
    EXPECT(memcmp(out.at, certificate.at, 230) == 0, "from_json");
    oer_types_free(&types);
}

/* ---- memory */

#ifdef FAIL_MEMORY
/* The call where each of its growths fails in turn, up to the run where none fails: that one
 * gives the answer of the vector, and each before it says that memory ran out. A near name is found without some of it. */
static void fail_in_turn(const struct vector *vector) {
    oer_types types = types_of(vector->type);
    long before = blocks, nth;
    uint8_t out[LONGEST];
    oer_written answer;
    for (nth = 1;; nth++) {
        memset(out, 0xdd, sizeof out);
        growths = 0;
        fail_at = nth;
        answer = call(&types, "A", vector, out, sizeof out);
        fail_at = 0;
        EXPECT(blocks == before, vector->given);
        if (growths < nth) break;
        if (vector->task == EXPLAIN_JSON && answer.status == OER_OK) {
            EXPECT(answer.written == vector->written && memcmp(out, vector->answer, (size_t)answer.written) == 0, vector->given);
            continue;
        }
        EXPECT(is_only(answer, OER_MEMORY), vector->given);
        EXPECT(are_all(out, 0, sizeof out, 0xdd), vector->given);
    }
    EXPECT(answer.status == vector->status && answer.why == vector->why, vector->given);
    EXPECT(answer.octets == vector->octets && answer.written == vector->written, vector->given);
    EXPECT((vector->task != CHECK && vector->task != WHOLE) || nth == 1, "a check takes no memory");
    oer_types_free(&types);
}

/* The same where a part is located. */
static void fail_place_in_turn(const struct place *place, locator locate) {
    oer_types types = types_of(place->type);
    struct octets given = from_hex(place->given);
    long before = blocks, nth;
    oer_located answer;
    for (nth = 1;; nth++) {
        growths = 0;
        fail_at = nth;
        answer = locate(&types, "A", &given, place->path);
        fail_at = 0;
        EXPECT(blocks == before, place->given);
        if (growths < nth) break;
        EXPECT(is_located(answer, OER_MEMORY, 0, 0, 0, 0), place->given);
    }
    EXPECT(is_located(answer, place->status, place->why, place->octets, place->at, place->length), place->given);
    oer_types_free(&types);
}

/* Sharing types where each growth fails in turn: the other's types are those from before. */
static void fail_sharing_in_turn(void) {
    struct vector check = { CHECK, 0, "ff", 0, OER_NO_LIMIT, 0, 0, 0, 0, 0 };
    oer_types types = types_of("BOOLEAN"), other = types_of("NULL");
    long before = blocks, nth;
    uint32_t status;
    for (nth = 1;; nth++) {
        growths = 0;
        fail_at = nth;
        status = oer_types_share(&types, &other);
        fail_at = 0;
        if (growths < nth) break;
        EXPECT(status == OER_MEMORY && blocks == before, "types that are shared");
        EXPECT(call(&types, "A", &check, 0, 0).octets == 1, "the one");
        EXPECT(call(&other, "A", &check, 0, 0).octets == 0, "the other");
    }
    EXPECT(nth > 1 && status == OER_OK && call(&other, "A", &check, 0, 0).octets == 1, "types that are shared");
    oer_types_free(&types);
    oer_types_free(&other);
}

/* Reading a text of modules where each growth fails in turn: the types and the words are those from before. Two growths it may do without
 * each time that it reads the text, and then gives its own answer: room for all modules of the text at once, and for their places. */
static void fail_modules_in_turn(const char *text, uint32_t status, long times) {
    struct vector check = { CHECK, 0, "ff", 0, OER_NO_LIMIT, 0, 0, 0, 0, 0 };
    long start = blocks, without = 0, nth;
    for (nth = 1;; nth++) {
        oer_types types = types_of("BOOLEAN");
        char words[256] = "abc";
        long before = blocks;
        oer_understood answer;
        growths = 0;
        fail_at = nth;
        answer = read_modules(&types, &text, 1, 1, words, sizeof words);
        fail_at = 0;
        if (answer.status != status) {
            EXPECT(is_understood(answer, OER_MEMORY, 0, 0, 0, 0, 0, 0), text);
            EXPECT(blocks == before && strcmp(words, "abc") == 0, text);
            EXPECT(call(&types, "A", &check, 0, 0).octets == 1, text);
        }
        oer_types_free(&types);
        EXPECT(blocks == start, text);
        if (growths < nth) {
            EXPECT(answer.status == status && nth > 1 && without <= 2 * times, text);
            break;
        }
        without += answer.status == status;
    }
}

/* Reading the text where each growth fails in turn: the types are those from before. */
static long fail_text_in_turn(const char *text) {
    oer_types types = types_of("BOOLEAN");
    struct vector check = { CHECK, 0, "ff", 0, OER_NO_LIMIT, 0, 0, 0, 0, 0 };
    long before = blocks, nth;
    oer_parsed parsed;
    for (nth = 1;; nth++) {
        growths = 0;
        fail_at = nth;
        parsed = oer_types_read(&types, text, strlen(text));
        fail_at = 0;
        if (growths < nth) break;
        EXPECT(parsed.status == OER_MEMORY && parsed.why == 0 && parsed.place == 0, text);
        EXPECT(blocks == before, text);
        EXPECT(call(&types, "A", &check, 0, 0).octets == 1, text);
    }
    EXPECT(parsed.status == OER_OK && parsed.place == strlen(text), text);
    oer_types_free(&types);
    return nth - 1;
}

/* Explaining why the text is rejected where each growth fails in turn. */
static void fail_explained_in_turn(const struct explained_text *row) {
    long before = blocks, nth;
    uint8_t out[LONGEST];
    oer_written answer;
    memset(out, 0xdd, sizeof out);
    for (nth = 1;; nth++) {
        growths = 0;
        fail_at = nth;
        answer = explain(row->text, out, sizeof out);
        fail_at = 0;
        EXPECT(blocks == before, row->text);
        if (growths < nth) break;
        EXPECT(is_only(answer, OER_MEMORY) && are_all(out, 0, sizeof out, 0xdd), row->text);
    }
    EXPECT(nth > 1 && answer.status == OER_OK && answer.written == strlen(row->lines), row->text);
}

static void test_memory(const char *folder) {
    size_t i;
    long failed = 0;
    for (i = 0; i < COUNT(vectors); i++) fail_in_turn(&vectors[i]);
    for (i = 0; i < COUNT(places); i++) fail_place_in_turn(&places[i], locate);
    for (i = 0; i < COUNT(named_places); i++) fail_place_in_turn(&named_places[i], locate_named);
    for (i = 0; i < COUNT(explained_texts); i++) fail_explained_in_turn(&explained_texts[i]);
    fail_sharing_in_turn();
    fail_modules_in_turn(MODULE("A ::= SEQUENCE {a INTEGER (0..most), b A OPTIONAL} B ::= SET {} most INTEGER ::= 7"), OER_OK, 1);
    for (i = 0; i < COUNT(rejected_modules); i++)
        if (!rejected_modules[i].second && rejected_modules[i].why != OER_MODULES_NOT_UTF8)
            /* a text that gives no types is read again, for what is said of them */
            fail_modules_in_turn(rejected_modules[i].first, OER_REJECTED, rejected_modules[i].why == OER_MODULES_NO_TYPES ? 2 : 1);
    for (i = 0; i < COUNT(vectors); i++) {
        char text[1024];
        if (i && strcmp(vectors[i].type, vectors[i - 1].type) == 0) continue;
        snprintf(text, sizeof text, "A ::= %s", vectors[i].type);
        failed += fail_text_in_turn(text);
    }
    /* the definitions up to those of certificates: each growth of the text is refused in turn */
    char *text = contents(folder, "types.asn");
    *strstr(text, "-- Secured data") = 0;
    failed += fail_text_in_turn(text);
    EXPECT(failed > 100, "growths fail");
    EXPECT(blocks == 0, "all blocks are given back");
}
#endif

/* ---- random octets */

static uint64_t random_state = 88172645463325252u;

static uint32_t random_below(uint32_t bound) {
    random_state ^= random_state << 13;
    random_state ^= random_state >> 7;
    random_state ^= random_state << 17;
    return (uint32_t)(random_state >> 33) % bound;
}

/* Small octets, so that many strings are encodings; or an octet of any kind. */
static uint8_t random_octet(void) {
    static const uint8_t common[] = { 0x00, 0x01, 0x02, 0x03, 0x80, 0x81, 0x82, 0xff, 0x20, 0x60 };
    return random_below(4) ? common[random_below(COUNT(common))] : (uint8_t)random_below(256);
}

/* How many strings are encodings, and how many of these are canonical. */
static long encodings, canonicals;

/* What oer_check_whole answers follows from what oer_check does. */
static void compare_whole(oer_types *types, const uint8_t *octets, size_t length, oer_checked checked) {
    oer_checked whole = oer_check_whole(types, "A", 1, octets, length);
    uint32_t wanted = checked.status;
    if (wanted == OER_OK && !checked.canonical) wanted = OER_NOT_CANONICAL;
    if (checked.status == OER_OK && checked.octets < length) wanted = OER_FOLLOWS;
    EXPECT(whole.status == wanted && whole.why == checked.why, "the whole");
    EXPECT(whole.octets == checked.octets && whole.canonical == checked.canonical, "the whole");
}

/* That the calls agree on the octets. */
static void compare(oer_types *types, const uint8_t *octets, size_t length) {
    uint8_t out[256], again[256];
    char json[4096], lines[16384];
    oer_checked checked = oer_check(types, "A", 1, octets, length), made;
    oer_written explained = oer_explain_octets(types, "A", 1, octets, length, lines, sizeof lines);
    oer_written canon = oer_canon(types, "A", 1, octets, length, OER_NO_LIMIT, out, sizeof out);
    oer_written shown = oer_to_json(types, "A", 1, octets, length, OER_NO_LIMIT, json, sizeof json);
    oer_written back;
    EXPECT(canon.status == checked.status && shown.status == checked.status, "status");
    EXPECT(canon.why == checked.why && shown.why == checked.why, "why");
    EXPECT(canon.octets == checked.octets && shown.octets == checked.octets, "octets");
    EXPECT(explained.status == OER_OK && (explained.written == 0) == (checked.status == OER_OK), "explained");
    compare_whole(types, octets, length, checked);
    if (checked.status != OER_OK) {
        EXPECT(checked.status == OER_REJECTED && checked.why >= OER_END && checked.why <= OER_UNKNOWN_ADDITION, "a reason");
        EXPECT(checked.octets <= length && canon.written == 0, "octets");
        return;
    }
    encodings++;
    canonicals += checked.canonical;
    EXPECT(checked.canonical == (canon.written == checked.octets && !memcmp(out, octets, (size_t)canon.written)), "canonical");
    made = oer_check(types, "A", 1, out, (size_t)canon.written);
    EXPECT(made.status == OER_OK && made.octets == canon.written && made.canonical == 1, "canonical octets");
    back = oer_from_json(types, "A", 1, json, (size_t)shown.written, again, sizeof again);
    EXPECT(back.status == OER_OK && back.written == canon.written && !memcmp(again, out, (size_t)back.written), "json");
    explained = oer_explain_json(types, "A", 1, json, (size_t)shown.written, lines, sizeof lines);
    EXPECT(explained.status == OER_OK && explained.written == 0, "explained json");
}

static void test_random(long strings) {
    static const char *const kinds[] = {
        BOOLEANS, BYTE, PLAIN, ADDITIONS, CHOSEN, LISTED, HIGH_TAGS, "INTEGER", "INTEGER (0..MAX)",
        "OCTET STRING", "BIT STRING", "UTF8String", "IA5String (SIZE(2))", "OBJECT IDENTIFIER",
        "SEQUENCE OF CHOICE {a INTEGER, b BOOLEAN, ..., c SEQUENCE {d NULL OPTIONAL, e OCTET STRING}}"
    };
    size_t i;
    long n;
    for (i = 0; i < COUNT(kinds); i++) {
        oer_types types = types_of(kinds[i]);
        for (n = 0; n < strings / (long)COUNT(kinds) + 1; n++) {
            uint8_t octets[24];
            size_t length = random_below(COUNT(octets) + 1), k;
            for (k = 0; k < length; k++) octets[k] = random_octet();
            compare(&types, octets, length);
        }
        oer_types_free(&types);
    }
    EXPECT(encodings > strings / 10 && canonicals > 0 && canonicals < encodings, "strings of each kind");
}

/* ---- the layout, as the documents of crates/oer_c say it */

static void test_layout(void) {
    EXPECT(sizeof(oer_types) == 16 && offsetof(oer_types, at_) == 0 && offsetof(oer_types, full_) == 8, "oer_types");
    EXPECT(sizeof(oer_parsed) == 16 && offsetof(oer_parsed, status) == 0, "oer_parsed");
    EXPECT(offsetof(oer_parsed, why) == 4 && offsetof(oer_parsed, place) == 8, "oer_parsed");
    EXPECT(sizeof(oer_understood) == 48 && offsetof(oer_understood, status) == 0, "oer_understood");
    EXPECT(offsetof(oer_understood, why) == 4 && offsetof(oer_understood, text) == 8, "oer_understood");
    EXPECT(offsetof(oer_understood, place) == 16 && offsetof(oer_understood, line) == 24, "oer_understood");
    EXPECT(offsetof(oer_understood, column) == 32 && offsetof(oer_understood, words) == 40, "oer_understood");
    EXPECT(sizeof(oer_checked) == 24 && offsetof(oer_checked, status) == 0, "oer_checked");
    EXPECT(offsetof(oer_checked, why) == 4 && offsetof(oer_checked, octets) == 8, "oer_checked");
    EXPECT(offsetof(oer_checked, canonical) == 16, "oer_checked");
    EXPECT(sizeof(oer_message) == 16 && offsetof(oer_message, at) == 0, "oer_message");
    EXPECT(offsetof(oer_message, length) == 8, "oer_message");
    EXPECT(sizeof(oer_written) == 24 && offsetof(oer_written, status) == 0, "oer_written");
    EXPECT(offsetof(oer_written, why) == 4 && offsetof(oer_written, octets) == 8, "oer_written");
    EXPECT(offsetof(oer_written, written) == 16, "oer_written");
    EXPECT(sizeof(oer_located) == 32 && offsetof(oer_located, status) == 0, "oer_located");
    EXPECT(offsetof(oer_located, why) == 4 && offsetof(oer_located, octets) == 8, "oer_located");
    EXPECT(offsetof(oer_located, at) == 16 && offsetof(oer_located, length) == 24, "oer_located");
    EXPECT(oer_version() == OER_VERSION_NUMBER, "the version");
}

int main(int count, char **words) {
    size_t i;
    if (count != 3 && count != 4) {
        puts("usage: test FOLDER STRINGS [SIZES]");
        return 2;
    }
    if (count == 4) sizes = (size_t)atol(words[3]);
    test_layout();
    for (i = 0; i < COUNT(vectors); i++) {
        test_vector(&vectors[i]);
        if (vectors[i].task == CHECK) test_many(&vectors[i]);
        if (vectors[i].task == PART) test_located(&vectors[i]);
        test_unset_buffer(&vectors[i]);
    }
    for (i = 0; i < COUNT(places); i++) test_place(&places[i], locate);
    for (i = 0; i < COUNT(named_places); i++) {
        test_place(&named_places[i], locate_named);
        test_taken(&named_places[i]);
    }
    for (i = 0; i < COUNT(rejected_texts); i++) test_rejected_text(&rejected_texts[i]);
    for (i = 0; i < COUNT(explained_texts); i++) test_explained_text(&explained_texts[i]);
    test_kept_types();
    test_read_within();
    for (i = 0; i < COUNT(rejected_modules); i++) test_rejected_modules(&rejected_modules[i]);
    test_modules_outside();
    test_modules(words[1]);
    test_free_of_null();
    test_shared_types();
    test_certificate(words[1]);
    test_random(atol(words[2]));
#ifdef FAIL_MEMORY
    test_memory(words[1]);
#endif
    return differs;
}

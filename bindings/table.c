/* Prints the calls of c/vectors.h and what they have to answer, one a line, for tests in languages that
 * don't read C. Fields are separated by tabs. Octets and texts are in hexadecimal digits, and what isn't
 * there is `-`.
 *
 *   version NUMBER
 *   layout STRUCT SIZE OFFSET+SIZE..     of the struct, and of each field
 *   vector TASK TYPE GIVEN PATH LIMIT STATUS WHY OCTETS WRITTEN ANSWER
 *   place TYPE GIVEN PATH STATUS WHY OCTETS AT LENGTH
 *   named TYPE GIVEN NAMES STATUS WHY OCTETS AT LENGTH
 *   rejected TEXT WHY PLACE
 *   explained TEXT LINES
 *   modules FIRST SECOND WHY TEXT PLACE LINE COLUMN WORDS */
#include "vectors.h"

#include <inttypes.h>
#include <stdio.h>
#include <string.h>

static void put_text(const char *text) {
    putchar('\t');
    if (!text) putchar('-');
    for (; text && *text; text++) printf("%02x", (unsigned char)*text);
}

static void put_digits(const char *digits) {
    printf("\t%s", digits ? digits : "-");
}

static void put_number(uint64_t number) {
    printf("\t%" PRIu64, number);
}

static void put_vector(const struct vector *vector) {
    static const char *const tasks[] = { "check", "canon", "part", "to_json", "from_json", "whole", "explain_json", "explain_octets" };
    int is_text;
    printf("vector\t%s", tasks[vector->task]);
    put_text(vector->type);
    (vector->task == FROM_JSON || vector->task == EXPLAIN_JSON ? put_text : put_digits)(vector->given);
    put_text(vector->path);
    put_number(vector->limit);
    put_number(vector->status);
    put_number(vector->why);
    put_number(vector->octets);
    put_number(vector->written);
    is_text = vector->task == TO_JSON || vector->task == EXPLAIN_JSON || vector->task == EXPLAIN_OCTETS;
    (is_text ? put_text : put_digits)(vector->answer);
    putchar('\n');
}

static void put_place(const char *table, const struct place *place) {
    printf("%s", table);
    put_text(place->type);
    put_digits(place->given);
    put_text(place->path);
    put_number(place->status);
    put_number(place->why);
    put_number(place->octets);
    put_number(place->at);
    put_number(place->length);
    putchar('\n');
}

static void put_modules(const struct modules_row *row) {
    printf("modules");
    put_text(row->first);
    put_text(row->second);
    put_number(row->why);
    put_number(row->text);
    put_number(row->place);
    put_number(row->line);
    put_number(row->column);
    put_text(row->words);
    putchar('\n');
}

/* Where a field begins in its struct, and how many octets it has. */
#define PLACE(type, field) \
    printf("\t%u+%u", (unsigned)offsetof(type, field), (unsigned)sizeof(((type *)0)->field))

static void put_layouts(void) {
    printf("layout\toer_types\t%u", (unsigned)sizeof(oer_types));
    PLACE(oer_types, at_);
    PLACE(oer_types, full_);
    printf("\nlayout\toer_parsed\t%u", (unsigned)sizeof(oer_parsed));
    PLACE(oer_parsed, status);
    PLACE(oer_parsed, why);
    PLACE(oer_parsed, place);
    printf("\nlayout\toer_understood\t%u", (unsigned)sizeof(oer_understood));
    PLACE(oer_understood, status);
    PLACE(oer_understood, why);
    PLACE(oer_understood, text);
    PLACE(oer_understood, place);
    PLACE(oer_understood, line);
    PLACE(oer_understood, column);
    PLACE(oer_understood, words);
    printf("\nlayout\toer_checked\t%u", (unsigned)sizeof(oer_checked));
    PLACE(oer_checked, status);
    PLACE(oer_checked, why);
    PLACE(oer_checked, octets);
    PLACE(oer_checked, canonical);
    printf("\nlayout\toer_message\t%u", (unsigned)sizeof(oer_message));
    PLACE(oer_message, at);
    PLACE(oer_message, length);
    printf("\nlayout\toer_written\t%u", (unsigned)sizeof(oer_written));
    PLACE(oer_written, status);
    PLACE(oer_written, why);
    PLACE(oer_written, octets);
    PLACE(oer_written, written);
    printf("\nlayout\toer_located\t%u", (unsigned)sizeof(oer_located));
    PLACE(oer_located, status);
    PLACE(oer_located, why);
    PLACE(oer_located, octets);
    PLACE(oer_located, at);
    PLACE(oer_located, length);
    putchar('\n');
}

int main(void) {
    size_t i;
    printf("version\t%d\n", OER_VERSION_NUMBER);
    put_layouts();
    for (i = 0; i < sizeof vectors / sizeof *vectors; i++) put_vector(&vectors[i]);
    for (i = 0; i < sizeof places / sizeof *places; i++) put_place("place", &places[i]);
    for (i = 0; i < sizeof named_places / sizeof *named_places; i++) put_place("named", &named_places[i]);
    for (i = 0; i < sizeof rejected_texts / sizeof *rejected_texts; i++) {
        printf("rejected");
        put_text(rejected_texts[i].text);
        put_number(rejected_texts[i].why);
        put_number(rejected_texts[i].place);
        putchar('\n');
    }
    for (i = 0; i < sizeof explained_texts / sizeof *explained_texts; i++) {
        printf("explained");
        put_text(explained_texts[i].text);
        put_text(explained_texts[i].lines);
        putchar('\n');
    }
    for (i = 0; i < sizeof rejected_modules / sizeof *rejected_modules; i++) put_modules(&rejected_modules[i]);
    return fflush(stdout) != 0;
}

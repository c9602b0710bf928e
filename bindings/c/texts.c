/* Texts of types that cost more than their length, if types are copied or Names are looked through:
 * texts FOLDER PARTS
 *
 * Each is read within 64 MB of addresses and 10 seconds of the processor, and its last Name is found. FOLDER is
 * examples/ieee1609dot2: its types are read within PARTS parts, and within no fewer. It prints what is not, and
 * then its status is 1. */
#define _DEFAULT_SOURCE
#include "oer.h"

#include <stdio.h>
#include <stdlib.h>
#include <sys/resource.h>

enum { MOST_MEMORY = 64 << 20, MOST_SECONDS = 10, LARGE = 1 << 20 };

static char text[LARGE];
static int failed = 0;

/* No more than this from now on. */
static void allow(int what, rlim_t most) {
    struct rlimit limit;
    limit.rlim_cur = most;
    limit.rlim_max = most;
    if (setrlimit(what, &limit) != 0) {
        perror("texts: setrlimit");
        exit(2);
    }
}

/* Reads the text, and finds the octet to be a value of the Name. */
static void read_text(const char *what, size_t length, const char *name, size_t name_length, uint8_t octet) {
    oer_types types = OER_TYPES_NONE;
    if (oer_types_read(&types, text, length).status != OER_OK) {
        printf("texts: %s: not read\n", what);
        failed = 1;
        return;
    }
    if (oer_check(&types, name, name_length, &octet, 1).status != OER_OK) {
        printf("texts: %s: %s not found\n", what, name);
        failed = 1;
    }
    oer_types_free(&types);
}

/* 1,600 Names of an ENUMERATED of 4,094 items. */
static void read_names(void) {
    size_t length = (size_t)sprintf(text, "A ::= ENUMERATED {");
    unsigned i;
    for (i = 0; i < 4094; i++) length += (size_t)sprintf(text + length, "%sa%u", i ? ", " : "", i);
    length += (size_t)sprintf(text + length, "}\n");
    for (i = 0; i < 1600; i++) length += (size_t)sprintf(text + length, "B%u ::= A\n", i);
    read_text("Names of one type", length, "B1599", 5, 7);
}

/* 32,000 small types. */
static void read_small(void) {
    size_t length = 0;
    unsigned i;
    for (i = 0; i < 32000; i++) length += (size_t)sprintf(text + length, "A%u ::= BOOLEAN\n", i);
    read_text("many small types", length, "A31999", 6, 0xff);
}

/* 1,600 types, each with a copy of a SEQUENCE of 2,000 components, of which so few parts are read. */
static void read_copies(void) {
    size_t length = (size_t)sprintf(text, "A ::= SEQUENCE {");
    oer_types types = OER_TYPES_NONE;
    oer_parsed parsed;
    unsigned i;
    for (i = 0; i < 2000; i++) length += (size_t)sprintf(text + length, "%sa%u NULL", i ? ", " : "", i);
    length += (size_t)sprintf(text + length, "}\n");
    for (i = 0; i < 1600; i++) length += (size_t)sprintf(text + length, "B%u ::= SEQUENCE {a A}\n", i);
    parsed = oer_types_read_within(&types, text, length, 65536);
    if (parsed.status != OER_REJECTED || parsed.why != OER_TEXT_PARTS) {
        printf("texts: copies of one type: status %u, reason %u\n", (unsigned)parsed.status, (unsigned)parsed.why);
        failed = 1;
    }
    oer_types_free(&types);
}

/* As many parts as are read here, and nearly as many octets in their names: a SEQUENCE of 4,094 components, whose
 * names have 60 octets each, and 15 of one of these. */
static void read_full(void) {
    size_t length = (size_t)sprintf(text, "A ::= SEQUENCE {");
    oer_types types = OER_TYPES_NONE;
    oer_parsed parsed;
    unsigned i;
    for (i = 0; i < 4094; i++) length += (size_t)sprintf(text + length, "%sa%059u NULL", i ? ", " : "", i);
    length += (size_t)sprintf(text + length, "}\n");
    for (i = 0; i < 15; i++) length += (size_t)sprintf(text + length, "B%u ::= SEQUENCE {a A}\n", i);
    parsed = oer_types_read_within(&types, text, length, 65536);
    if (parsed.status != OER_OK) {
        printf("texts: many long names: status %u, reason %u\n", (unsigned)parsed.status, (unsigned)parsed.why);
        failed = 1;
    }
    oer_types_free(&types);
}

/* After the type A, which holds much: a SEQUENCE of 1,000 of it, and 15 of two of these. Their parts are few. The
 * second definition holds too much. */
static void read_held(const char *what, size_t length) {
    oer_types types = OER_TYPES_NONE;
    oer_parsed parsed;
    size_t begin;
    unsigned i;
    length += (size_t)sprintf(text + length, "}\n");
    begin = length;
    length += (size_t)sprintf(text + length, "B ::= SEQUENCE {");
    for (i = 0; i < 1000; i++) length += (size_t)sprintf(text + length, "%sa%u A", i ? ", " : "", i);
    length += (size_t)sprintf(text + length, "}\n");
    for (i = 0; i < 15; i++) length += (size_t)sprintf(text + length, "C%u ::= SEQUENCE {a B, b B}\n", i);
    parsed = oer_types_read_within(&types, text, length, 65536);
    if (parsed.status != OER_REJECTED || parsed.why != OER_TEXT_PARTS || parsed.place != begin) {
        printf("texts: %s: status %u, reason %u, place %lu\n", what, (unsigned)parsed.status, (unsigned)parsed.why,
               (unsigned long)parsed.place);
        failed = 1;
    }
    oer_types_free(&types);
}

/* An object identifier of 4,000 numbers, each of which takes 16 octets. */
static void read_numbers(void) {
    size_t length = (size_t)sprintf(text, "A ::= SEQUENCE {x OBJECT IDENTIFIER DEFAULT {1 2");
    unsigned i;
    for (i = 0; i < 4000; i++) length += (size_t)sprintf(text + length, " 3");
    length += (size_t)sprintf(text + length, "}");
    read_held("copies of many numbers", length);
}

/* A default of 16,000 letters. */
static void read_long_default(void) {
    size_t length = (size_t)sprintf(text, "A ::= SEQUENCE {x IA5String DEFAULT \"");
    unsigned i;
    for (i = 0; i < 16000; i++) length += (size_t)sprintf(text + length, "a");
    length += (size_t)sprintf(text + length, "\"");
    read_held("copies of a long text", length);
}

/* A name of 60,000 letters. */
static void read_long_name(void) {
    size_t length = (size_t)sprintf(text, "A ::= SEQUENCE {");
    unsigned i;
    for (i = 0; i < 60000; i++) length += (size_t)sprintf(text + length, "a");
    length += (size_t)sprintf(text + length, " NULL");
    read_held("copies of a long name", length);
}

/* The definitions of the file into `text`; their length. */
static size_t file_text(const char *folder) {
    char path[4096];
    size_t length = 0;
    FILE *file;
    snprintf(path, sizeof path, "%s/types.asn", folder);
    file = fopen(path, "rb");
    if (file) {
        length = fread(text, 1, sizeof text, file);
        fclose(file);
    }
    if (length == 0 || length == sizeof text) {
        printf("texts: %s: not read\n", path);
        exit(2);
    }
    return length;
}

/* The types of the file are read within so many parts, and one fewer is too few. */
static void read_within(const char *folder, uint64_t parts) {
    size_t length = file_text(folder);
    oer_types types = OER_TYPES_NONE;
    oer_parsed fewer = oer_types_read_within(&types, text, length, parts - 1);
    oer_parsed enough = oer_types_read_within(&types, text, length, parts);
    if (fewer.status != OER_REJECTED || fewer.why != OER_TEXT_PARTS || enough.status != OER_OK || enough.place != length) {
        printf("texts: %s/types.asn has not just %lu parts: with one fewer status %u, reason %u, with these %u, %u\n", folder,
               (unsigned long)parts, (unsigned)fewer.status, (unsigned)fewer.why, (unsigned)enough.status, (unsigned)enough.why);
        failed = 1;
    }
    oer_types_free(&types);
}

int main(int count, char **words) {
    if (count != 3) {
        puts("usage: texts FOLDER PARTS");
        return 2;
    }
    allow(RLIMIT_AS, MOST_MEMORY);
    allow(RLIMIT_CPU, MOST_SECONDS);
    read_names();
    read_small();
    read_copies();
    read_full();
    read_numbers();
    read_long_default();
    read_long_name();
    read_within(words[1], strtoul(words[2], 0, 10));
    return failed;
}

/* Calls and what they have to answer. The octets and answers are those of docs/COMMAND.md,
 * docs/NOTATION.md and docs/JSON.md, and of the tables of oer_vectors, whose octets follow from
 * the standard. worked.h has the rows of oer_vectors: bindings/worked prints it. */
#ifndef VECTORS_H
#define VECTORS_H

#include "oer.h"

enum task { CHECK, CANON, PART, TO_JSON, FROM_JSON, WHOLE, EXPLAIN_JSON, EXPLAIN_OCTETS };

/* A call: the definition of the type A, what it is given (octets in hexadecimal digits, or JSON), the
 * path or NULL, the limit, and the answer: the fields of it, and what is written, where something is
 * (octets in digits, JSON, or lines). For CHECK and WHOLE `written` is `canonical`. */
struct vector {
    enum task task;
    const char *type;
    const char *given;
    const char *path;
    uint64_t limit;
    uint32_t status;
    uint32_t why;
    uint64_t octets;
    uint64_t written;
    const char *answer;
};

#define BOOLEANS "SEQUENCE OF BOOLEAN"
#define BYTE "SEQUENCE {a BOOLEAN, b INTEGER (0..255) DEFAULT 7, c NULL OPTIONAL, ...}"
#define PLAIN "SEQUENCE {a BOOLEAN, b INTEGER (0..255) DEFAULT 7, c NULL OPTIONAL}"
#define ADDITIONS "SEQUENCE {a BOOLEAN, ..., x INTEGER (0..255), y BOOLEAN}"
#define CHOSEN "CHOICE {a NULL, ..., b OCTET STRING}"
#define LISTED "ENUMERATED {a(5), b(128), c(-1)}"
#define HIGH_TAGS "CHOICE {a [62] NULL, b [63] NULL, c [200] NULL}"
#define ENDLESS "88ffffffffffffffff010203" /* says that it has 2^64 - 1 octets, after 9 */
#define ALL OER_NO_LIMIT

/* The longest octets of the table, and room for more. */
#define LONGEST 16384

/* Lines that are written: their length, and their text. */
#define LINES(text) sizeof(text) - 1, text

/* Some octets are long. */
#ifdef __GNUC__
#pragma GCC diagnostic ignored "-Woverlength-strings"
#endif

static const struct vector vectors[] = {
#include "worked.h"

    { CHECK, BOOLEANS, "0102ff00", 0, ALL, OER_OK, 0, 4, 1, 0 },
    { CHECK, BOOLEANS, "0200020107", 0, ALL, OER_OK, 0, 5, 0, 0 },
    { CHECK, BOOLEANS, "0102ff00ffff", 0, ALL, OER_OK, 0, 4, 1, 0 },
    { CHECK, "BOOLEAN", "0102", 0, ALL, OER_OK, 0, 1, 0, 0 },
    { CHECK, ADDITIONS, "80ff020020810109", 0, ALL, OER_OK, 0, 8, 0, 0 },
    { CHECK, "OCTET STRING", "0361", 0, ALL, OER_REJECTED, OER_END, 2, 0, 0 },
    { CHECK, "NULL", "", 0, ALL, OER_OK, 0, 0, 1, 0 },
    { CHECK, "BOOLEAN", "", 0, ALL, OER_REJECTED, OER_END, 0, 0, 0 },
    { CHECK, "OCTET STRING", ENDLESS, 0, ALL, OER_REJECTED, OER_LIMIT, 9, 0, 0 },

    /* The content of an addition is spelt longer than it has to be: seen by a type that knows it. */
    { CHECK, "SEQUENCE {a BOOLEAN, ...}", "80ff02078003020005", 0, ALL, OER_OK, 0, 9, 1, 0 },
    { CHECK, "SEQUENCE {a BOOLEAN, ..., x INTEGER (0..MAX)}", "80ff02078003020005", 0, ALL, OER_OK, 0, 9, 0, 0 },
    { CHECK, "SEQUENCE {a BOOLEAN, ..., x INTEGER (0..MAX)}", "80ff020780020105", 0, ALL, OER_OK, 0, 8, 1, 0 },
    { WHOLE, "SEQUENCE {a BOOLEAN, ...}", "80ff02078003020005", 0, ALL, OER_OK, 0, 9, 1, 0 },
    { WHOLE, "SEQUENCE {a BOOLEAN, ..., x INTEGER (0..MAX)}", "80ff02078003020005", 0, ALL, OER_NOT_CANONICAL, 0, 9, 0, 0 },

    { WHOLE, BOOLEANS, "0102ff00", 0, ALL, OER_OK, 0, 4, 1, 0 },
    { WHOLE, BOOLEANS, "0200020107", 0, ALL, OER_NOT_CANONICAL, 0, 5, 0, 0 },
    { WHOLE, BOOLEANS, "0102ff00ffff", 0, ALL, OER_FOLLOWS, 0, 4, 1, 0 },
    { WHOLE, BOOLEANS, "0102ff0000", 0, ALL, OER_FOLLOWS, 0, 4, 1, 0 },
    { WHOLE, BOOLEANS, "0102ff", 0, ALL, OER_REJECTED, OER_END, 3, 0, 0 },
    { WHOLE, "BOOLEAN", "01", 0, ALL, OER_NOT_CANONICAL, 0, 1, 0, 0 },
    { WHOLE, "BOOLEAN", "0102", 0, ALL, OER_FOLLOWS, 0, 1, 0, 0 },
    { WHOLE, BYTE, "40ff08", 0, ALL, OER_OK, 0, 3, 1, 0 },
    { WHOLE, BYTE, "40ff07", 0, ALL, OER_NOT_CANONICAL, 0, 3, 0, 0 },
    { WHOLE, ADDITIONS, "80ff020020810109", 0, ALL, OER_NOT_CANONICAL, 0, 8, 0, 0 },
    { WHOLE, "OCTET STRING", "0361", 0, ALL, OER_REJECTED, OER_END, 2, 0, 0 },
    { WHOLE, "NULL", "", 0, ALL, OER_OK, 0, 0, 1, 0 },
    { WHOLE, "NULL", "00", 0, ALL, OER_FOLLOWS, 0, 0, 1, 0 },
    { WHOLE, "BOOLEAN", "", 0, ALL, OER_REJECTED, OER_END, 0, 0, 0 },
    { WHOLE, "OCTET STRING", ENDLESS, 0, ALL, OER_REJECTED, OER_LIMIT, 9, 0, 0 },

    { CANON, BOOLEANS, "0200020107", 0, ALL, OER_OK, 0, 5, 4, "0102ffff" },
    { CANON, "BOOLEAN", "01", 0, ALL, OER_OK, 0, 1, 1, "ff" },
    { CANON, "BOOLEAN", "0102", 0, ALL, OER_OK, 0, 1, 1, "ff" },
    { CANON, ADDITIONS, "80ff020020810109", 0, ALL, OER_OK, 0, 8, 7, "80ff0205200109" },
    { CANON, ADDITIONS, "80ff020430010900", 0, ALL, OER_OK, 0, 8, 8, "80ff020430010900" },
    { CANON, CHOSEN, "85810101", 0, ALL, OER_OK, 0, 4, 3, "850101" },
    { CANON, "NULL", "ff", 0, ALL, OER_OK, 0, 0, 0, "" },

    { CANON, "OCTET STRING", "0361", 0, 2, OER_REJECTED, OER_LIMIT, 1, 0, 0 },
    { CANON, "OCTET STRING", "0361", 0, 4, OER_REJECTED, OER_END, 2, 0, 0 },
    { CANON, "OCTET STRING", ENDLESS, 0, ALL, OER_REJECTED, OER_LIMIT, 9, 0, 0 },
    { CANON, "INTEGER (0..65535)", "0001", 0, 1, OER_REJECTED, OER_LIMIT, 0, 0, 0 },
    { CANON, ADDITIONS, "80ff020680020900", 0, ALL, OER_REJECTED, OER_WINDOW, 7, 0, 0 },
    { CANON, "INTEGER (0..MAX)", "80", 0, ALL, OER_REJECTED, OER_LENGTH_FORM, 1, 0, 0 },
    { CANON, "INTEGER (0..MAX)", "00", 0, ALL, OER_REJECTED, OER_EMPTY_NUMBER, 1, 0, 0 },
    { CANON, "INTEGER (0..5)", "06", 0, ALL, OER_REJECTED, OER_INTEGER_RANGE, 1, 0, 0 },
    { CANON, LISTED, "80", 0, ALL, OER_REJECTED, OER_ENUM_FORM, 1, 0, 0 },
    { CANON, LISTED, "06", 0, ALL, OER_REJECTED, OER_UNKNOWN_ENUM, 1, 0, 0 },
    { CANON, "SEQUENCE (SIZE(1..2)) OF BOOLEAN", "0100", 0, ALL, OER_REJECTED, OER_SIZE, 2, 0, 0 },
    { CANON, "VisibleString", "017f", 0, ALL, OER_REJECTED, OER_CHARACTER, 2, 0, 0 },
    { CANON, "BIT STRING", "00", 0, ALL, OER_REJECTED, OER_BIT_UNUSED, 1, 0, 0 },
    { CANON, "OBJECT IDENTIFIER", "0180", 0, ALL, OER_REJECTED, OER_OBJECT_ID, 2, 0, 0 },
    { CANON, PLAIN, "20ff", 0, ALL, OER_REJECTED, OER_PREAMBLE_PADDING, 1, 0, 0 },
    { CANON, HIGH_TAGS, "bf05", 0, ALL, OER_REJECTED, OER_TAG_FORM, 2, 0, 0 },
    { CANON, HIGH_TAGS, "80", 0, ALL, OER_REJECTED, OER_UNKNOWN_ALTERNATIVE, 1, 0, 0 },

    { PART, BOOLEANS, "0200020107", "i1", ALL, OER_OK, 0, 5, 1, "07" },
    { PART, BOOLEANS, "0200020107ff", "i1", ALL, OER_OK, 0, 5, 1, "07" },
    { PART, BOOLEANS, "0100ff", "i0", ALL, OER_NO_STEP, 0, 2, 0, 0 },
    { PART, ADDITIONS, "80ff0206800109", "a0", ALL, OER_OK, 0, 7, 1, "09" },
    { PART, ADDITIONS, "80ff0206800109", "a1", ALL, OER_ABSENT, 0, 7, 0, 0 },
    { PART, ADDITIONS, "80ff020680010900", "a1", ALL, OER_ABSENT, 0, 7, 0, 0 },
    { PART, ADDITIONS, "80ff0206800109", "c1", ALL, OER_NO_STEP, 0, 7, 0, 0 },
    { PART, CHOSEN, "8103026162", "v", ALL, OER_OK, 0, 5, 3, "026162" },
    { PART, "BOOLEAN", "ff", "c01", ALL, OER_NO_PATH, 0, 0, 0, 0 },
    { PART, "BOOLEAN", "ff", "", ALL, OER_NO_PATH, 0, 0, 0, 0 },
    { PART, "BOOLEAN", "ff", "\377", ALL, OER_NO_PATH, 0, 0, 0, 0 },
    { PART, "OCTET STRING", "0361", "c0", ALL, OER_REJECTED, OER_END, 2, 0, 0 },
    { PART, "OCTET STRING", ENDLESS, "c0", ALL, OER_REJECTED, OER_LIMIT, 9, 0, 0 },

    { TO_JSON, BYTE, "60ff08", 0, ALL, OER_OK, 0, 3, 25, "{\"a\":true,\"b\":8,\"c\":null}" },
    { TO_JSON, ADDITIONS, "80ff0205200109", 0, ALL, OER_OK, 0, 7, 20, "{\"#2\":\"09\",\"a\":true}" },
    { TO_JSON, CHOSEN, "85020102", 0, ALL, OER_OK, 0, 4, 14, "{\"#c5\":\"0102\"}" },
    { TO_JSON, "OCTET STRING", "0361", 0, 2, OER_REJECTED, OER_LIMIT, 1, 0, 0 },
    { TO_JSON, "OCTET STRING", "0361", 0, 4, OER_REJECTED, OER_END, 2, 0, 0 },
    { TO_JSON, "OCTET STRING", ENDLESS, 0, ALL, OER_REJECTED, OER_LIMIT, 9, 0, 0 },

    { FROM_JSON, BYTE, "{\"a\":true,\"b\":8,\"c\":null}", 0, ALL, OER_OK, 0, 0, 3, "60ff08" },
    { FROM_JSON, BOOLEANS, "[true, false]", 0, ALL, OER_OK, 0, 0, 4, "0102ff00" },
    { FROM_JSON, "INTEGER", "true", 0, ALL, OER_REJECTED, OER_JSON_KIND, 0, 0, 0 },
    { FROM_JSON, BYTE, "{\"a\":true,\"d\":8}", 0, ALL, OER_REJECTED, OER_JSON_NAME, 0, 0, 0 },
    { FROM_JSON, BYTE, "{\"b\":8}", 0, ALL, OER_REJECTED, OER_JSON_MISSING, 0, 0, 0 },
    { FROM_JSON, "INTEGER", "\"170141183460469231731687303715884105728\"", 0, ALL, OER_REJECTED, OER_JSON_RANGE, 0, 0, 0 },
    { FROM_JSON, "INTEGER (0..5)", "6", 0, ALL, OER_REJECTED, OER_JSON_MISFIT, 0, 0, 0 },
    { FROM_JSON, "INTEGER", "five", 0, ALL, OER_NO_JSON, 0, 0, 0, 0 },
    { FROM_JSON, "INTEGER", "\377", 0, ALL, OER_NO_JSON, 0, 0, 0, 0 },

    /* What is no JSON, is so at a place: octets and not characters are counted, from 0. */
    { FROM_JSON, "INTEGER", "", 0, ALL, OER_NO_JSON, 0, 0, 0, 0 },
    { FROM_JSON, BOOLEANS, "[true, five]", 0, ALL, OER_NO_JSON, 0, 7, 0, 0 },
    { FROM_JSON, BOOLEANS, "[\n  true,\n  five\n]", 0, ALL, OER_NO_JSON, 0, 12, 0, 0 },
    { FROM_JSON, BOOLEANS, "[\"\303\244\", five]", 0, ALL, OER_NO_JSON, 0, 7, 0, 0 },
    { FROM_JSON, BOOLEANS, "[true] ]", 0, ALL, OER_NO_JSON, 0, 7, 0, 0 },
    { FROM_JSON, BOOLEANS, "\n5 5", 0, ALL, OER_NO_JSON, 0, 3, 0, 0 },
    { FROM_JSON, BOOLEANS, "[true,", 0, ALL, OER_NO_JSON, 0, 6, 0, 0 },
    { FROM_JSON, BOOLEANS, "[true, fal", 0, ALL, OER_NO_JSON, 0, 10, 0, 0 },
    { FROM_JSON, BOOLEANS, "[true,\n", 0, ALL, OER_NO_JSON, 0, 7, 0, 0 },
    { FROM_JSON, BOOLEANS, "[five, \377]", 0, ALL, OER_NO_JSON, 0, 7, 0, 0 },

    /* Why JSON is rejected: docs/COMMAND.md, Where a text or octets are rejected. */
    { EXPLAIN_JSON, BOOLEANS, "[true, false]", 0, ALL, OER_OK, 0, 0, LINES("") },
    { EXPLAIN_JSON, "SEQUENCE {validityPeriod SEQUENCE {duration CHOICE {microseconds INTEGER, hours INTEGER}}}",
      "{\"validityPeriod\":{\"duration\":{\"hous\":3}}}", 0, ALL, OER_OK, 0, 0,
      LINES("  at .validityPeriod.duration.hous:\n  no alternative has this name; wanted: microseconds, hours\n  Did you mean hours?\n") },
    { EXPLAIN_JSON, "SEQUENCE {list SEQUENCE OF SEQUENCE {n INTEGER (0..255), b BOOLEAN}}",
      "{\"list\":[{\"n\":0,\"b\":true},{\"n\":256,\"b\":true}]}", 0, ALL, OER_OK, 0, 0,
      LINES("  at .list[1].n:\n  the number is outside of the bounds; wanted: an INTEGER from 0 to 255\n") },
    { EXPLAIN_JSON, "SEQUENCE {list SEQUENCE OF SEQUENCE {n INTEGER (0..255), b BOOLEAN}}", "{\"list\":[{\"n\":0}]}", 0, ALL, OER_OK, 0, 0,
      LINES("  at .list[0]:\n  the component b must be present\n") },
    { EXPLAIN_JSON, "SEQUENCE {a BOOLEAN}", "{\"a\":1}", 0, ALL, OER_OK, 0, 0,
      LINES("  at .a:\n  this is JSON of another kind or form; wanted: true or false\n") },
    { EXPLAIN_JSON, BOOLEANS, "[true,,false]", 0, ALL, OER_OK, 0, 0,
      LINES("  line 1, column 7:\n  [true,,false]\n        ^\n  the JSON reader stopped here\n") },
    { EXPLAIN_JSON, BOOLEANS, "[true,\n\"\303\244\", five]", 0, ALL, OER_OK, 0, 0,
      LINES("  line 2, column 6:\n  \"\303\244\", five]\n       ^\n  the JSON reader stopped here\n") },
    { EXPLAIN_JSON, "BOOLEAN", "", 0, ALL, OER_OK, 0, 0, LINES("  line 1, column 1:\n  \n  ^\n  the JSON reader stopped here\n") },
    { EXPLAIN_JSON, "UTF8String", "\"a\377", 0, ALL, OER_OK, 0, 0,
      LINES("  line 1, column 3:\n  \"a..\n    ^\n  the text is no UTF-8 from here on\n") },

    /* Why octets are rejected: the same section. */
    { EXPLAIN_OCTETS, "BOOLEAN", "ff00", 0, ALL, OER_OK, 0, 0, LINES("") },
    { EXPLAIN_OCTETS, "SEQUENCE {list SEQUENCE OF ENUMERATED {red, green}}", "01020005", 0, ALL, OER_OK, 0, 0,
      LINES("  0  0  -      -       SEQUENCE     preamble\n"
            "  0  2  c0     list    SEQUENCE OF  quantity 2\n"
            "  2  1  c0.i0  list.0  ENUMERATED   \"red\"\n"
            "  3  1  c0.i1  list.1  ENUMERATED   \"05\" -- rejected\n"
            "  at list.1:\n  no item has this number; wanted: red, green\n") },
    { EXPLAIN_OCTETS, "UTF8String", "026a", 0, ALL, OER_OK, 0, 0,
      LINES("  0  2  -  -  UTF8String  \"026a\" -- rejected\n  at the whole:\n  the octets end within the value\n") },
    { EXPLAIN_OCTETS, "OCTET STRING", "88ffffffffffffffff", 0, ALL, OER_OK, 0, 0, LINES("  the value would pass the limit\n") }
};

/* Where a part lies: the definition of the type A, octets in hexadecimal digits, the path, and the
 * fields of the answer. */
struct place {
    const char *type;
    const char *given;
    const char *path;
    uint32_t status;
    uint32_t why;
    uint64_t octets;
    size_t at;
    size_t length;
};

static const struct place places[] = {
    { BOOLEANS, "0200020107", "i1", OER_OK, 0, 5, 4, 1 },
    { BOOLEANS, "020002010701", "i1", OER_OK, 0, 5, 4, 1 },
    { BOOLEANS, "0103ffffff", "i0", OER_OK, 0, 5, 2, 1 },
    { BOOLEANS, "0103ffffff", "i2", OER_OK, 0, 5, 4, 1 },
    { BOOLEANS, "0103ffffff", "i3", OER_NO_STEP, 0, 5, 0, 0 },
    { ADDITIONS, "80ff0206800109", "c0", OER_OK, 0, 7, 1, 1 },
    { ADDITIONS, "80ff0206800109", "a0", OER_OK, 0, 7, 6, 1 },
    { ADDITIONS, "80ff0206800109", "a1", OER_ABSENT, 0, 7, 0, 0 },
    { ADDITIONS, "80ff0206c001090109", "a1", OER_OK, 0, 9, 8, 1 },
    { ADDITIONS, "80ff020430010900", "a3", OER_OK, 0, 8, 8, 0 },
    { BYTE, "20ff", "c2", OER_OK, 0, 2, 2, 0 },
    { BYTE, "60ff0800", "c1", OER_OK, 0, 3, 2, 1 },
    { BYTE, "20ff00", "c1", OER_ABSENT, 0, 2, 0, 0 },
    { CHOSEN, "8103026162", "v", OER_OK, 0, 5, 2, 3 },
    { CHOSEN, "8502616200", "v", OER_OK, 0, 4, 2, 2 },
    { "SEQUENCE OF SEQUENCE OF BOOLEAN", "01020101ff0102ffff", "i1", OER_OK, 0, 9, 5, 4 },
    { "SEQUENCE OF SEQUENCE OF BOOLEAN", "01020101ff0102ffff", "i1.i0", OER_OK, 0, 9, 7, 1 },
    { "BOOLEAN", "ff", "c01", OER_NO_PATH, 0, 0, 0, 0 },
    { "BOOLEAN", "ff", "\377", OER_NO_PATH, 0, 0, 0, 0 },
    { "OCTET STRING", "0361", "c0", OER_REJECTED, OER_END, 2, 0, 0 },
    { "OCTET STRING", ENDLESS, "c0", OER_REJECTED, OER_LIMIT, 9, 0, 0 }
};

/* The same by names, in place of the path. */
static const struct place named_places[] = {
    { BYTE, "60ff0800", "a", OER_OK, 0, 3, 1, 1 },
    { BYTE, "60ff0800", "b", OER_OK, 0, 3, 2, 1 },
    { BYTE, "20ff", "c", OER_OK, 0, 2, 2, 0 },
    { BYTE, "20ff00", "b", OER_ABSENT, 0, 2, 0, 0 },
    { BYTE, "20ff00", "d", OER_NO_STEP, 0, 2, 0, 0 },
    { BYTE, "20ff00", "b.c", OER_NO_STEP, 0, 2, 0, 0 },
    { BYTE, "20ff00", "B", OER_NO_STEP, 0, 2, 0, 0 },
    { ADDITIONS, "80ff0206c001090109", "x", OER_OK, 0, 9, 6, 1 },
    { ADDITIONS, "80ff0206c001090109", "y", OER_OK, 0, 9, 8, 1 },
    { ADDITIONS, "80ff020680010900", "y", OER_ABSENT, 0, 7, 0, 0 },
    { ADDITIONS, "80ff0206800109", "a1", OER_NO_STEP, 0, 7, 0, 0 },
    { CHOSEN, "8103026162", "b", OER_OK, 0, 5, 2, 3 },
    { CHOSEN, "80", "a", OER_OK, 0, 1, 1, 0 },
    { CHOSEN, "8103026162", "a", OER_ABSENT, 0, 5, 0, 0 },
    { CHOSEN, "8502616200", "b", OER_ABSENT, 0, 4, 0, 0 },
    { CHOSEN, "8103026162", "v", OER_NO_STEP, 0, 5, 0, 0 },
    { BOOLEANS, "020002010701", "1", OER_OK, 0, 5, 4, 1 },
    { BOOLEANS, "0103ffffff", "3", OER_NO_STEP, 0, 5, 0, 0 },
    { BOOLEANS, "0103ffffff", "01", OER_NO_STEP, 0, 5, 0, 0 },
    { BOOLEANS, "0103ffffff", "18446744073709551616", OER_NO_STEP, 0, 5, 0, 0 },
    { "SEQUENCE OF CHOICE {a SEQUENCE {long-name NULL, b BOOLEAN}, c NULL}", "01028180ff", "1.a.b", OER_OK, 0, 5, 4, 1 },
    { "SEQUENCE OF CHOICE {a SEQUENCE {long-name NULL, b BOOLEAN}, c NULL}", "01028180ff", "1.a.long-name", OER_OK, 0, 5, 4, 0 },
    { "SEQUENCE OF CHOICE {a SEQUENCE {long-name NULL, b BOOLEAN}, c NULL}", "01028180ff", "0.a.b", OER_ABSENT, 0, 5, 0, 0 },
    { "BOOLEAN", "ff00", "0", OER_NO_STEP, 0, 1, 0, 0 },

    /* What isn't spelt as names is so whatever the type and the octets are. */
    { "BOOLEAN", "ff", "", OER_NO_PATH, 0, 0, 0, 0 },
    { BYTE, "60ff08", ".a", OER_NO_PATH, 0, 0, 0, 0 },
    { BYTE, "60ff08", "a.", OER_NO_PATH, 0, 0, 0, 0 },
    { BYTE, "60ff08", "d..a", OER_NO_PATH, 0, 0, 0, 0 },
    { BYTE, "60ff08", " a", OER_NO_PATH, 0, 0, 0, 0 },
    { BYTE, "60", "a_b", OER_NO_PATH, 0, 0, 0, 0 },
    { BYTE, "60ff08", "\377", OER_NO_PATH, 0, 0, 0, 0 },
    { BYTE, "60ff08", "\303\244", OER_NO_PATH, 0, 0, 0, 0 },
    { BOOLEANS, "0103ffffff", "+1", OER_NO_PATH, 0, 0, 0, 0 },

    /* Octets are looked at before names are looked for. */
    { BYTE, "60ff", "d", OER_REJECTED, OER_END, 2, 0, 0 },
    { "OCTET STRING", ENDLESS, "a", OER_REJECTED, OER_LIMIT, 9, 0, 0 }
};

/* Definitions that are rejected: the reason, and the place. */
struct rejected_text {
    const char *text;
    uint32_t why;
    uint64_t place;
};

static const struct rejected_text rejected_texts[] = {
    { "\377", OER_TEXT_NOT_UTF8, 0 },
    { "A ::= BOOLEAN \377", OER_TEXT_NOT_UTF8, 14 },
    { "A ::= $ \303\244 \303", OER_TEXT_NOT_UTF8, 11 },
    { "A ::= NULL -- \355\240\200", OER_TEXT_NOT_UTF8, 14 },
    { "A ::= NULL -- \360\237\230", OER_TEXT_NOT_UTF8, 14 },
    { "A ::= INTEGER (05)", OER_TEXT_TOKEN, 15 },
    { "A ::= INTEGER (170141183460469231731687303715884105728)", OER_TEXT_NUMBER, 15 },
    { "A ::= CHOICE {a [0] NULL, b NULL}", OER_TEXT_MIXED, 28 },
    { "A ::= SEQUENCE {a BOOLEAN DEFAULT 1}", OER_TEXT_DEFAULT, 34 },
    { "A ::= INTEGER (5..4) $", OER_TEXT_BOUND_ORDER, 6 },
    { "a ::= NULL", OER_TEXT_SYNTAX, 0 },
    { "A BOOLEAN", OER_TEXT_SYNTAX, 2 },
    { "A ::= NULL 5", OER_TEXT_SYNTAX, 11 },
    { "A ::= A", OER_TEXT_NAME, 6 },
    { "A ::= B  B ::= NULL", OER_TEXT_NAME, 6 },
    { "A ::= BOOLEAN B ::= C", OER_TEXT_NAME, 20 },
    { "A ::= NULL  A ::= NULL", OER_TEXT_REPEATED, 12 },
    { "A ::= NULL  B ::= SEQUENCE OF A", OER_TEXT_EMPTY_ELEMENT, 18 },
    { "", OER_TEXT_SYNTAX, 0 }
};

/* Definitions, and the lines on why they are rejected. */
struct explained_text {
    const char *text;
    const char *lines;
};

#define NO_NAME "  no definition before this place has this Name\n"
#define NO_TOKEN "  no word, number, sign or quoted text begins here, or a comment or quoted text has no end\n"
#define NO_SYNTAX "  the notation has no such word or sign here, or the text ends too early\n"

static const struct explained_text explained_texts[] = {
    { "A ::= NULL", "" },
    { "A ::= NULL B ::= SEQUENCE {a A}", "" },
    { "A ::= SEQUENCE OF B\nB ::= BOOLEAN",
      "  line 1, column 19:\n  A ::= SEQUENCE OF B\n                    ^\n" NO_NAME
      "  It is defined at line 2. A definition may only refer to those before it.\n" },
    { "A ::= NULL\nB ::= INTEGER (05)", "  line 2, column 16:\n  B ::= INTEGER (05)\n                 ^\n" NO_TOKEN },
    { "-- \303\244\nA ::= \377", "  line 2, column 7:\n  A ::= ..\n        ^\n" NO_TOKEN },
    { "", "  line 1, column 1:\n  \n  ^\n" NO_SYNTAX },
    { "M DEFINITIONS ::= BEGIN\nA ::= BOOLEAN END",
      "  line 1, column 3:\n  M DEFINITIONS ::= BEGIN\n    ^\n" NO_SYNTAX "  DEFINITIONS follows, as in a module: give modules by --modules.\n" }
};

/* Texts of modules that are rejected, at most two: the fields of the answer, and the words. */
struct modules_row {
    const char *first;
    const char *second;
    uint32_t why;
    uint64_t text;
    uint64_t place;
    uint64_t line;
    uint64_t column;
    const char *words;
};

#define MODULE(definitions) "M DEFINITIONS AUTOMATIC TAGS ::= BEGIN\n" definitions "\nEND"

static const struct modules_row rejected_modules[] = {
    { "\377", 0, OER_MODULES_NOT_UTF8, 1, 0, 0, 0, "text 1: not UTF-8" },
    { MODULE("A ::= NULL"), "N DEFINITIONS ::= BEGIN -- \303\244 \303", OER_MODULES_NOT_UTF8, 2, 30, 0, 0, "text 2: not UTF-8" },
    { "\377", "\377", OER_MODULES_NOT_UTF8, 1, 0, 0, 0, "text 1: not UTF-8" },
    { MODULE("A ::= }"), 0, OER_MODULES_SYNTAX, 1, 45, 2, 7, "text 1, line 2, column 7: expected a type, found \"}\"" },
    { MODULE("A ::= NULL"), "N DEFINITIONS ::= BEGIN\n  B ::= NULL -- \303\244\n  C ::=\nEND", OER_MODULES_SYNTAX, 2, 51, 4, 1,
      "text 2, line 4, column 1: expected a type, found \"END\"" },
    { MODULE("/* \303\244 */ A ::= }"), 0, OER_MODULES_SYNTAX, 1, 54, 2, 15, "text 1, line 2, column 15: expected a type, found \"}\"" },
    { MODULE("A ::= \"x"), 0, OER_MODULES_TOKEN, 1, 45, 2, 7, "text 1, line 2, column 7: no token begins here, or it has no end" },
    { MODULE("A ::= SEQUENCE {a NULL"), 0, OER_MODULES_SYNTAX, 1, 62, 3, 1, "text 1, line 3, column 1: expected \"}\", found \"END\"" },
    { "M DEFINITIONS ::= BEGIN", 0, OER_MODULES_SYNTAX, 1, 23, 1, 24, "text 1, line 1, column 24: expected a name, found the end of the text" },
    { MODULE("A ::= SET {}"), 0, OER_MODULES_NO_TYPES, 0, 0, 0, 0, "A: text 1, line 2, column 7: SET isn't taken, at \"SET\"" },
    { MODULE("a INTEGER ::= 1"), 0, OER_MODULES_NO_TYPES, 0, 0, 0, 0, "the modules give no types" }
};

#endif

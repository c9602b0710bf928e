/* How much stack the calls take: stack FOLDER MOST MODULES
 *
 * FOLDER is examples/ieee1609dot2. Each call runs in a thread whose stack was filled with one octet; how
 * far it was overwritten is what the call took, less what a thread takes that makes none. It prints the
 * calls that take more than MOST octets, or oer_types_read_modules more than MODULES, each with its number,
 * and then its status is 1. With MOST 0 it prints all of them. */
#define _DEFAULT_SOURCE
#include "oer.h"

#include <pthread.h>
#include <stdio.h>
#include <stdlib.h>
#include <string.h>
#include <sys/mman.h>

enum { STACK = 8 << 20, FILL = 0xa5, LARGE = 1 << 20 };

/* ---- a call in a thread of its own */

enum call { NONE, READ, READ_WITHIN, READ_MODULES, SHARE, CHECK, CHECK_WHOLE, CHECK_NESTING, CHECK_MANY, CANON, PART, PART_AT, PART_NAMED, PART_NAMED_AT, TO_JSON, FROM_JSON, EXPLAIN_TYPES, EXPLAIN_JSON, EXPLAIN_OCTETS, FREE };

static const char *const names[] = { "none", "oer_types_read", "oer_types_read_within", "oer_types_read_modules", "oer_types_share", "oer_check", "oer_check_whole",
                                     "oer_check_nesting", "oer_check_many", "oer_canon", "oer_part", "oer_part_at", "oer_part_named", "oer_part_named_at", "oer_to_json", "oer_from_json",
                                     "oer_explain_types", "oer_explain_json", "oer_explain_octets", "oer_types_free" };

/* What the call is given; `status` is what it answers. */
struct job {
    enum call call;
    const char *name;
    oer_types types, other;
    const char *text;
    size_t text_length;
    const uint8_t *octets;
    size_t octets_length;
    const char *path, *named;
    uint8_t *out;
    size_t room;
    uint64_t written;
    uint32_t status;
};

/* Whether the call answers an oer_written. */
static int is_written(enum call call) {
    return call == CANON || call == PART || call == PART_NAMED || (call >= TO_JSON && call <= EXPLAIN_OCTETS);
}

static void *run(void *given) {
    struct job *job = given;
    size_t name = strlen(job->name);
    oer_message message;
    oer_checked answer;
    oer_written written = { 0, 0, 0, 0 };
    char words[256];
    message.at = 0;
    message.length = job->call == READ_MODULES ? job->text_length : job->octets_length;
    switch (job->call) {
    case NONE:
        break;
    case READ:
        job->status = oer_types_read(&job->types, job->text, job->text_length).status;
        break;
    case READ_WITHIN:
        job->status = oer_types_read_within(&job->types, job->text, job->text_length, OER_NO_LIMIT).status;
        break;
    case READ_MODULES:
        job->status = oer_types_read_modules(&job->types, job->text, job->text_length, &message, 1, 0, words, sizeof words).status;
        break;
    case SHARE:
        job->status = oer_types_share(&job->types, &job->other);
        break;
    case CHECK:
        job->status = oer_check(&job->types, job->name, name, job->octets, job->octets_length).status;
        break;
    case CHECK_WHOLE:
        job->status = oer_check_whole(&job->types, job->name, name, job->octets, job->octets_length).status;
        break;
    case CHECK_NESTING:
        job->status = oer_check_nesting(&job->types, job->name, name, job->octets, job->octets_length).status;
        break;
    case CHECK_MANY:
        job->status = oer_check_many(&job->types, job->name, name, job->octets, job->octets_length, &message, 1, &answer, 1);
        break;
    case CANON:
        written = oer_canon(&job->types, job->name, name, job->octets, job->octets_length, OER_NO_LIMIT, job->out, job->room);
        break;
    case PART:
        written = oer_part(&job->types, job->name, name, job->octets, job->octets_length, job->path, strlen(job->path), job->out, job->room);
        break;
    case PART_AT:
        job->status = oer_part_at(&job->types, job->name, name, job->octets, job->octets_length, job->path, strlen(job->path)).status;
        break;
    case PART_NAMED:
        written = oer_part_named(&job->types, job->name, name, job->octets, job->octets_length, job->named, strlen(job->named), job->out, job->room);
        break;
    case PART_NAMED_AT:
        job->status = oer_part_named_at(&job->types, job->name, name, job->octets, job->octets_length, job->named, strlen(job->named)).status;
        break;
    case TO_JSON:
        written = oer_to_json(&job->types, job->name, name, job->octets, job->octets_length, OER_NO_LIMIT, (char *)job->out, job->room);
        break;
    case FROM_JSON:
        written = oer_from_json(&job->types, job->name, name, job->text, job->text_length, job->out, job->room);
        break;
    case EXPLAIN_TYPES:
        written = oer_explain_types(job->text, job->text_length, (char *)job->out, job->room);
        break;
    case EXPLAIN_JSON:
        written = oer_explain_json(&job->types, job->name, name, job->text, job->text_length, (char *)job->out, job->room);
        break;
    case EXPLAIN_OCTETS:
        written = oer_explain_octets(&job->types, job->name, name, job->octets, job->octets_length, (char *)job->out, job->room);
        break;
    case FREE:
        oer_types_free(&job->types);
        break;
    }
    job->written = written.written;
    if (is_written(job->call)) job->status = written.status;
    return NULL;
}

/* How many octets of its stack a thread overwrites that does the job. */
static size_t stack_of(struct job *job) {
    static uint8_t *stack;
    pthread_attr_t how;
    pthread_t thread;
    size_t untouched;
    if (!stack) {
        stack = mmap(NULL, STACK, PROT_READ | PROT_WRITE, MAP_PRIVATE | MAP_ANONYMOUS, -1, 0);
        if (stack == MAP_FAILED) exit(2);
    }
    memset(stack, FILL, STACK);
    if (pthread_attr_init(&how) || pthread_attr_setstack(&how, stack, STACK) || pthread_create(&thread, &how, run, job)) exit(2);
    pthread_join(thread, NULL);
    pthread_attr_destroy(&how);
    for (untouched = 0; untouched < STACK && stack[untouched] == FILL; untouched++) continue;
    return STACK - untouched;
}

static size_t most, most_of_modules, greatest, greatest_of_modules;
static int differs;

/* Does the job by the call, prints what it takes, and says so where it has another status. */
static void measure(struct job *job, enum call call, const char *what, uint32_t status) {
    struct job none;
    size_t taken, allowed = call == READ_MODULES ? most_of_modules : most;
    size_t *so_far = call == READ_MODULES ? &greatest_of_modules : &greatest;
    memset(&none, 0, sizeof none);
    none.name = "";
    job->call = call;
    taken = stack_of(job) - stack_of(&none);
    if (taken > *so_far) *so_far = taken;
    if (job->status != status) printf("bindings/c/stack.c: %s, %s: status %u\n", names[call], what, (unsigned)job->status);
    if (!most || taken > allowed) printf("%s, %s: %lu octets of stack\n", names[call], what, (unsigned long)taken);
    if (job->status != status || (most && taken > allowed)) differs = 1;
}

/* ---- what is given */

static uint8_t out[LARGE], json[LARGE];

/* Reads the types, and makes each call with the octets, the path and the names; the JSON is that of the octets. */
static void measure_all(const char *what, const char *types, const char *name, const uint8_t *octets, size_t length,
                        const char *path, const char *named) {
    struct job job;
    int canonical;
    memset(&job, 0, sizeof job);
    job.name = name;
    job.text = types;
    job.text_length = strlen(types);
    job.octets = octets;
    job.octets_length = length;
    job.path = path;
    job.named = named;
    job.out = out;
    job.room = sizeof out;
    measure(&job, READ, what, OER_OK);
    measure(&job, READ_WITHIN, what, OER_OK);
    measure(&job, EXPLAIN_TYPES, what, OER_OK);
    measure(&job, SHARE, what, OER_OK);
    measure(&job, CHECK, what, OER_OK);
    canonical = oer_check(&job.types, name, strlen(name), octets, length).canonical == 1;
    measure(&job, CHECK_WHOLE, what, canonical ? OER_OK : OER_NOT_CANONICAL);
    measure(&job, CHECK_NESTING, what, OER_OK);
    measure(&job, CHECK_MANY, what, OER_OK);
    measure(&job, EXPLAIN_OCTETS, what, OER_OK);
    measure(&job, CANON, what, OER_OK);
    measure(&job, PART, what, OER_OK);
    measure(&job, PART_AT, what, OER_OK);
    measure(&job, PART_NAMED, what, OER_OK);
    measure(&job, PART_NAMED_AT, what, OER_OK);
    job.out = json;
    measure(&job, TO_JSON, what, OER_OK);
    job.out = out;
    job.text = (const char *)json;
    job.text_length = (size_t)job.written;
    measure(&job, FROM_JSON, what, OER_OK);
    measure(&job, EXPLAIN_JSON, what, OER_OK);
    job.status = OER_OK;
    measure(&job, FREE, what, OER_OK);
    job.types = job.other;
    measure(&job, FREE, what, OER_OK);
}

/* A type in another one: what stands before and after it, the octets before the one of the inner type,
 * whether these are counted, and the step and the name to it. */
struct level {
    const char *before, *after;
    uint8_t octets[4];
    size_t length;
    int counted;
    const char *step, *name;
};

static const struct level levels[] = {
    { "SEQUENCE OF ", "", { 1, 1 }, 2, 0, "i0", "0" },
    { "SEQUENCE {a ", "}", { 0 }, 0, 0, "c0", "a" },
    { "SEQUENCE {a ", " OPTIONAL}", { 0x80 }, 1, 0, "c0", "a" },
    { "SEQUENCE {..., a ", "}", { 0x80, 2, 7, 0x80 }, 4, 1, "a0", "a" },
    { "CHOICE {a ", "}", { 0x80 }, 1, 0, "v", "a" },
    { "CHOICE {b NULL, ..., a ", "}", { 0x81 }, 1, 1, "v", "a" }
};

/* A type of many levels, with octets for it, and the path and the names to the innermost. */
struct deep {
    char type[4096], path[256], named[256], what[4200];
    uint8_t octets[1024];
    const uint8_t *front;
    size_t length;
};

/* The leaf in so many levels of the kind, or where there is none in all kinds in turn. */
static void make_deep(struct deep *made, const struct level *kind, int levels_around, const char *leaf, const uint8_t *contents,
                      size_t length) {
    enum { KINDS = sizeof levels / sizeof *levels };
    uint8_t *end = made->octets + sizeof made->octets, *front = end - length;
    int i;
    memcpy(front, contents, length);
    strcpy(made->type, "A ::= ");
    made->path[0] = made->named[0] = 0;
    for (i = 0; i < levels_around; i++) {
        const struct level *level = kind ? kind : &levels[i % KINDS];
        strcat(made->type, level->before);
        strcat(strcat(made->path, i ? "." : ""), level->step);
        strcat(strcat(made->named, i ? "." : ""), level->name);
    }
    strcat(made->type, leaf);
    for (i = levels_around; i-- > 0;) {
        const struct level *level = kind ? kind : &levels[i % KINDS];
        size_t inner = (size_t)(end - front);
        strcat(made->type, level->after);
        if (level->counted) {
            if (inner > 255) exit(2);
            *--front = (uint8_t)inner;
            if (inner > 127) *--front = 0x81;
        }
        front -= level->length;
        memcpy(front, level->octets, level->length);
    }
    made->front = front;
    made->length = (size_t)(end - front);
    snprintf(made->what, sizeof made->what, "%s of 32 levels: %s", kind ? kind->before : "all kinds", leaf);
}

static void measure_deep(const struct level *kind, const char *leaf, const uint8_t *contents, size_t length) {
    static struct deep made;
    make_deep(&made, kind, 31, leaf, contents, length);
    measure_all(made.what, made.type, "A", made.front, made.length, made.path, made.named);
}

/* Octets that nest too deep, where a type is written out to 32 levels. */
static void measure_end(const struct level *kind) {
    static const uint8_t tag[] = { 0x80 };
    static struct deep made;
    struct job job;
    make_deep(&made, kind, 30, "CHOICE {a [PRIVATE 4294967295] NULL}", tag, 1);
    memset(&job, 0, sizeof job);
    job.name = "A";
    if (oer_types_read(&job.types, made.type, strlen(made.type)).status != OER_OK) exit(2);
    job.octets = made.front;
    job.octets_length = made.length;
    measure(&job, CHECK_NESTING, made.what, OER_REJECTED);
    job.out = out;
    job.room = sizeof out;
    measure(&job, EXPLAIN_OCTETS, made.what, OER_OK);
    oer_types_free(&job.types);
}

static char *contents(const char *folder, const char *name) {
    static char texts[2][65536];
    static int next;
    char path[1024], *text = texts[next++ % 2];
    FILE *file;
    snprintf(path, sizeof path, "%s/%s", folder, name);
    file = fopen(path, "rb");
    if (!file) exit(2);
    text[fread(text, 1, sizeof texts[0] - 1, file)] = 0;
    fclose(file);
    return text;
}

static void measure_certificate(const char *folder) {
    static uint8_t octets[1024];
    const char *digits = contents(folder, "certificate-rsu-basic.hex");
    size_t length = 0;
    unsigned octet;
    while (sscanf(digits + 2 * length, "%2x", &octet) == 1) octets[length++] = (uint8_t)octet;
    measure_all("the certificate", contents(folder, "types.asn"), "Certificate", octets, length, "c3", "toBeSigned");
}

/* The word so many times, and then the end. */
static const char *repeated(const char *start, const char *word, size_t times, const char *end) {
    static char text[LARGE];
    size_t length = strlen(start), word_length = strlen(word);
    strcpy(text, start);
    while (times-- > 0 && length + word_length + strlen(end) + 1 < sizeof text) {
        memcpy(text + length, word, word_length);
        length += word_length;
    }
    strcpy(text + length, end);
    return text;
}

/* A text that is rejected, or that has many parts. */
static void measure_text(const char *what, enum call call, const char *text, uint32_t status) {
    struct job job;
    memset(&job, 0, sizeof job);
    job.name = "A";
    if (call == FROM_JSON && oer_types_read(&job.types, "A ::= SEQUENCE OF SEQUENCE OF OCTET STRING", 42).status != OER_OK) exit(2);
    job.text = text;
    job.text_length = strlen(text);
    job.out = out;
    job.room = sizeof out;
    measure(&job, call, what, status);
    if (call == READ) measure(&job, READ_WITHIN, what, status);
    if (call == READ) measure(&job, EXPLAIN_TYPES, what, OER_OK);
    if (call == FROM_JSON) measure(&job, EXPLAIN_JSON, what, OER_OK);
    oer_types_free(&job.types);
}

#define BRACES "}}}}}}}}}}}}}}}}}}}}}}}}}}}}}}"

/* A type with 40 names within so many others. */
static void measure_many_names(const char *level, size_t levels, const char *type, const char *part, const char *end) {
    char innermost[2048];
    size_t i, length = (size_t)sprintf(innermost, "%s {", type);
    for (i = 0; i < 40; i++) length += (size_t)sprintf(innermost + length, "%sb%u%s", i ? ", " : "", (unsigned)i, part);
    strcpy(innermost + length, end);
    measure_text("many names", READ, repeated("A ::= ", level, levels, innermost), OER_OK);
}

static void measure_texts(void) {
    static const char *const around[] = { "SEQUENCE {a ", "SEQUENCE {..., a ", "CHOICE {a " };
    static char fields[LARGE];
    size_t i, length = (size_t)sprintf(fields, "A ::= SEQUENCE {");
    for (i = 0; i < 4095; i++) length += (size_t)sprintf(fields + length, "%sa%u BOOLEAN", i ? ", " : "", (unsigned)i);
    strcpy(fields + length, "}");
    measure_text("4,095 components", READ, fields, OER_OK);
    measure_text("a type that is too deep", READ, repeated("A ::= ", "SEQUENCE OF ", 80000, "NULL"), OER_REJECTED);
    measure_text("a type that is too deep", READ, repeated("A ::= ", "CHOICE {a ", 80000, "NULL"), OER_REJECTED);
    measure_text("a type that is too deep", READ, repeated("A ::= ", "SEQUENCE {a ", 80000, "NULL"), OER_REJECTED);
    measure_text("a type that is too deep", READ, repeated("A ::= ", "SEQUENCE {..., a ", 60000, "NULL"), OER_REJECTED);
    for (i = 0; i < sizeof around / sizeof *around; i++) {
        measure_many_names(around[i], 31, "ENUMERATED", "", "}}" BRACES);
        measure_many_names(around[i], 30, "SEQUENCE", " BOOLEAN", "}" BRACES);
        measure_many_names(around[i], 30, "CHOICE", " BOOLEAN", "}" BRACES);
    }
    measure_text("a deep default", READ, repeated("A ::= ", "SEQUENCE {a ", 31, "INTEGER DEFAULT 1}" BRACES), OER_OK);
    measure_text("a deep default", READ, repeated("A ::= ", "SEQUENCE {a ", 31, "ENUMERATED {a(1)} DEFAULT a}" BRACES), OER_OK);
    measure_text("a deep default", READ, repeated("A ::= ", "SEQUENCE {a ", 31, "BIT STRING (SIZE(2)) DEFAULT '01'B}" BRACES), OER_OK);
    measure_text("a deep default", READ, repeated("A ::= ", "SEQUENCE {a ", 31, "UTF8String DEFAULT \"a\"}" BRACES), OER_OK);
    measure_text("a deep default", READ, repeated("A ::= ", "SEQUENCE {a ", 31, "OBJECT IDENTIFIER DEFAULT {1 2 3}}" BRACES), OER_OK);
    measure_text("a deep default", READ, repeated("A ::= ", "SEQUENCE {a ", 31, "INTEGER DEFAULT true}" BRACES), OER_REJECTED);
    measure_text("a long default", READ, repeated("A ::= SEQUENCE {a OCTET STRING DEFAULT '", "00", 400000, "'H}"), OER_OK);
    measure_text("braces", READ, repeated("A ::= SEQUENCE {a SEQUENCE OF NULL DEFAULT ", "{", 400000, "}"), OER_REJECTED);
    measure_text("brackets", FROM_JSON, repeated("", "[", 1000000, ""), OER_NO_JSON);
    measure_text("100 brackets", FROM_JSON, repeated("", "[", 100, "]]]]]]]]]]]]]]]]]]]]]]]]]]]]]]]]]]]]]]]]]]]]]]]]]]]]]]]]]]]]]]]]]]]]]]]]]]]]]]]]]]]]]]]]]]]]]]]]]]]]"), OER_REJECTED);
    measure_text("objects", FROM_JSON, repeated("", "{\"a\":", 200000, ""), OER_NO_JSON);
    measure_text("a long string", FROM_JSON, repeated("[[\"", "00", 400000, "\"]]"), OER_OK);
    measure_text("many strings", FROM_JSON, repeated("[[\"00\"", ",\"00\"", 100000, "]]"), OER_OK);
}

/* A module with these definitions, the word so many times between them. */
static void measure_module(const char *what, const char *start, const char *word, size_t times, const char *end, uint32_t status) {
    static char head[1024], tail[LARGE / 2 + 8];
    sprintf(head, "M DEFINITIONS AUTOMATIC TAGS ::= BEGIN %s", start);
    strcat(strcpy(tail, end), " END");
    measure_text(what, READ_MODULES, repeated(head, word, times, tail), status);
}

/* The same with as many words that close. */
static void measure_closed(const char *what, const char *start, const char *open, size_t times, const char *middle, const char *close,
                           const char *end, uint32_t status) {
    static char tail[LARGE / 2];
    size_t i;
    strcpy(tail, middle);
    for (i = 0; i < times; i++) strcat(tail, close);
    strcat(strcat(tail, end), " B ::= BOOLEAN");
    measure_module(what, start, open, times, tail, status);
}

/* A type in so many others, each the alternative of a CHOICE. Its constraint nests about as deep as is read. */
static void measure_deep_constraint(size_t levels) {
    static char start[LARGE / 2], end[LARGE / 2];
    size_t i;
    strcpy(start, "A ::= ");
    for (i = 0; i < levels; i++) strcat(start, "CHOICE {a ");
    strcat(start, "OCTET STRING (SIZE (");
    strcpy(end, "))");
    for (i = 0; i < levels; i++) strcat(end, "}");
    for (i = 60; i < 65; i++) measure_closed("a deep constraint in a deep type", start, "(1 EXCEPT ", i, "2", ")", end, OER_OK);
}

/* A type in so many others, with a default of about as many levels as are read. Its innermost value has a constraint that nests. */
static void measure_deep_default(size_t levels) {
    static char start[LARGE / 2], end[LARGE / 2];
    size_t i;
    strcpy(start, "A ::= ");
    for (i = 0; i < levels; i++) strcat(start, "SEQUENCE {a ");
    strcat(start, "SEQUENCE {a T DEFAULT ");
    strcpy(end, "}");
    for (i = 0; i < levels; i++) strcat(end, "}");
    strcat(end, " T ::= SEQUENCE {n T OPTIONAL, b BIT STRING {x(0)} (SIZE (");
    for (i = 0; i < 60; i++) strcat(end, "(1 EXCEPT ");
    strcat(end, "2");
    for (i = 0; i < 60; i++) strcat(end, ")");
    strcat(end, ")) OPTIONAL}");
    for (i = 28; i < 33; i++) measure_closed("a deep default in a deep type", start, "{n ", i, "{b {x}}", "}", end, OER_OK);
}

/* Definitions that name one another in a row, of which the last is what it says. */
static void measure_chain(const char *what, const char *definition, const char *last, size_t links) {
    static char text[LARGE];
    size_t i, length = (size_t)sprintf(text, "M DEFINITIONS AUTOMATIC TAGS ::= BEGIN\n");
    for (i = 0; i < links; i++) length += (size_t)sprintf(text + length, definition, (unsigned)i, (unsigned)i + 1);
    length += (size_t)sprintf(text + length, last, (unsigned)links);
    strcpy(text + length, " END");
    measure_text(what, READ_MODULES, text, OER_OK);
}

static void measure_modules(const char *folder) {
    static const size_t deep[] = { 8, 30, 60, 200, 4000 };
    size_t i;
    measure_text("the module of the example", READ_MODULES, contents(folder, "../modules/common.asn"), OER_OK);
    measure_module("a module that is too deep", "A ::= ", "SEQUENCE OF ", 80000, "NULL", OER_REJECTED);
    measure_module("a module that is too deep", "A ::= ", "CHOICE {a ", 80000, "NULL", OER_REJECTED);
    measure_module("a module that is too deep", "A ::= ", "SEQUENCE {a ", 80000, "NULL", OER_REJECTED);
    measure_module("a type of modules that is too deep", "B ::= BOOLEAN A ::= ", "SEQUENCE OF ", 40, "BOOLEAN", OER_OK);
    measure_module("a type of modules of 32 levels", "A ::= ", "SEQUENCE OF ", 31, "INTEGER (0..7)", OER_OK);
    measure_module("a type of modules of 32 levels", "A ::= ", "SEQUENCE {a ", 31, "INTEGER (0..7) DEFAULT 5" BRACES "}", OER_OK);
    measure_module("a type of modules of 32 levels", "A ::= ", "CHOICE {a ", 31, "INTEGER (0..7)" BRACES "}", OER_OK);
    measure_module("COMPONENTS OF 30 times in each other", "A ::= ", "SEQUENCE {COMPONENTS OF ", 30, "SEQUENCE {a INTEGER (0..7)" BRACES "}", OER_OK);
    measure_module("parentheses", "B ::= BOOLEAN A ::= INTEGER ", "(", 80000, "1", OER_REJECTED);
    for (i = 0; i < sizeof deep / sizeof *deep; i++) {
        measure_closed("nested sets", "A ::= INTEGER (", "(", deep[i], "1", ")", ")", OER_OK);
        measure_closed("nested sizes", "A ::= OCTET STRING (SIZE (", "(", deep[i], "1", ")", "))", OER_OK);
        measure_closed("nested values", "A ::= SEQUENCE {a SEQUENCE OF NULL DEFAULT ", "{", deep[i], "", "}", "}", OER_OK);
        measure_closed("nested additions", "A ::= SEQUENCE {a NULL, ..., ", "[[", deep[i], "b NULL", "]]", "}", OER_REJECTED);
    }
    for (i = 28; i < 34; i++) measure_deep_constraint(i);
    for (i = 24; i < 31; i++) measure_deep_default(i);
    measure_module("a type that contains itself", "A ::= SEQUENCE {a A OPTIONAL, ", "", 0, "b BOOLEAN}", OER_OK);
    for (i = 0; i < 2; i++) {
        size_t links = i ? 300 : 250;
        measure_chain("names in a row", "A%u ::= A%u\n", "A%u ::= BOOLEAN", links);
        measure_chain("numbers in a row", "a%u INTEGER ::= a%u\n", "a%u INTEGER ::= 7 A ::= INTEGER (0..a0) B ::= BOOLEAN", links);
        measure_chain("constraints in a row", "A%u ::= A%u (0..9)\n", "A%u ::= INTEGER (0..99)", links);
        measure_chain("alternatives in a row", "A%u ::= CHOICE {a A%u}\n", "A%u ::= BOOLEAN", links);
        measure_chain("imported names in a row", "A%u ::= SEQUENCE {a [0] A%u}\n", "A%u ::= BOOLEAN", links);
    }
}

int main(int count, char **words) {
    static const uint8_t one[] = { 1, 1 }, two[] = { 2, 1, 1 };
    size_t i;
    if (count != 4) {
        puts("usage: stack FOLDER MOST MODULES");
        return 2;
    }
    most = (size_t)atol(words[2]);
    most_of_modules = (size_t)atol(words[3]);
    measure_certificate(words[1]);
    for (i = 0; i <= sizeof levels / sizeof *levels; i++) {
        const struct level *kind = i ? &levels[i - 1] : NULL;
        measure_deep(kind, "BOOLEAN", one, 1);
        measure_deep(kind, "INTEGER", one, 2);
        measure_deep(kind, "OCTET STRING", one, 2);
        measure_deep(kind, "BIT STRING", two, 3);
        measure_deep(kind, "UTF8String", one, 2);
        measure_deep(kind, "IA5String", one, 2);
        measure_deep(kind, "OBJECT IDENTIFIER", one, 2);
        measure_deep(kind, "ENUMERATED {a(1)}", one, 1);
        measure_end(kind);
    }
    measure_texts();
    measure_modules(words[1]);
    if (!most) printf("the most: %lu octets of stack, by oer_types_read_modules %lu\n", (unsigned long)greatest, (unsigned long)greatest_of_modules);
    return differs;
}

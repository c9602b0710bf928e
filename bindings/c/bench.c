/* Calls to be measured: bench FOLDER CALL TURNS
 *
 * FOLDER is examples/ieee1609dot2; CALL is read, check, many, canon, part, part_at, show or make; and the
 * call is made TURNS times, with the certificate of a roadside unit in its basic form, and types that were
 * read once. read reads the types, and many checks the certificate MANY times in one call. The cost of a
 * turn is the difference of two runs, by the turns between them (bench/calls). */
#include "oer.h"

#include <stdio.h>
#include <stdlib.h>
#include <string.h>

static char *contents(const char *folder, const char *name, size_t *length) {
    static char at[1 << 16];
    char path[1024], *made;
    FILE *file;
    snprintf(path, sizeof path, "%s/%s", folder, name);
    file = fopen(path, "rb");
    if (!file) {
        perror(path);
        exit(2);
    }
    *length = fread(at, 1, sizeof at, file);
    fclose(file);
    made = malloc(*length + 1);
    memcpy(made, at, *length);
    made[*length] = 0;
    return made;
}

static uint8_t digit(char c) {
    return (uint8_t)(c <= '9' ? c - '0' : c - 'a' + 10);
}

#define MANY 100

/* What the calls are given, and where they write. */
struct given {
    oer_types types;
    const char *text;
    size_t text_length;
    uint8_t octets[1024];
    size_t length;
    char json[8192];
    size_t json_length;
    uint8_t out[8192];
    oer_message messages[MANY];
    oer_checked answers[MANY];
};

#define NAME "Certificate", 11

static uint32_t read_types(struct given *g) {
    return oer_types_read(&g->types, g->text, g->text_length).status;
}

static uint32_t check(struct given *g) {
    return oer_check(&g->types, NAME, g->octets, g->length).status;
}

static uint32_t many(struct given *g) {
    return oer_check_many(&g->types, NAME, g->octets, g->length, g->messages, MANY, g->answers, MANY);
}

static uint32_t canon(struct given *g) {
    return oer_canon(&g->types, NAME, g->octets, g->length, OER_NO_LIMIT, g->out, sizeof g->out).status;
}

static uint32_t part(struct given *g) {
    return oer_part(&g->types, NAME, g->octets, g->length, "c3", 2, g->out, sizeof g->out).status;
}

static uint32_t part_at(struct given *g) {
    return oer_part_at(&g->types, NAME, g->octets, g->length, "c3", 2).status;
}

static uint32_t show(struct given *g) {
    return oer_to_json(&g->types, NAME, g->octets, g->length, OER_NO_LIMIT, (char *)g->out, sizeof g->out).status;
}

static uint32_t make(struct given *g) {
    return oer_from_json(&g->types, NAME, g->json, g->json_length, g->out, sizeof g->out).status;
}

static const struct {
    const char *name;
    uint32_t (*call)(struct given *g);
} calls[] = {
    { "read", read_types }, { "check", check },     { "many", many }, { "canon", canon },
    { "part", part },       { "part_at", part_at }, { "show", show }, { "make", make },
};

/* Reads the types and the certificate, and makes its JSON. */
static int prepare(struct given *g, const char *folder) {
    size_t i, digits_length;
    char *digits = contents(folder, "certificate-rsu-basic.hex", &digits_length);
    oer_written shown;
    memset(g, 0, sizeof *g);
    g->text = contents(folder, "types.asn", &g->text_length);
    for (; digits[2 * g->length] > ' ' && digits[2 * g->length + 1] > ' '; g->length++)
        g->octets[g->length] = (uint8_t)(digit(digits[2 * g->length]) * 16 + digit(digits[2 * g->length + 1]));
    free(digits);
    for (i = 0; i < MANY; i++) g->messages[i].length = g->length;
    if (read_types(g) != OER_OK) return 0;
    shown = oer_to_json(&g->types, NAME, g->octets, g->length, OER_NO_LIMIT, g->json, sizeof g->json);
    g->json_length = (size_t)shown.written;
    return shown.status == OER_OK;
}

int main(int count, char **words) {
    static struct given given;
    size_t i, chosen = sizeof calls / sizeof *calls;
    long turn, turns, good = 0;
    for (i = 0; count == 4 && i < sizeof calls / sizeof *calls; i++)
        if (strcmp(words[2], calls[i].name) == 0) chosen = i;
    if (chosen == sizeof calls / sizeof *calls) {
        puts("usage: bench FOLDER read|check|many|canon|part|part_at|show|make TURNS");
        return 2;
    }
    turns = atol(words[3]);
    if (!prepare(&given, words[1])) return 1;
    for (turn = 0; turn < turns; turn++) good += calls[chosen].call(&given) == OER_OK;
    oer_types_free(&given.types);
    free((void *)given.text);
    return good != turns;
}

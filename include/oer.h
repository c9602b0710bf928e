/* oer.h: encodings of ASN.1 values by the octet encoding rules (ITU-T X.696), from C and C++.
 *
 * A text of definitions, or published ASN.1 modules, are read once into an oer_types. By the types in it
 * octets are checked, rewritten as canonical octets, taken apart, shown as JSON, and made from JSON. Each
 * call is a function of crates/oer_c, and is proved to do what its contract there says; oer_types_free first
 * asks whether its pointer is NULL. This file and the code that calls the library are not proved: a caller has
 * to keep the rules below.
 *
 * A call that writes takes a buffer of the caller's, and never writes past it. It writes all of the
 * answer or nothing: where the status is not OER_OK, the buffer is as it was. oer_types_read_modules alone
 * writes where it rejects: words, as many as there is room for.
 *
 * Rules
 *
 * - An oer_types begins as OER_TYPES_NONE, or as zeros. Its fields belong to the library: a caller
 *   neither reads nor writes them. It may be moved to another place while no call uses it, and then
 *   the old place is not used again; two copies of one oer_types may not both be used.
 * - An oer_types is in one call at a time. The next call may come from another thread, where the one
 *   call happens before the other, as C has it: by a lock, the start or join of a thread, a queue, an
 *   atomic that is stored with release and loaded with acquire. For calls at the same time each thread
 *   has an oer_types of its own: oer_types_share gives it the types of another one, and they are in
 *   memory once.
 * - oer_types_free gives the memory back, where no other oer_types has the types. After it the oer_types
 *   is as new: each call on it answers OER_NO_TYPES, and types may be read into it again. To free it twice
 *   is allowed.
 * - No pointer is NULL; only oer_types_free may be given NULL. A pointer that comes with a length points
 *   to that many octets. Those that are read are initialized. Those of an output buffer needn't be: what
 *   is written follows from what is read, and the rest of the buffer stays as it is. With length 0 nothing
 *   is read or written there, and any pointer but NULL will do.
 * - The output buffer and each oer_types overlap nothing else that is passed to the call. Inputs may
 *   overlap each other.
 * - Memory comes from malloc, realloc and free, which have to belong together. It may run out: then
 *   the status is OER_MEMORY, and what the call was given is as before. oer_check, oer_check_whole and
 *   oer_check_many take none. oer_canon holds the canonical octets, a small multiple of those read.
 *   oer_to_json holds the value, which takes some 96 octets for each addition of a known type, there or not:
 *   with 4,000 of these, 4 KB may take 1.5 GB. A limit bounds the octets, and not this.
 * - A call takes at most 96 KB of stack, but oer_types_read_modules at most 640 KB. This is measured
 *   (docs/LIBRARY.md), and not proved.
 * - No call is made from a signal handler, or in the child of a fork of a process with threads.
 *
 * Octets are uint8_t, texts are char. All lengths and places are numbers of octets; texts are UTF-8,
 * come with their length, and need no zero octet at the end. None is written after JSON, words or lines. */
#ifndef OER_H
#define OER_H

#include <stddef.h>
#include <stdint.h>

#ifdef __cplusplus
extern "C" {
#endif

/* Compilers that know this warn where a pointer is NULL. */
#ifdef __GNUC__
#define OER_NO_NULL __attribute__((nonnull))
#else
#define OER_NO_NULL
#endif

/* The version of this header: major, minor, patch. */
#define OER_VERSION "0.1.0"

/* The same as a number: 10,000 times the major number, 100 times the minor number, and the patch. */
#define OER_VERSION_NUMBER 100

/* The version of the library, as such a number. */
uint32_t oer_version(void);

/* What a call answers in `status`. */
enum oer_status {
    OER_OK = 0,             /* the call did what it is for */
    OER_REJECTED = 1,       /* the octets are no encoding, the text spells no types, the modules give none, or
                               the JSON is no value of the type; `why` has the reason */
    OER_NO_TYPES = 2,       /* the oer_types has no types */
    OER_UNNAMED = 3,        /* no definition has the name */
    OER_MEMORY = 4,         /* an allocation failed */
    OER_ROOM = 5,           /* the buffer is too small: `written` says how many octets are needed */
    OER_NO_PATH = 6,        /* the text is not a path, or not names */
    OER_NO_STEP = 7,        /* the path has a step that the type doesn't have, one past the last element, or
                               one to an addition that the type doesn't know and that isn't there; or it
                               goes on from a part that the type doesn't know; or the same of names */
    OER_ABSENT = 8,         /* the path leads to a component or a known addition that is absent; or names do,
                               or to an alternative that isn't chosen */
    OER_NO_JSON = 9,        /* the text is not JSON, or not UTF-8: `octets` says where */
    OER_OUTSIDE = 10,       /* the message, or the text of modules, is not all in the octets */
    OER_NOT_CANONICAL = 11, /* the octets are an encoding, but not the canonical one */
    OER_FOLLOWS = 12        /* an encoding is at the front of the octets, and others follow it */
};

/* Why octets are rejected: `why` of oer_checked, oer_written and oer_located at OER_REJECTED, except in
 * oer_from_json. docs/ENCODING.md says in which order the reasons are looked for. */
enum oer_reason {
    OER_END = 3,                  /* they end within the value */
    OER_LIMIT = 4,                /* they would pass the limit */
    OER_WINDOW = 5,               /* they would pass the end of the addition or alternative that they
                                     are in, or end before it */
    OER_LENGTH_FORM = 6,          /* a length begins with 80 */
    OER_EMPTY_NUMBER = 7,         /* a number of no octets */
    OER_INTEGER_RANGE = 8,        /* a number outside its range or bounds */
    OER_ENUM_FORM = 9,            /* an enumeration with count 0, or outside 64 bits */
    OER_UNKNOWN_ENUM = 10,        /* a number that isn't listed, in an enumeration without a marker */
    OER_SIZE = 11,                /* a size outside its constraint, or above 2^64 - 1 */
    OER_CHARACTER = 12,           /* a character outside the type, or not UTF-8 */
    OER_BIT_UNUSED = 13,          /* a BIT STRING without an initial octet, or with a wrong one */
    OER_OBJECT_ID = 14,           /* contents that are no object identifier */
    OER_PREAMBLE_PADDING = 15,    /* a preamble with a bit set after its last one */
    OER_TAG_FORM = 16,            /* no tag, or one with a number above 2^32 - 1 */
    OER_UNKNOWN_ALTERNATIVE = 17, /* a tag that no alternative has, in a CHOICE without a marker */
    OER_UNKNOWN_ADDITION = 18,    /* a bit set for an addition past place 65,535 */
    OER_NESTING = 19              /* they nest deeper than the type, one of modules, is written out: only
                                     oer_check_nesting says so */
};

/* Why definitions are rejected: `why` of oer_parsed at OER_REJECTED (docs/NOTATION.md). */
enum oer_text_reason {
    OER_TEXT_NOT_UTF8 = 0,         /* the text is not UTF-8 from `place` on */
    OER_TEXT_TOKEN = 2,            /* no token begins here, or it has no end */
    OER_TEXT_SYNTAX = 3,           /* a token that the grammar doesn't have here */
    OER_TEXT_NUMBER = 4,           /* a number out of range for its place */
    OER_TEXT_NAME = 5,             /* a name that no earlier definition has */
    OER_TEXT_REPEATED = 6,         /* a name that is defined twice */
    OER_TEXT_MIXED = 7,            /* tags on some alternatives only, or numbers on some items only */
    OER_TEXT_DEFAULT = 8,          /* a value that isn't in the notation of the component's type */
    OER_TEXT_TOO_DEEP = 9,         /* a type of more than 32 levels */
    OER_TEXT_TOO_MANY_PARTS = 10,  /* a type of more than 4,096 parts */
    OER_TEXT_BOUND_ORDER = 11,     /* a lower bound above the upper bound */
    OER_TEXT_SIZE_ORDER = 12,      /* a least size above the greatest */
    OER_TEXT_BAD_NAME = 13,        /* a name that is no identifier; no text has this fault */
    OER_TEXT_REPEATED_NAME = 14,   /* the same name twice in a SEQUENCE, CHOICE or ENUMERATED */
    OER_TEXT_NO_ITEMS = 15,        /* no items or alternatives; no text has this fault */
    OER_TEXT_REPEATED_NUMBER = 16, /* the same number twice in an ENUMERATED */
    OER_TEXT_REPEATED_TAG = 17,    /* the same tag twice in a CHOICE */
    OER_TEXT_DEFAULT_MISFIT = 18,  /* a default that doesn't fit its type */
    OER_TEXT_EMPTY_ELEMENT = 19,   /* a SEQUENCE OF whose elements may take no octets */
    OER_TEXT_PARTS = 20            /* oer_types_read_within: all types together have more parts, or hold more octets */
};

/* Why modules are rejected: `why` of oer_understood at OER_REJECTED. The words say more: which token stands there, and
 * what was looked for. */
enum oer_modules_reason {
    OER_MODULES_NOT_UTF8 = 0, /* a text is not UTF-8 from `place` on */
    OER_MODULES_TOKEN = 1,    /* no token begins at `place`, or it has no end */
    OER_MODULES_SYNTAX = 2,   /* a token that the grammar doesn't have at `place`, or the text ends there */
    OER_MODULES_TOO_DEEP = 3, /* types or values nest too deep at `place` */
    OER_MODULES_NO_TYPES = 4  /* no definition of the modules is understood: each is refused, and the words say why the
                                 first one is; or there is none */
};

/* Why JSON is rejected: `why` of oer_written at OER_REJECTED, in oer_from_json (docs/JSON.md). */
enum oer_json_reason {
    OER_JSON_KIND = 2,    /* JSON of another kind than the type's values have, or of another form */
    OER_JSON_NAME = 3,    /* a key that the type doesn't have, or a text that is no item's name */
    OER_JSON_MISSING = 4, /* a component that must be there has no key */
    OER_JSON_RANGE = 5,   /* a number out of range */
    OER_JSON_MISFIT = 6   /* a value of the right form that doesn't fit the type */
};

/* Types that were read, by their names; or none. */
typedef struct oer_types {
    void *at_;
    uint32_t full_;
} oer_types;

/* An oer_types without types: oer_types types = OER_TYPES_NONE; */
#ifdef __cplusplus
#define OER_TYPES_NONE {}
#else
#define OER_TYPES_NONE { 0, 0 }
#endif

/* What reading definitions answers. */
typedef struct oer_parsed {
    uint32_t status; /* OER_OK, OER_REJECTED or OER_MEMORY */
    uint32_t why;    /* at OER_REJECTED the reason, an enum oer_text_reason; else 0 */
    uint64_t place;  /* at OER_REJECTED the octet of the text at which the token or type begins that
                        shows the fault; at OER_TEXT_NOT_UTF8 the one from which on it isn't UTF-8: the
                        octets before it are, and no longer front is; at OER_OK the length of the text;
                        else 0 */
} oer_parsed;

/* What reading modules answers. */
typedef struct oer_understood {
    uint32_t status; /* OER_OK, OER_REJECTED, OER_OUTSIDE or OER_MEMORY */
    uint32_t why;    /* at OER_REJECTED the reason, an enum oer_modules_reason; else 0 */
    uint64_t text;   /* at OER_REJECTED and OER_OUTSIDE which of the texts it is, counted from 1; 0 at
                        OER_MODULES_NO_TYPES, and else */
    uint64_t place;  /* at OER_REJECTED the octet of that text at which the fault shows, counted from 0; at
                        OER_MODULES_NOT_UTF8 the one from which on it isn't UTF-8; else 0 */
    uint64_t line;   /* the line of that octet, counted from 1; 0 at OER_MODULES_NOT_UTF8, and where there is
                        no such octet */
    uint64_t column; /* its column in characters, counted from 1; 0 where there is no line */
    uint64_t words;  /* at OER_REJECTED how many octets of words are in the buffer; else 0 */
} oer_understood;

/* What a check answers. */
typedef struct oer_checked {
    uint32_t status;    /* OER_OK, OER_REJECTED, OER_NO_TYPES or OER_UNNAMED; of oer_check_many
                           OER_OK, OER_REJECTED or OER_OUTSIDE; of oer_check_whole OER_NOT_CANONICAL
                           or OER_FOLLOWS too, of oer_check_nesting OER_MEMORY */
    uint32_t why;       /* at OER_REJECTED the reason, an enum oer_reason; else 0 */
    uint64_t octets;    /* at OER_OK, OER_NOT_CANONICAL and OER_FOLLOWS how many octets the encoding has;
                           at OER_REJECTED how many had been looked at when it was rejected; else, and at
                           OER_OK of oer_check_nesting, 0 */
    uint32_t canonical; /* at OER_OK and OER_FOLLOWS 1 where the encoding is canonical, 0 where it is
                           another one; else 0 */
} oer_checked;

/* Where a message is in octets, or a text of modules in texts. */
typedef struct oer_message {
    size_t at;     /* the place of its first octet */
    size_t length; /* how many octets it has */
} oer_message;

/* What a call answers that writes into a buffer. */
typedef struct oer_written {
    uint32_t status;  /* each call says which */
    uint32_t why;     /* at OER_REJECTED the reason; else 0 */
    uint64_t octets;  /* at OER_OK, OER_ROOM, OER_NO_STEP and OER_ABSENT how many octets the encoding has
                         that was read; at OER_REJECTED how many had been looked at; else 0.
                         oer_from_json reads no encoding: at OER_NO_JSON it answers the place in the
                         text at which reading stopped, and else 0; of the calls that explain it is 0 */
    uint64_t written; /* at OER_OK how many octets were written; at OER_ROOM how many are needed; else
                         0 */
} oer_written;

/* What a call answers that says where a part lies. */
typedef struct oer_located {
    uint32_t status; /* the call says which */
    uint32_t why;    /* at OER_REJECTED the reason, an enum oer_reason; else 0 */
    uint64_t octets; /* at OER_OK, OER_NO_STEP and OER_ABSENT how many octets the encoding has; at
                        OER_REJECTED how many had been looked at; else 0 */
    size_t at;       /* at OER_OK the place of the part's first octet; else 0 */
    size_t length;   /* at OER_OK how many octets the part has; else 0 */
} oer_located;

/* The greatest limit, 2^64 - 1: an encoding of more octets is rejected with OER_LIMIT. No octets in memory
 * are as many, but a length that they begin with may say so: as an OCTET STRING, 88 ff ff ff ff ff ff ff ff
 * would have 2^64 + 8 octets, and is rejected with OER_LIMIT after these 9, whatever follows them. The calls
 * that are given no limit have this one. */
#ifdef __cplusplus
#define OER_NO_LIMIT static_cast<uint64_t>(-1)
#else
#define OER_NO_LIMIT ((uint64_t)-1)
#endif

/* Reads definitions `Name ::= type` (docs/NOTATION.md), in place of the types that were there. At
 * OER_REJECTED and OER_MEMORY the types are those from before. */
oer_parsed oer_types_read(oer_types *types, const char *text, size_t text_length) OER_NO_NULL;

/* Reads definitions as oer_types_read does, if their types have at most `parts` parts together, and the text
 * stands for no more octets in names and defaults than these have room for (docs/NOTATION.md, Limits); else they
 * are rejected with OER_TEXT_PARTS, where the definition begins with which there are more. A Name within a type
 * stands for a copy of its type, so a text of some kilobytes may take hundreds of megabytes: use this call for
 * texts from someone else. 65,536 parts are enough for the types of IEEE 1609.2, and take less than 40 MB. */
oer_parsed oer_types_read_within(oer_types *types, const char *text, size_t text_length, uint64_t parts)
    OER_NO_NULL;

/* Reads published ASN.1 modules (X.680), in place of the types that were there. The types are those of all
 * definitions that are understood (docs/MODULES.md), each by its Name: those that the programs take by that Name
 * alone. A definition that is refused has no type, so its Name is OER_UNNAMED in later calls, and `oer types` says
 * why. The same holds of one that isn't a well-formed type (docs/NOTATION.md, as with one name twice).
 * The texts stand in one buffer: each is the `length` octets from texts + at on, by its place, and holds one module
 * or more, in any order. A type that contains itself is written out so often, one in the other, as `nesting` says;
 * 0 stands for the most that fits, up to 8. Each type has at most 4,096 parts. Together they may have many more, so
 * modules from someone else may take much memory.
 * At OER_REJECTED words are put into the buffer, all that there are or as many as it has room for: one line of ASCII
 * without its end, as: text 1, line 12, column 5: expected a type, found "}". Room for 256 octets is enough, where
 * the Names of definitions are not long. At any other status the buffer is as before. Unless the status is OER_OK
 * the types are those from before.
 * OER_OK, OER_REJECTED, OER_MEMORY, OER_OUTSIDE: the place of the text with the number `text` is not all in the
 * texts. */
oer_understood oer_types_read_modules(oer_types *types, const char *texts, size_t texts_length,
                                      const oer_message *places, size_t places_length, uint8_t nesting,
                                      char *words, size_t room) OER_NO_NULL;

/* Writes why definitions are rejected, as `oer --explain` says it (docs/COMMAND.md, Where a text or octets are rejected):
 * lines of UTF-8, each with its line feed, or nothing where they are accepted. They have the line and the column of the place
 * that oer_types_read answers, that line of the text with a mark under the place, what is wrong there, and perhaps what
 * may help, which speaks of the program's options. The text is read again, by as much memory as oer_types_read takes:
 * of a text from someone else ask only where oer_types_read_within rejects it, and not with OER_TEXT_PARTS.
 * OER_OK, OER_MEMORY, OER_ROOM: room for 1,024 octets is enough. */
oer_written oer_explain_types(const char *text, size_t text_length, char *out, size_t room) OER_NO_NULL;

/* Frees the types. With NULL it does nothing, as free does. */
void oer_types_free(oer_types *types);

/* Gives `other` the types of `types`, in place of those that were there. They are in memory once, and are
 * freed when no oer_types has them. Each of the two is used by itself: one thread may call with the one
 * while another thread calls with the other. Unless the status is OER_OK, `other` is as before.
 * OER_OK, OER_NO_TYPES, OER_MEMORY. */
uint32_t oer_types_share(oer_types *types, oer_types *other) OER_NO_NULL;

/* Whether the octets begin with an encoding of a value of the type with the name, in any spelling
 * that the rules allow (Basic-OER): how long it is, and whether it is the canonical one by these types
 * (oer_check_whole). What follows it is not looked at: compare `octets` of the answer with
 * octets_length. */
oer_checked oer_check(oer_types *types, const char *name, size_t name_length,
                      const uint8_t *octets, size_t octets_length) OER_NO_NULL;

/* Whether the octets are the canonical encoding (Canonical-OER) of a value of the type with the name, and
 * nothing else: what has to be asked before a signature over them counts. They are canonical by these
 * types: the content of an addition or alternative that the types don't know is taken as it stands. So
 * 80 ff 02 07 80 03 02 00 05 are canonical as SEQUENCE {a BOOLEAN, ...}, and not as SEQUENCE {a BOOLEAN, ...,
 * x INTEGER (0..MAX)}, since x is 01 05 in canonical octets: ask by the newest types that there are.
 * OER_OK: they are. OER_FOLLOWS: an encoding is at the front, and others follow it, from octets + `octets`
 * of the answer on. OER_NOT_CANONICAL: they are an encoding, but not the canonical one. OER_REJECTED: no
 * encoding is at the front, as in oer_check. OER_NO_TYPES, OER_UNNAMED. */
oer_checked oer_check_whole(oer_types *types, const char *name, size_t name_length,
                            const uint8_t *octets, size_t octets_length) OER_NO_NULL;

/* Checks each message as oer_check does. A message is a part of the octets; messages may overlap. Its
 * answer has its place among the answers. That has the status of oer_check, or OER_OUTSIDE where the
 * message is not all in the octets. No memory is taken. Answers past the messages stay as they are, and
 * so do all where the status isn't OER_OK.
 * OER_OK, OER_NO_TYPES, OER_UNNAMED, OER_ROOM: there are fewer answers than messages. */
uint32_t oer_check_many(oer_types *types, const char *name, size_t name_length,
                        const uint8_t *octets, size_t octets_length,
                        const oer_message *messages, size_t messages_length,
                        oer_checked *answers, size_t answers_length) OER_NO_NULL;

/* That octets don't nest deeper than the type with the name is written out. oer_types_read_modules writes a type
 * that contains itself out to a nesting. Where it would stand once more is CHOICE {too-deep [PRIVATE 4294967295]
 * NULL} in its place, and the other calls reject octets that get there with OER_UNKNOWN_ALTERNATIVE. Ask then: by
 * types that are read with a greater nesting they may be an encoding.
 * OER_OK: they don't, whether an encoding is at the front or not. OER_REJECTED: they do; `why` is OER_NESTING, and
 * `octets` the place, which is that of the other calls. OER_NO_TYPES, OER_UNNAMED, OER_MEMORY. */
oer_checked oer_check_nesting(oer_types *types, const char *name, size_t name_length,
                              const uint8_t *octets, size_t octets_length) OER_NO_NULL;

/* Writes the canonical octets (Canonical-OER) of the value whose encoding, of at most `limit` octets,
 * is at the front of the octets. What follows it is not looked at.
 * OER_OK, OER_REJECTED, OER_NO_TYPES, OER_UNNAMED, OER_MEMORY, OER_ROOM. */
oer_written oer_canon(oer_types *types, const char *name, size_t name_length,
                      const uint8_t *octets, size_t octets_length, uint64_t limit,
                      uint8_t *out, size_t room) OER_NO_NULL;

/* Writes the part of the encoding at the front of the octets to which the path leads, as it stands in
 * them. A path is steps joined by dots (docs/COMMAND.md): c0 a component, a0 an addition, i0 an
 * element, v the alternative chosen. What follows the encoding is not looked at: it begins at octets +
 * `octets` of the answer, also where the path leads nowhere.
 * OER_OK, OER_REJECTED, OER_NO_TYPES, OER_UNNAMED, OER_MEMORY, OER_ROOM, OER_NO_PATH, OER_NO_STEP,
 * OER_ABSENT. */
oer_written oer_part(oer_types *types, const char *name, size_t name_length,
                     const uint8_t *octets, size_t octets_length,
                     const char *path, size_t path_length,
                     uint8_t *out, size_t room) OER_NO_NULL;

/* Says where that part lies: it is the `length` octets from octets + at on, and nothing is copied. Of a
 * part without octets `at` is its place, which may be octets_length. What follows the encoding begins at
 * octets + `octets` of the answer, as of oer_part.
 * OER_OK, OER_REJECTED, OER_NO_TYPES, OER_UNNAMED, OER_MEMORY, OER_NO_PATH, OER_NO_STEP, OER_ABSENT. */
oer_located oer_part_at(oer_types *types, const char *name, size_t name_length,
                        const uint8_t *octets, size_t octets_length,
                        const char *path, size_t path_length) OER_NO_NULL;

/* Writes the part to which names lead, in place of a path: those of the parts on the way, joined by dots
 * (docs/COMMAND.md, Names), as list.1.b. A name is the identifier of a component, an addition or an alternative,
 * or the number of an element, counted from 0: decimal, without leading zeros, below 2^64. What the type doesn't
 * know has no name. All else is as in oer_part. A name is looked for in the type once the octets are checked.
 * OER_OK, OER_REJECTED, OER_NO_TYPES, OER_UNNAMED, OER_MEMORY, OER_ROOM.
 * OER_NO_PATH: a name is empty, as the whole text may be, or has another character than letters, digits and
 * hyphens. OER_NO_STEP: the type has no such name, or there is no such element. OER_ABSENT: a component or a known
 * addition is absent, or another alternative is chosen. */
oer_written oer_part_named(oer_types *types, const char *name, size_t name_length,
                           const uint8_t *octets, size_t octets_length,
                           const char *names, size_t names_length,
                           uint8_t *out, size_t room) OER_NO_NULL;

/* Says where that part lies, as oer_part_at does.
 * OER_OK, OER_REJECTED, OER_NO_TYPES, OER_UNNAMED, OER_MEMORY, OER_NO_PATH, OER_NO_STEP, OER_ABSENT. */
oer_located oer_part_named_at(oer_types *types, const char *name, size_t name_length,
                              const uint8_t *octets, size_t octets_length,
                              const char *names, size_t names_length) OER_NO_NULL;

/* Writes the JSON (docs/JSON.md) of the value whose encoding, of at most `limit` octets, is at the
 * front of the octets. What follows it is not looked at.
 * OER_OK, OER_REJECTED, OER_NO_TYPES, OER_UNNAMED, OER_MEMORY, OER_ROOM. */
oer_written oer_to_json(oer_types *types, const char *name, size_t name_length,
                        const uint8_t *octets, size_t octets_length, uint64_t limit,
                        char *out, size_t room) OER_NO_NULL;

/* Writes the canonical octets of the value that the JSON stands for.
 * At OER_NO_JSON `octets` of the answer is a place in the text. Where this isn't UTF-8, it is the octet from
 * which on it isn't: the octets before it are, and no longer front is. Else it is the octet at which reading
 * stopped, at the fault or soon after it; where the text ends too soon, it is its length. So of "[1, x]" it is
 * 4, and of "[1," 3. That it is within the text or at its end is proved; which octet it is, is only tested.
 * At OER_REJECTED no place is known.
 * OER_OK, OER_REJECTED, OER_NO_TYPES, OER_UNNAMED, OER_MEMORY, OER_ROOM, OER_NO_JSON. */
oer_written oer_from_json(oer_types *types, const char *name, size_t name_length,
                          const char *text, size_t text_length,
                          uint8_t *out, size_t room) OER_NO_NULL;

/* Writes why oer_from_json rejects the JSON, as `oer make --explain` says it (docs/COMMAND.md, Where a text or octets are
 * rejected): lines of UTF-8, each with its line feed, or nothing where the JSON is accepted. They name the way to the
 * innermost part that the type rejects, what is wrong with it, and what is wanted there; of a text that is not JSON, or
 * not UTF-8, the line and the column of the place, and that line with a mark under it.
 * OER_OK, OER_NO_TYPES, OER_UNNAMED, OER_MEMORY, OER_ROOM: room for 1,024 octets is mostly enough; names of the type
 * may be long. */
oer_written oer_explain_json(oer_types *types, const char *name, size_t name_length,
                             const char *text, size_t text_length,
                             char *out, size_t room) OER_NO_NULL;

/* Writes why oer_check rejects the octets, as `oer check --explain` says it: lines of UTF-8, each with its line feed, or
 * nothing where the octets are accepted. They are the lines of `oer-dump --width 100` up to the part that was being read,
 * the names on the way to it, what is wrong with it, and what is wanted there. Each part that was read has a line, so they
 * are much longer than the octets, and are held twice: of long octets from someone else ask by a front of them.
 * OER_OK, OER_NO_TYPES, OER_UNNAMED, OER_MEMORY, OER_ROOM. */
oer_written oer_explain_octets(oer_types *types, const char *name, size_t name_length,
                               const uint8_t *octets, size_t octets_length,
                               char *out, size_t room) OER_NO_NULL;

#undef OER_NO_NULL

#ifdef __cplusplus
}
#endif
#endif

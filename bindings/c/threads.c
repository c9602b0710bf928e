/* Threads that share types, and hand them on: threads ROUNDS
 *
 * Each way that the header names is tried: the start and join of a thread, a lock, an atomic that is
 * stored with release and loaded with acquire. It says what differs, and then its status is 1. */
#include "oer.h"

#include <pthread.h>
#include <sched.h>
#include <stdatomic.h>
#include <stdio.h>
#include <stdlib.h>
#include <string.h>

enum { THREADS = 4 };

static atomic_int differs;

static void expect(int holds, const char *what) {
    if (holds) return;
    printf("bindings/c/threads.c: %s\n", what);
    atomic_store(&differs, 1);
}

/* That the calls answer what they do alone. */
static void call(oer_types *types) {
    static const uint8_t octets[] = { 2, 0, 1, 7, 1 }, canonical[] = { 1, 1, 0xff, 1 };
    static const char text[] = "[{\"a-long-name\":true,\"b\":\"an-item\"}]";
    uint8_t out[sizeof canonical];
    char json[sizeof text];
    oer_checked checked = oer_check(types, "A", 1, octets, sizeof octets);
    oer_written made = oer_canon(types, "A", 1, octets, sizeof octets, OER_NO_LIMIT, out, sizeof out);
    oer_written shown = oer_to_json(types, "A", 1, octets, sizeof octets, OER_NO_LIMIT, json, sizeof json);
    expect(checked.status == OER_OK && checked.octets == sizeof octets && checked.canonical == 0, "oer_check");
    expect(made.status == OER_OK && made.written == sizeof out && !memcmp(out, canonical, sizeof out), "oer_canon");
    expect(shown.status == OER_OK && shown.written == sizeof text - 1 && !memcmp(json, text, sizeof text - 1), "oer_to_json");
    made = oer_from_json(types, "A", 1, text, sizeof text - 1, out, sizeof out);
    expect(made.status == OER_OK && made.written == sizeof out && !memcmp(out, canonical, sizeof out), "oer_from_json");
}

static oer_types read_types(void) {
    static const char text[] = "A ::= SEQUENCE OF SEQUENCE {a-long-name BOOLEAN, b ENUMERATED {an-item(1)}}";
    oer_types types = OER_TYPES_NONE;
    expect(oer_types_read(&types, text, sizeof text - 1).status == OER_OK, "oer_types_read");
    return types;
}

/* ---- each thread has an oer_types of its own, which it frees */

static void *use(void *own) {
    call(own);
    oer_types_free(own);
    return NULL;
}

static void share(void) {
    oer_types types = read_types(), own[THREADS] = { OER_TYPES_NONE };
    pthread_t threads[THREADS];
    int i;
    for (i = 0; i < THREADS; i++) {
        expect(oer_types_share(&types, &own[i]) == OER_OK, "oer_types_share");
        if (pthread_create(&threads[i], NULL, use, &own[i])) exit(2);
    }
    call(&types);
    oer_types_free(&types);
    for (i = 0; i < THREADS; i++) pthread_join(threads[i], NULL);
}

/* ---- one oer_types is handed on */

struct place {
    oer_types types;
    atomic_int full;
    pthread_mutex_t lock;
    int turn;
};

static void *take(void *given) {
    struct place *place = given;
    while (!atomic_load_explicit(&place->full, memory_order_acquire)) sched_yield();
    return use(&place->types);
}

static void hand_over(void) {
    struct place place = { .types = OER_TYPES_NONE };
    pthread_t thread;
    if (pthread_create(&thread, NULL, take, &place)) exit(2);
    place.types = read_types();
    call(&place.types);
    atomic_store_explicit(&place.full, 1, memory_order_release);
    pthread_join(thread, NULL);
    expect(oer_check(&place.types, "A", 1, (const uint8_t *)"", 0).status == OER_NO_TYPES, "types that a thread freed");
}

static void *take_turns(void *given) {
    struct place *place = given;
    int i;
    for (i = 0; i < THREADS; i++) {
        pthread_mutex_lock(&place->lock);
        call(&place->types);
        if (++place->turn % 3 == 0) {
            oer_types_free(&place->types);
            place->types = read_types();
        }
        pthread_mutex_unlock(&place->lock);
    }
    return NULL;
}

static void lock(void) {
    struct place place = { .lock = PTHREAD_MUTEX_INITIALIZER };
    pthread_t threads[THREADS];
    int i;
    place.types = read_types();
    for (i = 0; i < THREADS; i++)
        if (pthread_create(&threads[i], NULL, take_turns, &place)) exit(2);
    for (i = 0; i < THREADS; i++) pthread_join(threads[i], NULL);
    call(&place.types);
    oer_types_free(&place.types);
}

int main(int count, char **words) {
    long rounds, i;
    if (count != 2 || (rounds = atol(words[1])) < 1) {
        puts("usage: threads ROUNDS");
        return 2;
    }
    for (i = 0; i < rounds; i++) {
        share();
        hand_over();
        lock();
    }
    return differs;
}

/* many_calls THREADS CALLS STACK {WORDS FILE}..: makes calls in threads, and counts what differs from the first answers.
 *
 * Each thread has STACK bytes of stack (0: as usual) and makes CALLS calls, of the words and texts in turn, and in turn
 * with room enough, one byte too little, and none. The last line tells how many calls were wrong, how many bytes more
 * are allocated after them than before, and how long they took. The status is 0 where none was wrong. */
#define _GNU_SOURCE
#include <malloc.h>
#include <product_mix.h>
#include <pthread.h>
#include <stdio.h>
#include <stdlib.h>
#include <string.h>
#include <time.h>

enum { MOST_THREADS = 64, MOST_CASES = 64, PAST = 16 };

struct a_case {
    const char *words;
    uint8_t *text, *reply;
    size_t length, needed;
    uint32_t status;
};

struct a_thread {
    pthread_t id;
    long wrong;
};

static struct a_case cases[MOST_CASES];
static size_t count;
static long calls;

static uint32_t call(const struct a_case *one, uint8_t *out, size_t room, size_t *needed) {
    return product_mix_run((const uint8_t *)one->words, strlen(one->words), one->text, one->length, out, room, needed);
}

/* Whether a call with so much room gives the first answer, and leaves all bytes alone but those of a reply that fits. */
static int is_right(const struct a_case *one, uint8_t *out, size_t room) {
    size_t needed = (size_t)-1, written;
    memset(out, '#', one->needed + PAST);
    if (call(one, room == 0 ? NULL : out, room, &needed) != one->status || needed != one->needed) {
        return 0;
    }
    written = needed <= room ? needed : 0;
    for (size_t at = written; at < one->needed + PAST; at++) {
        if (out[at] != '#') {
            return 0;
        }
    }
    return memcmp(out, one->reply, written) == 0;
}

static void *work(void *argument) {
    struct a_thread *self = argument;
    for (long k = 0; k < calls; k++) {
        const struct a_case *one = &cases[(size_t)k % count];
        size_t rooms[] = {one->needed, one->needed - 1, 0, one->needed + PAST};
        uint8_t *out = malloc(one->needed + PAST);
        if (out == NULL || !is_right(one, out, rooms[(size_t)k / count % 4])) {
            self->wrong++;
        }
        free(out);
    }
    return NULL;
}

/* Reads a text and learns its first answer, by a call without room and one with enough. */
static int learn(struct a_case *one, const char *words, const char *path) {
    FILE *file = fopen(path, "rb");
    if (file == NULL || fseek(file, 0, SEEK_END) != 0) {
        return 0;
    }
    one->words = words;
    one->length = (size_t)ftell(file);
    one->text = malloc(one->length + 1);
    rewind(file);
    if (one->text == NULL || fread(one->text, 1, one->length, file) != one->length) {
        return 0;
    }
    fclose(file);
    call(one, NULL, 0, &one->needed);
    one->reply = malloc(one->needed + 1);
    if (one->reply == NULL) {
        return 0;
    }
    one->status = call(one, one->reply, one->needed, &one->needed);
    return one->needed > 0;
}

static double seconds(void) {
    struct timespec now;
    clock_gettime(CLOCK_MONOTONIC, &now);
    return (double)now.tv_sec + 1e-9 * (double)now.tv_nsec;
}

/* Runs the threads once over, and gives how many calls were wrong. */
static long run(long threads, const pthread_attr_t *attributes) {
    static struct a_thread all[MOST_THREADS];
    long wrong = 0;
    for (long k = 0; k < threads; k++) {
        all[k].wrong = 0;
        if (pthread_create(&all[k].id, attributes, work, &all[k]) != 0) {
            exit(2);
        }
    }
    for (long k = 0; k < threads; k++) {
        pthread_join(all[k].id, NULL);
        wrong += all[k].wrong;
    }
    return wrong;
}

int main(int argc, char **argv) {
    pthread_attr_t attributes;
    long threads = argc > 5 ? atol(argv[1]) : 0, wanted, wrong;
    size_t before;
    double start;
    if (threads < 1 || threads > MOST_THREADS || argc % 2 != 0 || argc > 4 + 2 * MOST_CASES) {
        fputs("many_calls THREADS CALLS STACK {WORDS FILE}..\n", stderr);
        return 2;
    }
    pthread_attr_init(&attributes);
    if (atol(argv[3]) != 0 && pthread_attr_setstacksize(&attributes, (size_t)atol(argv[3])) != 0) {
        return 2;
    }
    for (int k = 4; k < argc; k += 2) {
        if (!learn(&cases[count++], argv[k], argv[k + 1])) {
            fprintf(stderr, "no answer for %s\n", argv[k + 1]);
            return 2;
        }
    }
    /* What the threads take once and keep is no growth. */
    wanted = atol(argv[2]);
    calls = 4 * (long)count;
    wrong = run(threads, &attributes);
    calls = wanted;
    before = mallinfo2().uordblks;
    start = seconds();
    wrong += run(threads, &attributes);
    printf("%ld threads, %ld calls each: %ld wrong, %ld bytes kept, %.3f seconds\n", threads, calls, wrong,
           (long)(mallinfo2().uordblks - before), seconds() - start);
    for (size_t k = 0; k < count; k++) {
        free(cases[k].text);
        free(cases[k].reply);
    }
    pthread_attr_destroy(&attributes);
    return wrong == 0 ? 0 : 1;
}

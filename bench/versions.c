/*
 * Times a call of the library beside the same call of another version of it, in one process and in turns, so that what else runs on the
 * machine hits both alike. The other version's symbols begin with `other_`. Built and run by bench/versions.py.
 *
 *     versions FUNCTION OUTPUT_LENGTH CALLS FILE...     FUNCTION without `citronhelm_`, a file for each input, in the parameters' order
 *
 * Prints both answers, and for both the best and the median of ROUNDS rounds of CALLS calls, in nanoseconds a call. With 0 calls each is
 * called once and not timed, for callgrind.
 */
#define _POSIX_C_SOURCE 199309L
#include "citronhelm.h"

#include <stdio.h>
#include <stdlib.h>
#include <string.h>
#include <time.h>

#define ROUNDS 401
#define MOST_BYTES 65537
#define WORDS 10

/* On x86-64 every parameter goes as a word, and a function does not look at those behind its own. */
typedef uint64_t function(
    uintptr_t, uintptr_t, uintptr_t, uintptr_t, uintptr_t, uintptr_t, uintptr_t, uintptr_t, uintptr_t, uintptr_t);

/* FUNCTIONS(EACH) is given by versions.py: EACH(name, inputs) for the functions that both versions have, with the number of inputs. */
#define DECLARED(name, inputs) uint64_t other_citronhelm_##name(void);
FUNCTIONS(DECLARED)

#define WORDWISE(name) (function *)(void (*)(void))name
#define LISTED(name, inputs) {#name, inputs, {WORDWISE(citronhelm_##name), WORDWISE(other_citronhelm_##name)}},
static const struct {
    const char *name;
    int inputs;
    function *versions[2];
} TABLE[] = {FUNCTIONS(LISTED)};

static uint8_t input[4][MOST_BYTES], output[MOST_BYTES];
static double times[2][ROUNDS];

static uint64_t called(function *f, const uintptr_t *w) { return f(w[0], w[1], w[2], w[3], w[4], w[5], w[6], w[7], w[8], w[9]); }

static double nanoseconds(void)
{
    struct timespec now;
    clock_gettime(CLOCK_MONOTONIC, &now);
    return 1e9 * (double)now.tv_sec + (double)now.tv_nsec;
}

static int by_size(const void *a, const void *b)
{
    double x = *(const double *)a, y = *(const double *)b;
    return (x > y) - (x < y);
}

/*
 * The words of a call: each file's bytes and length; of `normal` and `normal_length` that it is not the negated rule's; the output and its
 * length.
 */
static int read_words(uintptr_t *words, char **names, int inputs, int negatable, const char *length)
{
    for (int i = 0; i < inputs; i++) {
        FILE *file = fopen(names[i], "rb");
        if (file == NULL)
            return perror(names[i]), 0;
        *words++ = (uintptr_t)input[i];
        *words++ = fread(input[i], 1, MOST_BYTES, file);
        fclose(file);
    }
    if (negatable)
        *words++ = 0;
    *words++ = (uintptr_t)output;
    *words++ = strtoul(length, NULL, 10);
    return 1;
}

int main(int count, char **words)
{
    size_t which = 0, of = sizeof TABLE / sizeof TABLE[0];
    while (count > 3 && which < of && strcmp(words[1], TABLE[which].name) != 0)
        which++;
    if (count < 4 || which == of || count != 4 + TABLE[which].inputs) {
        fprintf(stderr, "usage: %s FUNCTION OUTPUT_LENGTH CALLS FILE...\n", words[0]);
        return 2;
    }
    uintptr_t passed[WORDS] = {0};
    if (!read_words(passed, words + 4, TABLE[which].inputs, strncmp(words[1], "normal", 6) == 0, words[2]))
        return 2;
    int calls = atoi(words[3]);
    for (int version = 0; version < 2; version++)
        printf("%llx\n", (unsigned long long)called(TABLE[which].versions[version], passed));
    for (int round = 0; calls > 0 && round < ROUNDS; round++)
        for (int turn = 0; turn < 2; turn++) {
            int version = turn ^ (round & 1); /* each is the first in every second round */
            called(TABLE[which].versions[version], passed); /* so that its code and data are in the caches */
            double start = nanoseconds();
            for (int i = 0; i < calls; i++)
                called(TABLE[which].versions[version], passed);
            times[version][round] = (nanoseconds() - start) / calls;
        }
    for (int version = 0; calls > 0 && version < 2; version++) {
        qsort(times[version], ROUNDS, sizeof times[version][0], by_size);
        printf("%.1f %.1f\n", times[version][0], times[version][ROUNDS / 2]);
    }
    return 0;
}

/*
 * Judges the rule and the take in the two files named on the command line, by the proved library.
 *
 *     (cd crates/citronhelm && rt lib)
 *     cc -std=c99 -Wall -Wextra -Werror -I include examples/c/judge.c crates/citronhelm/out/libcitronhelm.a -o judge_c
 *     ./judge_c examples/c/rule.txt examples/c/take.txt
 *
 * Prints the verdict, or the refusal's number, file and line.
 */
#include "citronhelm.h"

#include <stdio.h>

/* One byte more than a file may have: so many tell that it is too long, and no more are read. */
#define MOST_BYTES 65537

static const char *const VERDICTS[] = {"", "holds", "breaks", "kept", "broken", "open"};

/* Reads a file and returns the number of bytes. A file that cannot be opened counts as empty. */
static size_t read_file(const char *name, uint8_t *bytes)
{
    FILE *file = fopen(name, "rb");
    size_t length = 0;
    if (file != NULL) {
        length = fread(bytes, 1, MOST_BYTES, file);
        fclose(file);
    }
    return length;
}

int main(int count, char **words)
{
    static uint8_t rule[MOST_BYTES], take[MOST_BYTES];
    if (count != 3) {
        fprintf(stderr, "usage: %s RULE TAKE\n", words[0]);
        return 2;
    }
    size_t rule_length = read_file(words[1], rule);
    size_t take_length = read_file(words[2], take);
    uint64_t answer = citronhelm_judge(rule, rule_length, take, take_length);
    if (citronhelm_refused(answer)) {
        printf("refused=%u\nfile=%u\nline=%lu\n", citronhelm_reason(answer), citronhelm_file(answer),
               (unsigned long)citronhelm_line(answer));
    } else {
        printf("verdict=%s\n", VERDICTS[answer]);
    }
    return 0;
}

/*
 * Judges a take while it is recorded, by the rule in the file named on the command line. Each line of standard input is a cycle, a digit
 * for each signal, and is answered at once by a line: the verdict after it, or the refusal's number, and the run goes on.
 *
 *     (cd crates/citronhelm && rt lib)
 *     cc -std=c99 -Wall -Wextra -Werror -I include examples/c/watch.c crates/citronhelm/out/libcitronhelm.a -o watch_c
 *     ./watch_c examples/run/rule.txt <examples/run/cycles.txt
 *
 * A rule that is refused has no run: its number, file and line are printed.
 */
#include "citronhelm.h"

#include <stdio.h>

/* One byte more than a rule may have, and one digit more than a cycle may: so many tell that it is too long. */
#define MOST_BYTES 65537
#define MOST_DIGITS 33

static const char *const VERDICTS[] = {"", "holds", "breaks", "kept", "broken", "open"};

/* Reads a file and returns the number of bytes. A file that cannot be opened counts as empty. */
static size_t read_file(const char *name, uint8_t *bytes)
{
    FILE *file = fopen(name, "rb");
    size_t length = 0;
    if (file != NULL) {
        length = fread(bytes, 1, MOST_BYTES, file);
        fclose(file);
    }
    return length;
}

/*
 * Reads a line of standard input, without its line feed; 0 at the end. Of a line that is too long the first bytes are kept, and in the
 * last place one that is no digit, if there is one behind them: so the line is refused for what is wrong with it as a whole.
 */
static int read_line(uint8_t *digits, size_t *length)
{
    int byte = getchar();
    if (byte == EOF)
        return 0;
    for (*length = 0; byte != '\n' && byte != EOF; byte = getchar()) {
        if (*length < MOST_DIGITS)
            digits[(*length)++] = (uint8_t)byte;
        else if (byte != '0' && byte != '1')
            digits[MOST_DIGITS - 1] = (uint8_t)byte;
    }
    return 1;
}

int main(int count, char **words)
{
    static uint8_t rule[MOST_BYTES], run[CITRONHELM_RUN];
    uint8_t digits[MOST_DIGITS];
    size_t length;
    if (count != 2) {
        fprintf(stderr, "usage: %s RULE\n", words[0]);
        return 2;
    }
    uint64_t answer = citronhelm_run_begin(rule, read_file(words[1], rule), run, sizeof run);
    if (citronhelm_refused(answer)) {
        printf("refused=%u\nfile=%u\nline=%lu\n", citronhelm_reason(answer), citronhelm_file(answer),
               (unsigned long)citronhelm_line(answer));
        return 0;
    }
    while (read_line(digits, &length)) {
        answer = citronhelm_run_cycle(run, sizeof run, digits, length);
        if (!citronhelm_refused(answer))
            answer = citronhelm_run_verdict(run, sizeof run);
        if (citronhelm_refused(answer))
            printf("refused=%u\n", citronhelm_reason(answer));
        else
            printf("%s\n", VERDICTS[answer]);
        fflush(stdout);
    }
    return 0;
}

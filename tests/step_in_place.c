/*
 * Holds citronhelm_step_in_place to citronhelm_step with a copy of the pendings: answers and all digits, over runs of calls, a part of
 * them refused. Also citronhelm_step with `pendings` in its own output, of which the header says what it does today. Run by
 * rust/check.sh.
 */
#include "citronhelm.h"

#include <stdio.h>
#include <stdlib.h>
#include <string.h>

/* More rows than any rule has, to try those too. */
#define MOST_ROWS 200

#define EVERY_OPERATOR \
    "format=1\nsignals=3\nrows=16\nr1=sig 1\nr2=nsig 2\nr3=sig 3\nr4=and 1 2\nr5=or 2 3\nr6=next 4\nr7=always 5\nr8=ever 3\n" \
    "r9=weak 4 8\nr10=until 5 6\nr11=release 1 7\nr12=srelease 9 10\nr13=not 12\nr14=or 11 13\nr15=and 12 14\nr16=always 15\n"

static const char *const RULES[] = {
    EVERY_OPERATOR,
    "format=1\nsignals=2\nrows=6\nr1=sig 1\nr2=not 1\nr3=sig 2\nr4=ever 3\nr5=or 2 4\nr6=always 5\n",
    "format=1\nsignals=1\nrows=1\nr1=true\n",
    /* refused with 5 in line 5 */
    "format=1\nsignals=1\nrows=2\nr1=sig 1\nr2=always 2\n",
};

static uint64_t random_state = 1;

static unsigned random_below(unsigned end)
{
    random_state = random_state * 6364136223846793005u + 1442695040888963407u;
    return (unsigned)(random_state >> 33) % end;
}

/* Random digits; now and then one byte that is none. */
static void fill(uint8_t *digits, size_t length)
{
    for (size_t k = 0; k < length; k++)
        digits[k] = (uint8_t)('0' + random_below(2));
    if (length > 0 && random_below(40) == 0)
        digits[random_below((unsigned)length)] = '2';
}

/* Mostly the number given, else one nearby. */
static size_t about(size_t number) { return random_below(20) > 0 ? number : number + random_below(3) - (number > 0); }

int main(void)
{
    unsigned long answered = 0, refused[11] = {0};
    for (size_t which = 0; which < sizeof RULES / sizeof RULES[0]; which++) {
        const uint8_t *rule = (const uint8_t *)RULES[which];
        size_t rule_length = strlen(RULES[which]);
        uint64_t counted = citronhelm_rows(rule, rule_length);
        for (int run = 0; run < 400; run++) {
            size_t rows = run % 40 == 39 ? 120 + random_below(MOST_ROWS - 120) : about(citronhelm_refused(counted) ? 1 : counted);
            uint8_t kept[3 * MOST_ROWS], over[3 * MOST_ROWS], copied[3 * MOST_ROWS];
            memset(kept, '0', sizeof kept);
            if (run % 5 == 4)
                fill(kept, 3 * rows);
            memcpy(over, kept, sizeof kept);
            memcpy(copied, kept, sizeof kept);
            for (int call = 0; call < 50; call++) {
                uint8_t activators[MOST_ROWS + 2], signals[8], pendings[MOST_ROWS];
                size_t activators_length = about(rows), signals_length = about((size_t)(rule[17] - '0'));
                fill(activators, activators_length);
                fill(signals, signals_length);
                memcpy(pendings, copied + 2 * rows, rows);
                uint64_t expected = citronhelm_step(
                    rule, rule_length, pendings, rows, activators, activators_length, signals, signals_length, copied, 3 * rows);
                uint64_t in_place = citronhelm_step_in_place(
                    rule, rule_length, activators, activators_length, signals, signals_length, kept, rows);
                uint64_t lying_over = citronhelm_step(
                    rule, rule_length, over + 2 * rows, rows, activators, activators_length, signals, signals_length, over, 3 * rows);
                if (in_place != expected || memcmp(kept, copied, sizeof kept) != 0) {
                    fprintf(stderr, "rule %zu, run %d, call %d: citronhelm_step_in_place differs\n", which, run, call);
                    return 1;
                }
                if (lying_over != expected || memcmp(over, copied, sizeof over) != 0) {
                    fprintf(stderr, "rule %zu, run %d, call %d: pendings in the output give something else than a copy\n", which, run, call);
                    return 1;
                }
                if (citronhelm_refused(expected))
                    refused[citronhelm_reason(expected)]++;
                else
                    answered++;
            }
        }
    }
    printf("%lu answered; refused with 2: %lu, 5: %lu, 7: %lu, 9: %lu\n", answered, refused[2], refused[5], refused[7], refused[9]);
    return answered == 0 || refused[2] == 0 || refused[5] == 0 || refused[7] == 0 || refused[9] == 0;
}

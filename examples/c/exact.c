/*
 * Writes into exactly as many bytes as are needed, by the proved library: the normal form of the rule in the file named on the command
 * line, or, where a take is named behind it, the sheet of the two. The length is asked for first, and so much memory is lent.
 *
 *     (cd crates/citronhelm && rt lib)
 *     cc -std=c99 -Wall -Wextra -Werror -I include examples/c/exact.c crates/citronhelm/out/libcitronhelm.a -o exact_c
 *     ./exact_c examples/rule_a/rule.txt
 *     ./exact_c examples/rule_a/rule.txt examples/rule_a/take.txt
 *
 * Prints the file, `none` where there is no sheet, or the refusal's number, file and line.
 */
#include "citronhelm.h"

#include <stdio.h>
#include <stdlib.h>

/* One byte more than a file may have: so many tell that it is too long, and no more are read. */
#define MOST_BYTES 65537

/* Reads a file and returns the number of bytes. A file that cannot be opened counts as empty. */
static size_t read_file(const char *name, uint8_t *bytes)
{
    FILE *file = fopen(name, "rb");
    size_t length = 0;
    if (file != NULL) {
        length = fread(bytes, 1, MOST_BYTES, file);
        fclose(file);
    }
    return length;
}

int main(int count, char **words)
{
    static uint8_t rule[MOST_BYTES], take[MOST_BYTES];
    if (count != 2 && count != 3) {
        fprintf(stderr, "usage: %s RULE [TAKE]\n", words[0]);
        return 2;
    }
    int has_take = count == 3;
    size_t rule_length = read_file(words[1], rule);
    size_t take_length = has_take ? read_file(words[2], take) : 0;
    uint64_t length = has_take ? citronhelm_sheet_length(rule, rule_length, take, take_length)
                               : citronhelm_normal_length(rule, rule_length, 0);
    if (citronhelm_refused(length)) {
        printf("refused=%u\nfile=%u\nline=%lu\n", citronhelm_reason(length), citronhelm_file(length),
               (unsigned long)citronhelm_line(length));
        return 0;
    }
    if (length == 0) { /* of sheets only: no normal form is empty */
        printf("none\n");
        return 0;
    }
    uint8_t *output = malloc(length);
    if (output == NULL) {
        fprintf(stderr, "no memory\n");
        return 2;
    }
    /* Neither is refused now, and both answer the length again. */
    if (has_take)
        citronhelm_make_sheet(rule, rule_length, take, take_length, output, length);
    else
        citronhelm_normal(rule, rule_length, 0, output, length);
    fwrite(output, 1, length, stdout);
    free(output);
    return 0;
}

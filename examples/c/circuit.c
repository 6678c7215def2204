/*
 * Writes the monitors of the rule in the file named on the command line as a circuit, an ASCII AIGER file, to standard output, by the
 * proved library.
 *
 *     (cd crates/citronhelm && rt lib)
 *     cc -std=c99 -Wall -Wextra -Werror -I include examples/c/circuit.c crates/citronhelm/out/libcitronhelm.a -o circuit_c
 *     ./circuit_c examples/rule_a/rule.txt >rule_a.aag
 *
 * Prints the refusal's number, file and line where the rule is refused.
 */
#include "citronhelm.h"

#include <stdio.h>

/* One byte more than a file may have: so many tell that it is too long, and no more are read. */
#define MOST_BYTES 65537

/* Reads a file and returns the number of bytes. A file that cannot be opened counts as empty. */
static size_t read_file(const char *name, uint8_t *bytes)
{
    FILE *file = fopen(name, "rb");
    size_t length = 0;
    if (file != NULL) {
        length = fread(bytes, 1, MOST_BYTES, file);
        fclose(file);
    }
    return length;
}

int main(int count, char **words)
{
    static uint8_t rule[MOST_BYTES], circuit[CITRONHELM_MOST_CIRCUIT];
    if (count != 2) {
        fprintf(stderr, "usage: %s RULE\n", words[0]);
        return 2;
    }
    uint64_t answer = citronhelm_circuit(rule, read_file(words[1], rule), circuit, sizeof circuit);
    if (citronhelm_refused(answer))
        printf("refused=%u\nfile=%u\nline=%lu\n", citronhelm_reason(answer), citronhelm_file(answer),
               (unsigned long)citronhelm_line(answer));
    else
        fwrite(circuit, 1, answer, stdout);
    return 0;
}

/*
 * Says how much stack a call of the library takes: makes it on a stack filled with a pattern and looks for the lowest byte that no
 * longer has it. For x86-64; built and run by bench/stack.py.
 *
 *     stack FUNCTION OUTPUT_LENGTH FILE...     FUNCTION without `citronhelm_`, a file for each input, in the parameters' order; a run
 *                                              that is altered counts as an input
 *
 * Prints the answer and the bytes below the call, return address included.
 */
#include "citronhelm.h"

#include <stdio.h>
#include <stdlib.h>
#include <string.h>

#define STACK_BYTES (1u << 20)
#define MOST_BYTES 65537

/* Calls a function with the six words given, on the stack that ends at `top`; further words lie at `top`. */
uint64_t call_on(uint8_t *top, void (*function)(void), const uintptr_t *words);
__asm__(".text\n"
        "call_on:\n"
        "    push %rbx\n"
        "    mov %rsp, %rbx\n"
        "    mov %rdi, %rsp\n"
        "    mov %rsi, %rax\n"
        "    mov %rdx, %r10\n"
        "    mov (%r10), %rdi\n"
        "    mov 8(%r10), %rsi\n"
        "    mov 16(%r10), %rdx\n"
        "    mov 24(%r10), %rcx\n"
        "    mov 32(%r10), %r8\n"
        "    mov 40(%r10), %r9\n"
        "    call *%rax\n"
        "    mov %rbx, %rsp\n"
        "    pop %rbx\n"
        "    ret\n");

/* The functions, with the number of their inputs and whether they have an output. */
#define FUNCTION(name, inputs, writes) {#name, (void (*)(void))citronhelm_##name, inputs, writes}
static const struct {
    const char *name;
    void (*function)(void);
    int inputs, writes;
} FUNCTIONS[] = {
    FUNCTION(read_rule, 1, 0),    FUNCTION(read_take, 1, 0),    FUNCTION(read_sheet, 1, 0),    FUNCTION(bound, 1, 0),
    FUNCTION(rows, 1, 0),         FUNCTION(normal, 1, 1),       FUNCTION(normal_length, 1, 0), FUNCTION(judge, 2, 0),
    FUNCTION(judge_looped, 2, 0), FUNCTION(judge_open, 2, 0),   FUNCTION(judge_text, 2, 1),    FUNCTION(step, 4, 1),
    FUNCTION(make_sheet, 2, 1),   FUNCTION(sheet_length, 2, 0), FUNCTION(check_sheet, 3, 0),   FUNCTION(run_begin, 1, 1),
    FUNCTION(run_cycle, 2, 0),    FUNCTION(run_verdict, 1, 0),  FUNCTION(circuit, 1, 1),       FUNCTION(simulate, 3, 1),
};

static uint8_t stack[STACK_BYTES] __attribute__((aligned(4096)));
static uint8_t input[4][MOST_BYTES], output[MOST_BYTES];

/* A byte for each place of the stack, another one in each of two rounds, so that nothing can be written that looks untouched in both. */
static uint8_t pattern(size_t place, int round) { return (uint8_t)((place * 151 >> 3) + 77 + 101 * round); }

int main(int count, char **words)
{
    size_t which = 0, of = sizeof FUNCTIONS / sizeof FUNCTIONS[0];
    while (count > 2 && which < of && strcmp(words[1], FUNCTIONS[which].name) != 0)
        which++;
    if (count < 3 || which == of || count != 3 + FUNCTIONS[which].inputs) {
        fprintf(stderr, "usage: %s FUNCTION OUTPUT_LENGTH FILE...\n", words[0]);
        return 2;
    }
    size_t end = STACK_BYTES - 4096, lowest = end;
    uint64_t answer = 0;
    for (int round = 0; round < 2; round++) {
        uintptr_t passed[10] = {0};
        int next = 0;
        for (int i = 0; i < FUNCTIONS[which].inputs; i++) {
            FILE *file = fopen(words[3 + i], "rb");
            if (file == NULL)
                return perror(words[3 + i]), 2;
            passed[next++] = (uintptr_t)input[i];
            passed[next++] = fread(input[i], 1, MOST_BYTES, file);
            fclose(file);
        }
        if (strncmp(words[1], "normal", 6) == 0)
            passed[next++] = 0; /* not the negated rule's */
        if (FUNCTIONS[which].writes) {
            passed[next++] = (uintptr_t)output;
            passed[next++] = strtoul(words[2], NULL, 10);
        }
        for (size_t place = 0; place < STACK_BYTES; place++)
            stack[place] = pattern(place, round);
        memcpy(stack + end, passed + 6, 4 * sizeof passed[0]);
        answer = call_on(stack + end, FUNCTIONS[which].function, passed);
        size_t place = 0;
        while (stack[place] == pattern(place, round))
            place++;
        if (place < lowest)
            lowest = place;
    }
    printf("%llx %lu\n", (unsigned long long)answer, (unsigned long)(end - lowest));
    return 0;
}

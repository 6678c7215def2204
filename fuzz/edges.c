/*
 * Runs the files given on the target that the program is named after, without libFuzzer, and prints a line for each: its name, and the
 * numbers of the edges that it reached. run.sh links the library first, so that its edges have the lowest numbers.
 */
#include <stddef.h>
#include <stdint.h>
#include <stdio.h>
#include <stdlib.h>
#include <string.h>

int LLVMFuzzerTestOneInput(const uint8_t *data, size_t size);

static uint8_t *counters;
static size_t count;

/* Called at the start, once for each module, with the counters of all. */
void __sanitizer_cov_8bit_counters_init(uint8_t *start, uint8_t *stop) {
    counters = start;
    count = (size_t)(stop - start);
}

void __sanitizer_cov_pcs_init(const uintptr_t *start, const uintptr_t *stop) { (void)start, (void)stop; }

size_t LLVMFuzzerMutate(uint8_t *data, size_t size, size_t most) { return (void)data, (void)most, size; }

static void run(const char *name) {
    static uint8_t input[1 << 17];
    FILE *file = fopen(name, "rb");
    if (!file) {
        perror(name);
        exit(1);
    }
    size_t size = fread(input, 1, sizeof input, file);
    fclose(file);
    memset(counters, 0, count);
    LLVMFuzzerTestOneInput(input, size);
    printf("%s", name);
    for (size_t i = 0; i < count; i++)
        if (counters[i]) printf(" %zu", i);
    printf("\n");
}

int main(int words, char **word) {
    for (int i = 1; i < words; i++) run(word[i]);
    return 0;
}

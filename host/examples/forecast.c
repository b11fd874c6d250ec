/* Prints what a job will need, from its bytes alone: document 01's whole case. */
#include <stdio.h>
#include "kuspigo.h"

/* two threads that each add 1 to register 0 */
static const uint8_t job[] = {0x57, 0x53, 0x4A, 0, 1, 0, 13, 2,
                              4, 3, 8, 0, 6, 7, 0, 5, 0, 0, 0, 1,
                              4, 3, 8, 0, 6, 7, 0, 5, 0, 0, 0, 1};

static void print_registers(const char *word, uint64_t set) {
    printf("%s names", word);
    for (int i = 0; i < KUSPIGO_REGISTERS; i++) {
        if (set >> i & 1) printf(" %d", i);
    }
    printf("\n");
}

int main(void) {
    kuspigo_forecast_reply told = kuspigo_forecast(job, sizeof job);
    if (told.refusal != 0) {
        printf("refused %zu (%s) at %zu: %s\n", told.refusal, kuspigo_refusal_word(told.refusal), told.place,
               kuspigo_refusal_sentence(told.refusal));
        return 1;
    }
    printf("%zu bytes of code, %zu transactions, %zu threads\n", told.length, told.transactions, told.threads);
    printf("%zu instructions, %zu in the longest transaction, at most %zu steps\n", told.instructions, told.longest,
           told.bound);
    print_registers("READ", told.reads);
    print_registers("WRITE", told.writes);
    printf("heights");
    for (size_t i = 0; i < told.threads; i++) printf(" %d", told.heights[i]);
    printf("\n");
    return 0;
}

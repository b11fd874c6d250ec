/* Prints the names, numbers and texts of include/kuspigo.h; tests/c/header.rs holds them against the wrapper's. */
#include <stdio.h>
#include "kuspigo.h"

#define NUMBER(name) printf(#name " %d\n", (int)name)
#define NAMED(name, number, word, sentence) NUMBER(name);

int main(void) {
    int number, last = 0;
    printf("KUSPIGO_API %d and kuspigo_api() %d\n", KUSPIGO_API, (int)kuspigo_api());
    NUMBER(KUSPIGO_REGISTERS);
    NUMBER(KUSPIGO_THREADS);
    NUMBER(KUSPIGO_LONGEST_CODE);
    NUMBER(KUSPIGO_LONGEST_JOB);
    NUMBER(KUSPIGO_LONGEST_LISTING);
    NUMBER(KUSPIGO_LONGEST_TEXT);
    NUMBER(KUSPIGO_MOST_PICKS);
    KUSPIGO_REFUSALS(NAMED)
#define LAST(name, number, word, sentence) last = name;
    KUSPIGO_REFUSALS(LAST)
    for (number = 0; number <= last + 1; number++) {
        printf("%d: %s: %s\n", number, kuspigo_refusal_word((size_t)number), kuspigo_refusal_sentence((size_t)number));
    }
    return 0;
}

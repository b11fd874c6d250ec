/* Prints the job of a formula in hex: of the first argument, or of standard input. On a refusal it says which one; where
 * the text is not a script it shows the line with a caret under the place, and ends with 1. */
#include <stdio.h>
#include <string.h>
#include "kuspigo.h"

/* one byte more than a script may have tells that it is too long */
static uint8_t text[KUSPIGO_LONGEST_TEXT + 1];
static uint8_t job[KUSPIGO_LONGEST_JOB];

/* The line that a place is in, and a caret below it. What stands before the place begins a script, so it has no tab; of the
 * rest, bytes that a terminal obeys are printed as `?`. */
static void print_place(const uint8_t *bytes, size_t count, size_t place) {
    size_t start = place, end = place, at;
    while (start > 0 && bytes[start - 1] != '\n') start--;
    while (end < count && bytes[end] != '\n') end++;
    for (at = start; at < end; at++) putchar(bytes[at] == '\r' ? ' ' : bytes[at] < ' ' ? '?' : bytes[at]);
    putchar('\n');
    printf("%*s^\n", (int)(place - start), "");
}

int main(int argc, char **argv) {
    const uint8_t *bytes = text;
    size_t count;
    if (argc > 1) {
        bytes = (const uint8_t *)argv[1];
        count = strlen(argv[1]);
    } else {
        count = fread(text, 1, sizeof text, stdin);
    }
    kuspigo_written read = kuspigo_formula(bytes, count, job, sizeof job);
    if (read.refusal != 0) {
        printf("refused %zu (%s) at %zu: %s\n", read.refusal, kuspigo_refusal_word(read.refusal), read.place,
               kuspigo_refusal_sentence(read.refusal));
        if (read.refusal == KUSPIGO_REFUSED_NOT_A_SCRIPT) {
            if (count > KUSPIGO_LONGEST_TEXT) printf("There are more than %d bytes.\n", KUSPIGO_LONGEST_TEXT);
            else print_place(bytes, count, read.place);
        }
        return 1;
    }
    for (size_t i = 0; i < read.length; i++) printf("%02X%c", job[i], i + 1 < read.length ? ' ' : '\n');
    return 0;
}

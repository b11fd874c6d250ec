/* Compiles a job, runs it by picks and prints what the threads and registers hold: document 01's whole case. */
#include <inttypes.h>
#include <stdio.h>
#include "kuspigo.h"

/* two threads that each add 1 to register 0 */
static const uint8_t job[] = {0x57, 0x53, 0x4A, 0, 1, 0, 13, 2,
                              4, 3, 8, 0, 6, 7, 0, 5, 0, 0, 0, 1,
                              4, 3, 8, 0, 6, 7, 0, 5, 0, 0, 0, 1};
static const uint8_t picks[] = {0, 0, 0, 1, 1, 2, 2, 2, 2, 2, 2, 1, 1, 1, 1, 1, 1, 1, 1, 1, 1};

static uint8_t code[KUSPIGO_LONGEST_CODE];
static int32_t registers[KUSPIGO_REGISTERS];
static uint32_t counts[KUSPIGO_REGISTERS];
static kuspigo_thread threads[KUSPIGO_THREADS];

static int refused(size_t number, size_t place) {
    if (number != 0) {
        printf("refused %zu (%s) at %zu: %s\n", number, kuspigo_refusal_word(number), place, kuspigo_refusal_sentence(number));
    }
    return number != 0;
}

int main(void) {
    kuspigo_written compiled = kuspigo_compile(job, sizeof job, code, sizeof code);
    if (refused(compiled.refusal, compiled.place)) return 1;
    kuspigo_fresh_reply laid = kuspigo_fresh(code, compiled.length, registers, KUSPIGO_REGISTERS,
                                             counts, KUSPIGO_REGISTERS, threads, KUSPIGO_THREADS);
    if (refused(laid.refusal, laid.place)) return 1;
    kuspigo_run_reply ran = kuspigo_run(code, compiled.length, registers, KUSPIGO_REGISTERS, counts, KUSPIGO_REGISTERS,
                                        threads, KUSPIGO_THREADS, picks, sizeof picks);
    if (refused(ran.refusal, ran.place)) return 1;
    printf("steps %zu idle %zu commits %zu back %zu over %zu\n", ran.steps, ran.idle, ran.commits, ran.back, ran.over);
    for (size_t i = 0; i < KUSPIGO_THREADS && threads[i].start != 0; i++) {
        if (threads[i].place == threads[i].end) printf("thread %zu done %" PRId32 "\n", i, threads[i].cells[0]);
        else printf("thread %zu open\n", i);
    }
    for (size_t i = 0; i < KUSPIGO_REGISTERS; i++) {
        if (registers[i] != 0) printf("register %zu %" PRId32 "\n", i, registers[i]);
    }
    return 0;
}

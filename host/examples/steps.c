/* Steps through a run and prints the rule of each pick, then each thread's last rule and how often it was sent back:
 * document 01's whole case, and an idle pick behind it. */
#include <stdio.h>
#include "kuspigo.h"

/* two threads that each add 1 to register 0 */
static const uint8_t job[] = {0x57, 0x53, 0x4A, 0, 1, 0, 13, 2,
                              4, 3, 8, 0, 6, 7, 0, 5, 0, 0, 0, 1,
                              4, 3, 8, 0, 6, 7, 0, 5, 0, 0, 0, 1};
static const uint8_t picks[] = {0, 0, 0, 1, 1, 2, 2, 2, 2, 2, 2, 1, 1, 1, 1, 1, 1, 1, 1, 1, 1, 0};

static uint8_t code[KUSPIGO_LONGEST_CODE];
static int32_t registers[KUSPIGO_REGISTERS];
static uint32_t counts[KUSPIGO_REGISTERS];
static kuspigo_thread threads[KUSPIGO_THREADS];

static const char *const names[] = {"none", "push", "sum", "fork", "begin", "read from write log",
                                    "read from read log", "read from table", "write", "commit"};

/* A thread's last rule by its number. */
static void print_rule(size_t rule) {
    if (rule < KUSPIGO_SENT_BACK) printf("%s", names[rule]);
    else if (rule < KUSPIGO_SENT_BACK + KUSPIGO_REGISTERS) printf("sent back with register %zu", rule - KUSPIGO_SENT_BACK);
    else printf("no rule has the number %zu", rule);
}

static int refused(size_t number, size_t place) {
    if (number != 0) {
        printf("refused %zu (%s) at %zu: %s\n", number, kuspigo_refusal_word(number), place, kuspigo_refusal_sentence(number));
    }
    return number != 0;
}

int main(void) {
    kuspigo_written compiled = kuspigo_compile(job, sizeof job, code, sizeof code);
    if (refused(compiled.refusal, compiled.place)) return 1;
    kuspigo_fresh_reply laid = kuspigo_fresh(code, compiled.length, registers, KUSPIGO_REGISTERS,
                                             counts, KUSPIGO_REGISTERS, threads, KUSPIGO_THREADS);
    if (refused(laid.refusal, laid.place)) return 1;
    for (size_t i = 0; i < sizeof picks; i++) {
        kuspigo_step_reply did = kuspigo_step(code, compiled.length, registers, KUSPIGO_REGISTERS,
                                              counts, KUSPIGO_REGISTERS, threads, KUSPIGO_THREADS, picks[i]);
        if (refused(did.refusal, did.place)) return 1;
        printf("thread %d: ", picks[i]);
        if (did.event == KUSPIGO_IDLE) printf("idle");
        else print_rule(did.event + did.stale_register);
        printf("\n");
    }
    for (size_t i = 0; i < KUSPIGO_THREADS && threads[i].start != 0; i++) {
        printf("thread %zu last did ", i);
        print_rule(threads[i].rule);
        printf(", send-backs %zu\n", threads[i].backs);
    }
    return 0;
}

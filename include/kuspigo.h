/* Kuspigo: jobs, stack code and the machine that runs it. C99, C11, C++11.
 *
 * The functions are in the archive libkuspigo.a, for x86-64: `bash host/archive` makes it in target/staticlib, and
 * `bash host/install --prefix DIR` installs it with this header. They need nothing else but memcpy and memset.
 *
 * Memory is lent as a pointer and a count of elements. A pointer is never null, also with the count 0; what is lent for
 * writing overlaps nothing else that is lent to the call. Nothing is kept after a call.
 *
 * Every answer begins with `refusal`, 0 if the call was taken, else an enum kuspigo_refusal, and `place`. A refused call
 * alters nothing.
 */
#ifndef KUSPIGO_H
#define KUSPIGO_H

#include <stddef.h>
#include <stdint.h>

#ifdef __cplusplus
extern "C" {
#endif

/* The version of this interface. A change of a record, an answer or a function that a program built before does not know
 * of gives it another number. */
#define KUSPIGO_API 3

/* The library's own version. The function's name holds the number, kuspigo_api_ with KUSPIGO_API behind it, and every
 * file that includes this header refers to it: with the archive of another version the program does not link. (A
 * compiler that is neither gcc nor clang may leave the reference out.) */
#define KUSPIGO_JOINED_(a, b) a##b
#define KUSPIGO_JOINED(a, b) KUSPIGO_JOINED_(a, b)
#define kuspigo_api KUSPIGO_JOINED(kuspigo_api_, KUSPIGO_API)
size_t kuspigo_api(void);
#ifdef __has_attribute
#if defined(__ELF__) && __has_attribute(retain)
#define KUSPIGO_KEPT __attribute__((used, retain))
#endif
#endif
#if !defined(KUSPIGO_KEPT) && defined(__GNUC__)
#define KUSPIGO_KEPT __attribute__((used))
#endif
#ifndef KUSPIGO_KEPT
#define KUSPIGO_KEPT
#endif
KUSPIGO_KEPT static size_t (*const kuspigo_linked)(void) = kuspigo_api;

/* Every refusal: its name, its number, the trade's word and a sentence. The place is a byte offset in the job for 1 to 9
 * and 14, in the text for 15, else 0. */
#define KUSPIGO_REFUSALS(ROW)                                                                               \
    ROW(KUSPIGO_REFUSED_CUT, 1, "cut", "The bytes end too early.")                                          \
    ROW(KUSPIGO_REFUSED_MARK, 2, "mark", "The job does not begin with its mark.")                           \
    ROW(KUSPIGO_REFUSED_VERSION, 3, "version", "The job's version is not 1.")                               \
    ROW(KUSPIGO_REFUSED_COUNT, 4, "count", "The node count is 0 or above 1,000.")                           \
    ROW(KUSPIGO_REFUSED_KIND, 5, "kind", "The node's kind is unknown or not permitted there.")              \
    ROW(KUSPIGO_REFUSED_REGISTER, 6, "register", "The register's number is 64 or more.")                    \
    ROW(KUSPIGO_REFUSED_DEPTH, 7, "depth", "The node is at depth 65.")                                      \
    ROW(KUSPIGO_REFUSED_FORKS, 8, "forks", "This is the sixteenth FORK.")                                   \
    ROW(KUSPIGO_REFUSED_LENGTH, 9, "length", "The nodes or the bytes do not match the count.")              \
    ROW(KUSPIGO_REFUSED_SHORT_TRAY, 10, "short tray", "The output is shorter than the result.")             \
    ROW(KUSPIGO_REFUSED_FOREIGN_CODE, 11, "foreign code", "No accepted job compiles to this code.")         \
    ROW(KUSPIGO_REFUSED_FOREIGN_STATE, 12, "foreign state", "The state does not fit the code.")             \
    ROW(KUSPIGO_REFUSED_LONG_LIST, 13, "long list", "There are more than 32,768 picks.")                    \
    ROW(KUSPIGO_REFUSED_LONG_TRANSACTION, 14, "long transaction", "The transaction has more than 200 nodes.") \
    ROW(KUSPIGO_REFUSED_NOT_A_SCRIPT, 15, "not a script", "No script goes on so from here.")

#define KUSPIGO_NAMED_(name, number, word, sentence) , name = number
enum kuspigo_refusal { KUSPIGO_TAKEN = 0 KUSPIGO_REFUSALS(KUSPIGO_NAMED_) };
#undef KUSPIGO_NAMED_

/* The trade's word for a refusal's number; "taken" for 0, "unknown" for a number that no refusal has. */
#define KUSPIGO_WORD_(name, number, word, sentence) case number: return word;
static inline const char *kuspigo_refusal_word(size_t refusal) {
    switch (refusal) {
        case 0: return "taken";
        KUSPIGO_REFUSALS(KUSPIGO_WORD_)
        default: return "unknown";
    }
}
#undef KUSPIGO_WORD_

/* A sentence for it. */
#define KUSPIGO_SENTENCE_(name, number, word, sentence) case number: return sentence;
static inline const char *kuspigo_refusal_sentence(size_t refusal) {
    switch (refusal) {
        case 0: return "The call was taken.";
        KUSPIGO_REFUSALS(KUSPIGO_SENTENCE_)
        default: return "No refusal has this number.";
    }
}
#undef KUSPIGO_SENTENCE_

/* A state is 64 registers, a count for each of them, and 16 thread records.
 *
 * A register's count is how often commits have written it: a commit that takes effect adds 1 for each register of its
 * write log, once and whatever the value. A register that enters a thread's read log enters with its count. From then on it
 * is stale for that thread if the two counts differ, also if its value is the same; the values decide nothing.
 *
 * Of these counts, a state does not fit its code (refusal 12)
 * - if a register's count is above the COMMITs that all threads together have passed,
 * - if a count in a read log is above the register's,
 * - if a count in a read log is not 0 and its register is not marked there,
 * - if a thread that has a stale register in its read log was sent back as often as COMMITs were passed,
 * - or if there are other than 64 counts, also where a fresh state is to be laid down.
 * Any other counts fit. */
#define KUSPIGO_REGISTERS 64
#define KUSPIGO_THREADS 16
/* No code of an accepted job is longer than this, no accepted job, and no listing. */
#define KUSPIGO_LONGEST_CODE 3007
#define KUSPIGO_LONGEST_JOB 3007
#define KUSPIGO_LONGEST_LISTING 4449
/* No text of a script is longer. */
#define KUSPIGO_LONGEST_TEXT 32768
/* A call takes no more picks. */
#define KUSPIGO_MOST_PICKS 32768

/* Bytes of stack that a call takes at most, as measured on x86-64, with the return address and the arguments that lie
 * there. A formula takes most with 64 open, compiling and the report at depth 64; for one node compiling takes 344. */
#define KUSPIGO_STACK_FORMULA 11472
#define KUSPIGO_STACK_FORECAST 536
#define KUSPIGO_STACK_COMPILE 3168
#define KUSPIGO_STACK_READ_BACK 856
#define KUSPIGO_STACK_REPORT 91592
#define KUSPIGO_STACK_FRESH 472
#define KUSPIGO_STACK_STEP 4344
#define KUSPIGO_STACK_RUN 4360

/* A thread's record. Places count from the code's first byte, so 0 is no place. A record of no thread is 0 throughout. */
typedef struct kuspigo_thread {
    size_t start;            /* its own code: from start, which is 0 if there is no such thread, */
    size_t end;              /* up to end, less the child code of the FORKs in it */
    size_t place;            /* the next instruction; at end the thread has ended, and cells[0] is its result */
    size_t height;           /* so many cells of the stack are in use */
    int32_t cells[64];
    size_t begin;            /* the open transaction's notes, 0 if none is open: its BEGIN's place, */
    size_t base;             /* the stack height there, */
    size_t over;             /* and how many sums of this attempt left the 32-bit range */
    uint64_t reads;          /* the registers that the read log marks, bit 0 being register 0, */
    int32_t readlog[64];     /* their values, */
    uint32_t readcounts[64]; /* and their counts, as the table had them when they entered the log; 0 if not marked */
    uint64_t writes;         /* the registers that the write log marks, */
    int32_t writelog[64];    /* and their values */
    size_t rule;             /* the last rule that moved the thread, 0 if none has; idle picks leave it: 1 to 9 an enum
                                kuspigo_event, KUSPIGO_SENT_BACK + v if it was sent back with the lowest stale register
                                v. Any number fits in a thread's record */
    size_t backs;            /* how often it was sent back: at most as often as all threads together have passed COMMITs,
                                and less often while a register of its read log is stale; else the state does not fit */
} kuspigo_thread;

typedef struct kuspigo_written {
    size_t refusal;
    size_t place;
    size_t length; /* so many bytes of the output are written; 0 on a refusal */
} kuspigo_written;

typedef struct kuspigo_fresh_reply {
    size_t refusal;
    size_t place;
} kuspigo_fresh_reply;

/* What a pick did: the rule that it used. Two neighbouring picks of different numbers may be exchanged unless one of them is
 * KUSPIGO_FORK or KUSPIGO_COMMIT: each does the same in either order, and the state and all counts behind them are the same. */
enum kuspigo_event {
    KUSPIGO_IDLE = 0, /* the thread does not exist or has ended */
    KUSPIGO_PUSH = 1,
    KUSPIGO_SUM = 2,
    KUSPIGO_FORK = 3,
    KUSPIGO_BEGIN = 4,
    KUSPIGO_READ_WRITE_LOG = 5,
    KUSPIGO_READ_READ_LOG = 6,
    KUSPIGO_READ_TABLE = 7,
    KUSPIGO_WRITE = 8,
    KUSPIGO_COMMIT = 9, /* one that took effect */
    KUSPIGO_SENT_BACK = 10 /* a COMMIT that found a stale register: one that a commit wrote since it was read */
};

typedef struct kuspigo_step_reply {
    size_t refusal;
    size_t place;
    size_t event;          /* an enum kuspigo_event */
    size_t stale_register; /* the lowest one, if the thread was sent back, else 0 */
    size_t turn;           /* 1 if it took a turn (a sum outside a transaction, a FORK, a commit), else 0 */
    size_t over;           /* 1 for a sum outside a transaction that left the 32-bit range; of a commit the note, how
                              many sums of its attempt did; else 0 */
} kuspigo_step_reply;

typedef struct kuspigo_run_reply {
    size_t refusal;
    size_t place;
    size_t steps;   /* picks that were not idle */
    size_t idle;
    size_t commits; /* commits that took effect */
    size_t back;    /* commits that were sent back */
    size_t over;    /* sums that left the 32-bit range, outside transactions and, as noted, in attempts that took effect */
} kuspigo_run_reply;

/* What a job will need; on a refusal the rest is 0. A run is here all steps and runs with this job's code on one state,
 * from kuspigo_fresh on, nothing else writing it meanwhile; steps and commits are added up over it, and the picks may be
 * any. It is finished when every thread has ended. */
typedef struct kuspigo_forecast_reply {
    size_t refusal;
    size_t place;
    size_t length;       /* bytes of its code, mark and version included */
    size_t transactions; /* a finished run has so many commits that took effect, */
    size_t threads;      /* and so many threads: the root, and a child for each FORK */
    size_t instructions; /* a finished run in which nothing was sent back has so many steps */
    size_t longest;      /* instructions of the longest transaction, BEGIN and COMMIT included; 0 if there is none */
    size_t bound;        /* no run has more steps */
    uint64_t reads;      /* the registers that READ names, bit 0 being register 0, */
    uint64_t writes;     /* and those that WRITE names */
    uint8_t heights[KUSPIGO_THREADS]; /* greatest stack height of the root, then of each FORK's child in the order of
                                         the FORKs in the job; 0 behind them */
} kuspigo_forecast_reply;

/* The records as the library was built with them; on a machine where they differ the header is not taken. */
#define KUSPIGO_SIZE_(type, bytes) typedef char type##_has_##bytes##_bytes[sizeof(type) == bytes ? 1 : -1]
KUSPIGO_SIZE_(kuspigo_thread, 1112);
KUSPIGO_SIZE_(kuspigo_written, 24);
KUSPIGO_SIZE_(kuspigo_fresh_reply, 16);
KUSPIGO_SIZE_(kuspigo_step_reply, 48);
KUSPIGO_SIZE_(kuspigo_run_reply, 56);
KUSPIGO_SIZE_(kuspigo_forecast_reply, 96);
#undef KUSPIGO_SIZE_

/* The version 1 job of a script that is typed as a formula, such as `fork atomic(r0 := r0 + 1)`, at the front of out.
 * Refusal 15, its place an offset in the text, which is its length if it ends too early; then 4, 7, 8 and 14, their places
 * offsets in the job that it would make; then 10. A text above KUSPIGO_LONGEST_TEXT bytes is 15 at that offset. */
kuspigo_written kuspigo_formula(const uint8_t *text, size_t text_count, uint8_t *out, size_t out_count);

/* The job's stack code, at the front of out. Refusals 1 to 9, then 14, then 10. */
kuspigo_written kuspigo_compile(const uint8_t *job, size_t job_count, uint8_t *out, size_t out_count);

/* What the job will need, from its bytes alone. Refusals 1 to 9, then 14. */
kuspigo_forecast_reply kuspigo_forecast(const uint8_t *job, size_t job_count);

/* The job that compiles to the code, at the front of out. Refusals 11, then 10. */
kuspigo_written kuspigo_read_back(const uint8_t *code, size_t code_count, uint8_t *out, size_t out_count);

/* What the run program prints for an input (the job's length in two bytes, the job, picks), at the front of out. A
 * refusal of the job or the picks is printed; the only refusal of this call is 10. */
kuspigo_written kuspigo_report(const uint8_t *input, size_t input_count, uint8_t *out, size_t out_count);

/* A fresh state for the code, over whatever was there: thread 0 alone, every register and every count 0. Refusals 11, then
 * 12 (not 64 registers, not 64 counts or not 16 records). */
kuspigo_fresh_reply kuspigo_fresh(const uint8_t *code, size_t code_count, int32_t *registers, size_t register_count,
                                  uint32_t *counts, size_t count_count, kuspigo_thread *threads, size_t thread_count);

/* One pick: one instruction of that thread. Refusals 11, then 12. */
kuspigo_step_reply kuspigo_step(const uint8_t *code, size_t code_count, int32_t *registers, size_t register_count,
                                uint32_t *counts, size_t count_count, kuspigo_thread *threads, size_t thread_count,
                                uint8_t pick);

/* A list of picks, one after the other. Refusals 11, then 12, then 13. */
kuspigo_run_reply kuspigo_run(const uint8_t *code, size_t code_count, int32_t *registers, size_t register_count,
                              uint32_t *counts, size_t count_count, kuspigo_thread *threads, size_t thread_count,
                              const uint8_t *picks, size_t pick_count);

#ifdef __cplusplus
}
#endif

#endif

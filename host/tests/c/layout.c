/* Prints the layout that include/kuspigo.h declares; tests/c/header.rs holds it against Rust's. */
#include <stdio.h>
#include "kuspigo.h"

#define SIZE(type) printf(#type " %zu\n", sizeof(type))
#define FIELD(type, field) printf(#type "." #field " %zu\n", offsetof(type, field))

int main(void) {
    SIZE(kuspigo_thread);
    FIELD(kuspigo_thread, start);
    FIELD(kuspigo_thread, end);
    FIELD(kuspigo_thread, place);
    FIELD(kuspigo_thread, height);
    FIELD(kuspigo_thread, cells);
    FIELD(kuspigo_thread, begin);
    FIELD(kuspigo_thread, base);
    FIELD(kuspigo_thread, over);
    FIELD(kuspigo_thread, reads);
    FIELD(kuspigo_thread, readlog);
    FIELD(kuspigo_thread, readcounts);
    FIELD(kuspigo_thread, writes);
    FIELD(kuspigo_thread, writelog);
    FIELD(kuspigo_thread, rule);
    FIELD(kuspigo_thread, backs);
    SIZE(kuspigo_written);
    FIELD(kuspigo_written, refusal);
    FIELD(kuspigo_written, place);
    FIELD(kuspigo_written, length);
    SIZE(kuspigo_fresh_reply);
    FIELD(kuspigo_fresh_reply, refusal);
    FIELD(kuspigo_fresh_reply, place);
    SIZE(kuspigo_step_reply);
    FIELD(kuspigo_step_reply, refusal);
    FIELD(kuspigo_step_reply, place);
    FIELD(kuspigo_step_reply, event);
    FIELD(kuspigo_step_reply, stale_register);
    FIELD(kuspigo_step_reply, turn);
    FIELD(kuspigo_step_reply, over);
    SIZE(kuspigo_run_reply);
    FIELD(kuspigo_run_reply, refusal);
    FIELD(kuspigo_run_reply, place);
    FIELD(kuspigo_run_reply, steps);
    FIELD(kuspigo_run_reply, idle);
    FIELD(kuspigo_run_reply, commits);
    FIELD(kuspigo_run_reply, back);
    FIELD(kuspigo_run_reply, over);
    SIZE(kuspigo_forecast_reply);
    FIELD(kuspigo_forecast_reply, refusal);
    FIELD(kuspigo_forecast_reply, place);
    FIELD(kuspigo_forecast_reply, length);
    FIELD(kuspigo_forecast_reply, transactions);
    FIELD(kuspigo_forecast_reply, threads);
    FIELD(kuspigo_forecast_reply, instructions);
    FIELD(kuspigo_forecast_reply, longest);
    FIELD(kuspigo_forecast_reply, bound);
    FIELD(kuspigo_forecast_reply, reads);
    FIELD(kuspigo_forecast_reply, writes);
    FIELD(kuspigo_forecast_reply, heights);
    return 0;
}

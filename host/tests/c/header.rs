//! The header beside the wrapper: layouts, names and texts.

use crate::support::{output_of, C11, C99, CXX11};
use core::mem::{offset_of, size_of};
use kuspigo::ffi::{ForecastReply, FreshReply, RunReply, StepReply, Written};
use kuspigo::{Reason, Thread};

/// Names, numbers and texts are the wrapper's, in each language, without a warning.
#[test]
fn the_header_has_the_same_names() {
    let mut expected = format!("KUSPIGO_API {} and kuspigo_api() {}\n", kuspigo::API, kuspigo::API);
    for (name, number) in [
        ("REGISTERS", kuspigo::REGISTERS),
        ("THREADS", kuspigo::THREADS),
        ("LONGEST_CODE", kuspigo::LONGEST_CODE),
        ("LONGEST_JOB", kuspigo::LONGEST_JOB),
        ("LONGEST_LISTING", kuspigo::LONGEST_LISTING),
        ("LONGEST_TEXT", kuspigo::LONGEST_TEXT),
        ("MOST_PICKS", kuspigo::MOST_PICKS),
    ] {
        expected += &format!("KUSPIGO_{name} {number}\n");
    }
    for reason in Reason::all() {
        let name = reason.word().to_uppercase().replace(' ', "_");
        expected += &format!("KUSPIGO_REFUSED_{name} {}\n", reason.number());
    }
    expected += "0: taken: The call was taken.\n";
    for reason in Reason::all() {
        expected += &format!("{}: {}: {}\n", reason.number(), reason.word(), reason.sentence());
    }
    expected += &format!("{}: unknown: No refusal has this number.\n", Reason::all().count() + 1);
    for language in [C99, C11, CXX11] {
        for optimised in ["-O0", "-O2"] {
            let Some(printed) = output_of(language, "tests/c/names.c", &[optimised]) else { continue };
            assert_eq!(printed, expected, "{language:?} {optimised}");
        }
    }
}

macro_rules! layout {
    ($($name:literal $type:ty { $($c:literal $field:ident),* })*) => {
        [$(
            format!("{} {}\n", $name, size_of::<$type>()),
            $(format!("{}.{} {}\n", $name, $c, offset_of!($type, $field)),)*
        )*].concat()
    };
}

#[test]
fn the_header_has_the_same_layout() {
    let Some(printed) = output_of(C99, "tests/c/layout.c", &["-O1"]) else { return };
    let expected = layout! {
        "kuspigo_thread" Thread {
            "start" start, "end" end, "place" place, "height" height, "cells" cells, "begin" begin, "base" base,
            "over" over, "reads" reads, "readlog" readlog, "readcounts" readcounts, "writes" writes,
            "writelog" writelog, "rule" rule, "backs" backs
        }
        "kuspigo_written" Written { "refusal" refusal, "place" place, "length" length }
        "kuspigo_fresh_reply" FreshReply { "refusal" refusal, "place" place }
        "kuspigo_step_reply" StepReply {
            "refusal" refusal, "place" place, "event" event, "stale_register" register, "turn" turn,
            "over" over
        }
        "kuspigo_run_reply" RunReply {
            "refusal" refusal, "place" place, "steps" steps, "idle" idle, "commits" commits, "back" back,
            "over" over
        }
        "kuspigo_forecast_reply" ForecastReply {
            "refusal" refusal, "place" place, "length" length, "transactions" transactions, "threads" threads,
            "instructions" instructions, "longest" longest, "bound" bound, "reads" reads, "writes" writes,
            "heights" heights
        }
    };
    assert_eq!(printed, expected);
}

//! What `check` says.

use crate::support::{accepted, damaged, example, folder, put, refused, said, KIND};

#[test]
fn check_tells_the_forecast() {
    let here = folder("check");
    let expected = "\
whole.job: accepted
job                              32 bytes, 13 nodes
code                             36 bytes
transactions (K)                 2
threads (T)                      3
instructions (L)                 15
of the longest transaction (M)   6
steps                            at most 27
greatest stack heights           root 2, children in job order 2 2
registers that READ names        r0
registers that WRITE names       r0
";
    assert_eq!(said(&here, &["check", "whole.job"]), accepted(expected));
    put(&here, "seven.job", b"WSJ\x00\x01\x00\x01\x01\x00\x00\x00\x07");
    let expected = "\
seven.job: accepted
job                              12 bytes, 1 node
code                             10 bytes
transactions (K)                 0
threads (T)                      1
instructions (L)                 1
of the longest transaction (M)   0
steps                            at most 1
greatest stack heights           root 1
registers that READ names        none
registers that WRITE names       none
";
    assert_eq!(said(&here, &["check", "seven.job"]), accepted(expected));
}

/// Jobs of each refusal, with what `check` says of them.
#[test]
fn check_marks_the_place_of_each_refusal() {
    let here = folder("refusals");
    put(&here, "kind.job", &damaged(12, 1));
    assert_eq!(said(&here, &["check", "kind.job"]), refused("", KIND));
    let whole = example("whole.job");
    let deep = [b"WSJ\x00\x01\x00\x42".as_slice(), &[4; 14], &[3], &[8, 5].repeat(50), &[5, 0, 0, 0, 0]].concat();
    let forks = [b"WSJ\x00\x01\x00\x11".as_slice(), &[4; 16], &[1, 0, 0, 0, 0]].concat();
    // five nodes around it; four sums of fifty registers; numbers behind
    let fifty = [[6].repeat(49), [7, 9].repeat(50)].concat();
    let head = b"WSJ\x00\x01\x01\x98\x02\x02\x04\x04\x02\x03\x06\x06\x06";
    let number = [1, 0, 0, 0, 0];
    let long = [&head[..], &fifty, &fifty, &fifty, &fifty, &number, &number, &number].concat();
    for (job, message) in [
        (
            vec![],
            "\
refused 1 (cut) at 0: The bytes end too early.

offset  bytes in hex
     0  ..
        ^^ 0
",
        ),
        (
            whole[..30].to_vec(),
            "\
refused 1 (cut) at 30: The bytes end too early.
It is in VALT at 27, in ADDT at 24, in WRITE at 22, in ATOMIC at 21, 2 more around it.

offset  bytes in hex
     0  57 53 4A 00 01 00 0D 02 04 03 08 00 06 07 00 05
    16  00 00 00 01 04 03 08 00 06 07 00 05 00 00 ..
                                                  ^^ 30
",
        ),
        (
            whole[..16].to_vec(),
            "\
refused 1 (cut) at 16: The bytes end too early.
It is in VALT at 15, in ADDT at 12, in WRITE at 10, in ATOMIC at 9, 2 more around it.

offset  bytes in hex
     0  57 53 4A 00 01 00 0D 02 04 03 08 00 06 07 00 05
    16  ..
        ^^ 16
",
        ),
        (
            damaged(2, b'C'),
            "\
refused 2 (mark) at 0: The job does not begin with its mark.
It begins with WSC, the mark of code: try kuspigo back or show.

offset  bytes in hex
     0  57 53 43 00 01 00 0D 02 04 03 08 00 06 07 00 05
        ^^ ^^ ^^ 0
    16  00 00 00 01 04 03 08 00 06 07 00 05 00 00 00 01
",
        ),
        (
            damaged(4, 9),
            "\
refused 3 (version) at 3: The job's version is not 1.
The version is 9.

offset  bytes in hex
     0  57 53 4A 00 09 00 0D 02 04 03 08 00 06 07 00 05
                 ^^ ^^ 3
    16  00 00 00 01 04 03 08 00 06 07 00 05 00 00 00 01
",
        ),
        (
            [b"WSJ\x00\x01\x03\xE9", &whole[7..]].concat(),
            "\
refused 4 (count) at 5: The node count is 0 or above 1,000.
The count is 1001.

offset  bytes in hex
     0  57 53 4A 00 01 03 E9 02 04 03 08 00 06 07 00 05
                       ^^ ^^ 5
    16  00 00 00 01 04 03 08 00 06 07 00 05 00 00 00 01
",
        ),
        (
            damaged(20, 5),
            "\
refused 5 (kind) at 20: The node's kind is unknown or not permitted there.
The kind is 5; a process, of kind 1 to 4, is due.
It is in ADDP at 7.

offset  bytes in hex
     0  57 53 4A 00 01 00 0D 02 04 03 08 00 06 07 00 05
    16  00 00 00 01 05 03 08 00 06 07 00 05 00 00 00 01
                    ^^ 20
",
        ),
        (
            [damaged(15, 0), vec![0; 16]].concat(),
            "\
refused 5 (kind) at 15: The node's kind is unknown or not permitted there.
The kind is 0; a transaction, of kind 5 to 8, is due.
It is in ADDT at 12, in WRITE at 10, in ATOMIC at 9, in FORK at 8, 1 more around it.

offset  bytes in hex
     0  57 53 4A 00 01 00 0D 02 04 03 08 00 06 07 00 00
                                                     ^^ 15
    16  00 00 00 01 04 03 08 00 06 07 00 05 00 00 00 01
",
        ),
        (
            damaged(7, 9),
            "\
refused 5 (kind) at 7: The node's kind is unknown or not permitted there.
The kind is 9; a process, of kind 1 to 4, is due.

offset  bytes in hex
     0  57 53 4A 00 01 00 0D 09 04 03 08 00 06 07 00 05
                             ^^ 7
    16  00 00 00 01 04 03 08 00 06 07 00 05 00 00 00 01
",
        ),
        (
            damaged(26, 64),
            "\
refused 6 (register) at 26: The register's number is 64 or more.
The register is 64.
It is in READ at 25, in ADDT at 24, in WRITE at 22, in ATOMIC at 21, 2 more around it.

offset  bytes in hex
     0  57 53 4A 00 01 00 0D 02 04 03 08 00 06 07 00 05
    16  00 00 00 01 04 03 08 00 06 07 40 05 00 00 00 01
                                      ^^ 26
",
        ),
        (
            deep,
            "\
refused 7 (depth) at 120: The node is at depth 65.
It is in WRITE at 118, in WRITE at 116, in WRITE at 114, in WRITE at 112, 60 more around it.

offset  bytes in hex
    96  08 05 08 05 08 05 08 05 08 05 08 05 08 05 08 05
   112  08 05 08 05 08 05 08 05 08 05 05 00 00 00 00
                                ^^ 120
",
        ),
        (
            forks,
            "\
refused 8 (forks) at 22: This is the sixteenth FORK.
It is in FORK at 21, in FORK at 20, in FORK at 19, in FORK at 18, 11 more around it.

offset  bytes in hex
     0  57 53 4A 00 01 00 11 04 04 04 04 04 04 04 04 04
    16  04 04 04 04 04 04 04 01 00 00 00 00
                          ^^ 22
",
        ),
        (
            [&whole[..], b"\n"].concat(),
            "\
refused 9 (length) at 32: The nodes or the bytes do not match the count.
The tree is complete, and bytes follow it.

offset  bytes in hex
    16  00 00 00 01 04 03 08 00 06 07 00 05 00 00 00 01
    32  0A
        ^^ 32
",
        ),
        (
            damaged(6, 12),
            "\
refused 9 (length) at 27: The nodes or the bytes do not match the count.
The count is 12, and one more node is due.
It is in ADDT at 24, in WRITE at 22, in ATOMIC at 21, in FORK at 20, 1 more around it.

offset  bytes in hex
     0  57 53 4A 00 01 00 0C 02 04 03 08 00 06 07 00 05
    16  00 00 00 01 04 03 08 00 06 07 00 05 00 00 00 01
                                         ^^ 27
",
        ),
        (
            damaged(6, 14),
            "\
refused 9 (length) at 32: The nodes or the bytes do not match the count.
The count is 14, and the tree has 13 nodes.

offset  bytes in hex
    16  00 00 00 01 04 03 08 00 06 07 00 05 00 00 00 01
    32  ..
        ^^ 32
",
        ),
        (
            b"WSJ\x00\x01\x00\x02\x01\x00\x00\x00\x07".to_vec(),
            "\
refused 9 (length) at 12: The nodes or the bytes do not match the count.
The count is 2, and the tree has 1 node.

offset  bytes in hex
     0  57 53 4A 00 01 00 02 01 00 00 00 07 ..
                                            ^^ 12
",
        ),
        (
            long,
            "\
refused 14 (long transaction) at 12: The transaction has more than 200 nodes.
It has 399 nodes.
It is in ADDP at 11, in FORK at 10, in FORK at 9, in ADDP at 8, 1 more around it.

offset  bytes in hex
     0  57 53 4A 00 01 01 98 02 02 04 04 02 03 06 06 06
                                            ^^ 12
    16  06 06 06 06 06 06 06 06 06 06 06 06 06 06 06 06
",
        ),
    ] {
        put(&here, "damaged.job", &job);
        let err = format!("kuspigo: damaged.job: {message}");
        assert_eq!(said(&here, &["check", "damaged.job"]), refused("", &err));
    }
}

#!/usr/bin/env python3
"""Writes runs/NAME.in and runs/NAME.out beside this file: inputs of the run program, and what it has to write for each. The gate compares.

What is written comes from the second implementation beside `vectors`, which is written from the papers; for most inputs it is also stated here by hand.
"""
import os
import sys

HERE = os.path.dirname(os.path.abspath(__file__))
sys.path.insert(0, os.path.join(HERE, "..", "vectors"))

import cases
from jobs import addp, addt, atomic, chain, fork, head, job, read, sized, valp, valt, write, write0


def an_input(data, picks=b"", length=None):
    return (len(data) if length is None else length).to_bytes(2, "big") + data + bytes(picks)


seven = job(valp(7))
raises = atomic(write(0, addt(read(0), valt(1))))
whole = job(addp(fork(raises), fork(raises)))
order = [0] * 3 + [1] * 2 + [2] * 6 + [1] * 10
sixteen = fork(raises)
for _ in range(14):
    sixteen = addp(sixteen, fork(raises))
looks = fork(atomic(write(1, read(0))))
came_back = job(addp(looks, fork(addp(atomic(write(0, valt(5))), atomic(write(0, valt(0)))))))
same_value = job(addp(looks, fork(atomic(write(0, valt(0))))))
ends = job(addp(addp(valp(2147483647), valp(1)), atomic(write(63, valt(-2147483648)))))

RUNS = {
    # inputs that are shorter than they say: the place counts in the input
    "no_input": (b"", "refused 1 at 0\n"),
    "one_byte": (b"\0", "refused 1 at 1\n"),
    "cut_by_two": (an_input(seven[:10], length=12), "refused 1 at 12\n"),
    # refused jobs: the place counts in the job
    "no_job": (b"\0\0", "refused 1 at 0\n"),
    "mark_only": (an_input(b"WSJ"), "refused 1 at 3\n"),
    "cut_operand": (an_input(seven[:11]), "refused 1 at 11\n"),
    "wrong_mark": (an_input(b"WSC" + seven[3:], [0]), "refused 2 at 0\n"),
    "version_2": (an_input(head(1, 2) + seven[7:], [0]), "refused 3 at 3\n"),
    "count_0": (an_input(head(0) + seven[7:]), "refused 4 at 5\n"),
    "count_1001": (an_input(head(1001) + seven[7:]), "refused 4 at 5\n"),
    "transaction_as_root": (an_input(job(valt(7))), "refused 5 at 7\n"),
    "register_64": (an_input(job(atomic(read(64)))), "refused 6 at 9\n"),
    "depth_65": (an_input(job(chain(fork, 1, atomic(chain(write0, 63, valt(0)))))), "refused 7 at 133\n"),
    "sixteen_forks": (an_input(job(chain(fork, 16, valp(0)))), "refused 8 at 22\n"),
    "byte_left_over": (an_input(seven + b"\0"), "refused 9 at 12\n"),
    "long_transaction": (an_input(job(atomic(sized(201)))), "refused 14 at 7\n"),
    # lists of picks
    "long_list": (an_input(seven, bytes(32769)), "refused 13 at 0\n"),
    "refused_before_long_list": (an_input(b"WSC" + seven[3:], bytes(32769)), "refused 2 at 0\n"),
    "longest_list": (an_input(seven, bytes(32768)), "steps 1 idle 32767 commits 0 back 0 over 0\nthread 0 done 7\n"),
    "more_than_is_read": (an_input(seven, bytes(70000)), "refused 13 at 0\n"),
    "no_pick": (an_input(seven), "steps 0 idle 0 commits 0 back 0 over 0\nthread 0 open\n"),
    "idle_picks": (an_input(seven, [9, 0, 0, 255, 16]), "steps 1 idle 4 commits 0 back 0 over 0\nthread 0 done 7\n"),
    # runs
    "whole_forked_only": (an_input(whole, [0, 0, 0]), "steps 3 idle 0 commits 0 back 0 over 0\nthread 0 done 0\nthread 1 open\nthread 2 open\n"),
    "whole_one_after_the_other": (
        an_input(whole, [0] * 3 + [1] * 6 + [2] * 6),
        "steps 15 idle 0 commits 2 back 0 over 0\nthread 0 done 0\nthread 1 done 1\nthread 2 done 2\nregister 0 2\n",
    ),
    "whole_children_exchanged": (
        an_input(whole, [{0: 0, 1: 2, 2: 1}[i] for i in order]),
        "steps 21 idle 0 commits 2 back 1 over 0\nthread 0 done 0\nthread 1 done 1\nthread 2 done 2\nregister 0 2\n",
    ),
    # a register is stale if a commit wrote it since, also where its value came back or stayed
    "came_back": (
        an_input(came_back, [0, 0, 1, 1] + [2] * 8 + [1, 1]),
        "steps 14 idle 0 commits 2 back 1 over 0\nthread 0 open\nthread 1 open\nthread 2 open\n",
    ),
    "came_back_to_the_end": (
        an_input(came_back, [0, 0, 1, 1] + [2] * 8 + [1] * 6 + [2, 0]),
        "steps 20 idle 0 commits 3 back 1 over 0\nthread 0 done 0\nthread 1 done 0\nthread 2 done 5\n",
    ),
    "came_back_before_it_was_read": (
        an_input(came_back, [0, 0] + [2] * 8 + [1] * 4),
        "steps 14 idle 0 commits 3 back 0 over 0\nthread 0 open\nthread 1 done 0\nthread 2 open\n",
    ),
    "same_value": (
        an_input(same_value, [0, 0, 1, 1] + [2] * 4 + [1, 1]),
        "steps 10 idle 0 commits 1 back 1 over 0\nthread 0 open\nthread 1 open\nthread 2 done 0\n",
    ),
    "ends_of_the_range": (
        an_input(ends, [0] * 12),
        "steps 8 idle 4 commits 1 back 0 over 2\nthread 0 done 0\nregister 63 -2147483648\n",
    ),
    "below_zero": (an_input(job(valp(-1)), [0]), "steps 1 idle 0 commits 0 back 0 over 0\nthread 0 done -1\n"),
    "sixteen_threads_in_turn": (an_input(job(sixteen), bytes(range(16)) * 60), None),
    "sixteen_threads_open": (an_input(job(sixteen), [0] * 29 + list(range(16)) * 3), None),
    "registers_ascend": (
        an_input(job(atomic(write(63, write(10, write(9, valt(3)))))), [0] * 6),
        "steps 6 idle 0 commits 1 back 0 over 0\nthread 0 done 3\nregister 9 3\nregister 10 3\nregister 63 3\n",
    ),
}


def main():
    folder = os.path.join(HERE, "runs")
    os.makedirs(folder, exist_ok=True)
    for name, (data, stated) in RUNS.items():
        said = cases.printed(data)
        assert stated is None or said == stated, (name, said, stated)
        for end, text in ((".in", data), (".out", said.encode())):
            with open(os.path.join(folder, name + end), "wb") as file:
                file.write(text)
    print("%d inputs" % len(RUNS))


if __name__ == "__main__":
    main()

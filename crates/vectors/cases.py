#!/usr/bin/env python3
"""Writes the files stdin and stdout of this program, beside this one; with a seed and a folder as arguments, other random cases into that
folder.

In front stand the cases of jobs.py, machine.py and formulas.py, most of whose answers are also stated by hand. Every answer comes from a second
implementation, which is written from the papers (documents 01 and 02) and not from the definitions of this repository: the job reader, the compiler,
the way back and the forecast are in jobs.py, the machine is in machine.py, the reader of formulas is in formulas.py, and what the run program prints
is here.
"""
import os
import random
import sys
from collections import Counter, defaultdict

import formulas
import jobs
import machine
from jobs import KINDS, addp, addt, atomic, encode, fork, job, nodes, valp, valt, whole, words, write

HERE = os.path.dirname(os.path.abspath(__file__))
SEED = 20260201
ROOM = 1350000
LONG = 32769  # picks, one too many

rng = random.Random()
cases = jobs.Cases()
kinds = Counter()  # cases of each kind
seen = defaultdict(Counter)  # what occurs in them


def add(kind, label, text, said):
    """A case of a kind, which ends its label; the label's first word is the command."""
    kinds[kind] += 1
    cases.line("%s %s %d" % (label, kind, kinds[kind]), text, said)


# ---- the run program


def printed(data):
    """What the run program prints for this standard input."""
    size = int.from_bytes(data[:2], "big")
    if len(data) < 2 or len(data) < 2 + size:
        return "refused 1 at %d\n" % len(data)
    text, picks = data[2 : 2 + size], data[2 + size :]
    reading = jobs.read_job(text)
    if reading[0] == "refused":
        return "refused %d at %d\n" % reading[1:]
    if len(picks) > 32768:
        return "refused 13 at 0\n"
    code, memory = whole(jobs.tree_at(text, 7)[0]), machine.Memory()
    machine.call_fresh(code, memory)
    out = machine.COUNTS % machine.counts([machine.pick(code, memory, i) for i in picks]) + "\n"
    for i in range(16):
        thread = memory.threads[i]
        if thread.start and thread.place == thread.end:
            out += "thread %d done %d\n" % (i, thread.cell[0])
        elif thread.start:
            out += "thread %d open\n" % i
    for v in range(64):
        if memory.registers[v]:
            out += "register %d %d\n" % (v, memory.registers[v])
    return out


def report(kind, data, size=None, picks=()):
    """An input of the run program, the picks behind `data` in decimal. The output's size is what is printed, if none is given."""
    out = printed(data + bytes(picks))
    size = len(out) if size is None else size
    said = "refused 10 at 0" if size < len(out) else "prints " + out.replace("\n", " / ").rstrip()
    add("input", "report %d %s" % (size, kind), data.hex() + (";" + words(picks) if picks else ""), said + " kept")
    note = seen["report"]
    note["short"] += size < len(out)
    note["longer"] += size > len(out)
    for row in out.splitlines():
        word = row.split()
        if word[0] == "refused":
            note["refused " + word[1]] += 1
        elif word[0] == "steps":
            for name, n in zip(word[::2], word[1::2]):
                note[name] += n != "0"
        else:
            note[word[0] + " of two digits"] += len(word[1]) == 2
            note[word[0] + " open"] += word[2] == "open"
            note[word[0] + " negative"] += word[-1][0] == "-"
            note[word[0] + " least"] += word[-1] == "-2147483648"


# ---- trees and lists of picks


def scattered(tree):
    """The tree with other numbers in some of its leaves."""
    kind, operand, parts = tree
    if len(operand) == 4 and rng.random() < 0.5:
        operand = rng.choice((rng.randbytes(4), bytes([rng.randint(1, 8)]) * 4, b"\x80\0\0\0", b"\xff\xff\xff\xff", b"\x7f\xff\xff\xff"))
    return kind, operand, tuple(scattered(p) for p in parts)


def accepted(make):
    while True:
        tree = scattered(make())
        if nodes(tree) <= 1000 and jobs.read_job(job(tree))[0] == "accepted":
            return tree


def registers():
    return rng.choice(((0,), (0, 1), (0, 1, 63), tuple(rng.sample(range(64), 3)), tuple(range(8, 13))))


def small(least=1, most=15):
    return accepted(lambda: machine.some_proc(rng, rng.randint(least, most), registers()))


def busy():
    """Threads that read and write the same registers."""
    def part():
        wrap = rng.choice((fork, lambda p: p))
        return wrap(atomic(machine.some_tran(rng, rng.randint(2, 7), (0, 40)[: rng.randint(1, 2)])))

    return accepted(lambda: joined([part() for _ in range(rng.randint(2, 4))]))


def contested():
    """Threads of several transactions that all read and write the same two registers."""
    def several():
        def tran():
            return write(0, write(40, addt(valt(1), machine.some_tran(rng, rng.randint(2, 4), (0, 40)))))

        return joined([atomic(tran()) for _ in range(rng.randint(1, 2))])

    def parts():
        out = [several(), fork(several()), rng.choice((several, lambda: fork(several())))()]
        rng.shuffle(out)
        return out

    return accepted(lambda: joined(parts()))


def joined(parts):
    """The processes in sums of some shape."""
    if len(parts) == 1:
        return parts[0]
    at = rng.randrange(1, len(parts))
    return addp(joined(parts[:at]), joined(parts[at:]))


def many():
    """Ten threads or more."""
    def part():
        return fork(rng.choice((valp(-5), atomic(write(rng.randint(9, 63), valt(-9))), machine.some_proc(rng, 2, (0,)))))

    return accepted(lambda: joined([part() for _ in range(rng.randint(10, 15))]))


def large(most):
    """At most so many nodes, in sums of transactions and a few FORKs."""
    def parts():
        out, left = [], most - 1
        while left > 12:
            kind = rng.random()
            if kind < 0.03 and left > 220:
                part = atomic(wide(rng.randint(100, 200)))
            else:
                part = atomic(machine.some_tran(rng, rng.randint(1, 9), registers())) if kind < 0.7 else valp(7)
            part = fork(part) if sum(map(machine.forks, out)) < 15 and rng.random() < 0.1 else part
            out.append(part)
            left -= nodes(part) + 1
        return out

    def even(parts):
        if len(parts) == 1:
            return parts[0]
        at = max(1, min(len(parts) - 1, len(parts) // 2 + rng.randint(-3, 3)))
        return addp(even(parts[:at]), even(parts[at:]))

    return accepted(lambda: even(parts()))


def wide(size):
    """A transaction of so many nodes, of little depth."""
    if size == 1:
        return jobs.read(rng.randrange(64)) if rng.random() < 0.9 else valt(7)
    if size == 2 or rng.random() < 0.3:
        return write(rng.randrange(64), wide(size - 1))
    least = max(1, (size - 1) // 3)
    left = rng.randint(least, size - 1 - least)
    return addt(wide(left), wide(size - 1 - left))


def around(size):
    """A tree with a transaction of so many nodes, and small parts beside it."""
    parts = [atomic(wide(size))] + [small(1, 5) for _ in range(rng.randrange(3))]
    rng.shuffle(parts)
    return scattered(joined([fork(part) if rng.random() < 0.3 else part for part in parts]))


def any_tree():
    return rng.choice((small, small, small, busy, many if rng.random() < 0.15 else small))()


def schedule(tree, most=200, idle=0.08):
    """Picks of threads that are there, in short turns, mostly until all have ended; and each one's event."""
    code, memory = whole(tree), machine.Memory()
    machine.call_fresh(code, memory)
    picks, events = [], []
    while len(picks) < most:
        live = [i for i in range(16) if memory.threads[i].start and memory.threads[i].place != memory.threads[i].end]
        if not live:
            break
        i = rng.choice((rng.randrange(16), 16, 255)) if rng.random() < idle else rng.choice(live)
        for _ in range(rng.choice((1, 1, 2, 3, 6))):
            picks.append(i)
            events.append(machine.pick(code, memory, i)[0])
    return picks, events


# ---- damage


def put(data, at, *more):
    return data[:at] + bytes(more) + data[at + len(more) :]


def other(byte):
    return rng.choice([n for n in (rng.randrange(256), (byte + 1) % 256, (byte - 1) % 256, rng.randrange(10)) if n != byte] or [byte ^ 1])


def changed(data, at):
    return put(data, at, other(data[at]))


def unlike(data):
    """Any byte changed, left out or put in."""
    at = rng.randrange(len(data))
    return rng.choice((changed(data, at), changed(data, at), data[:at] + data[at + 1 :], data[:at] + rng.randbytes(1) + data[at:]))


def node_places(data):
    out, at = [], 7
    while at < len(data):
        out.append(at)
        at += 1 + KINDS[data[at]][0]
    return out


def deep(layers):
    """A tree whose deepest node is so many layers below its root."""
    inside = rng.randint(0, layers)
    tree = scattered(valp(7)) if not inside else scattered(rng.choice((valt(7), jobs.read(9))))
    for i in range(1, layers + 1):
        if i == inside:
            tree = atomic(tree)
        elif i < inside:
            tree = rng.choice((lambda t: write(rng.randrange(64), t), lambda t: addt(t, jobs.read(1))))(tree)
        else:
            tree = addp(tree, valp(7)) if rng.random() < 0.9 else addp(valp(7), tree)
    return tree


def sixteen():
    """A tree of sixteen FORKs or more, in each other and side by side."""
    parts = [valp(1)] * rng.randint(1, 4)
    for _ in range(rng.randint(16, 18)):
        k = rng.randrange(len(parts))
        parts[k] = fork(parts[k])
        if rng.random() < 0.2:
            parts[k] = addp(parts[k], valp(2)) if rng.random() < 0.5 else addp(valp(2), parts[k])
    return joined(parts)


def ended(data, place):
    """What stands behind the place is left out, but for a few bytes."""
    return data[: place + rng.randint(1, 6)]


def bad_kind(data):
    at = rng.choice(node_places(data))
    return put(data, at, rng.choice((0, 9, 255, *range(1, 9))))


def bad_register(data):
    named = [at + 1 for at in node_places(data) if data[at] in (7, 8)]
    return put(data, rng.choice(named), rng.choice((64, 255, rng.randint(64, 255)))) if named else data


def bad_length(data):
    count = int.from_bytes(data[5:7], "big")
    kind = rng.randrange(3)
    if kind == 0:
        return data + rng.randbytes(rng.randint(1, 5))
    count = rng.randint(1, count) if kind == 1 else min(1000, count + rng.choice((1, 2, 300)))
    return put(data, 5, count >> 8, count & 255)


def bad_depth(_):
    data = job(deep(rng.randint(64, 66)))
    return ended(data, jobs.read_job(data)[2])


def bad_forks(_):
    data = job(sixteen())
    return ended(data, jobs.read_job(data)[2])


# of a job: damage that may be turned down with this number
JOB_DAMAGE = {
    1: lambda data: data[: rng.randrange(len(data))],
    2: lambda data: changed(data, rng.randrange(3)),
    3: lambda data: changed(data, rng.randrange(3, 5)),
    4: lambda data: put(data, 5, *rng.choice((0, 1001, 65535, rng.randint(1001, 65535))).to_bytes(2, "big")),
    5: bad_kind,
    6: bad_register,
    7: bad_depth,
    8: bad_forks,
    9: bad_length,
}


def damaged_job(number):
    """A damaged job that is turned down with this number."""
    while True:
        data = JOB_DAMAGE[number](job(any_tree()))
        if rng.random() < 0.1 and data:
            data = unlike(data)
        if jobs.read_job(data)[:2] == ("refused", number):
            return data


def test_of(data):
    """Which test turns a job down: the number, and of 1 and 9 which of its reasons."""
    _, number, place = jobs.read_job(data)
    if number == 1:
        reason = "fewer than 7" if len(data) < 7 else "no byte" if jobs.read_job(data + b"\0")[1:] == (5, len(data)) else "operand"
    elif number == 9:
        most = put(data, 5, 3, 232)  # the same with count 1,000
        if jobs.read_job(most) != ("refused", 9, place):
            reason = "count used up"
        else:
            reason = "bytes" if nodes(jobs.tree_at(data, 7)[0]) == data[5] * 256 + data[6] else "nodes"
    else:
        reason = ""
    return ("%d %s" % (number, reason)).strip()


def op_places(code):
    out, at = [], 5
    while at < len(code):
        out.append(at)
        at += 1 + jobs.OPERANDS[code[at]]
    return out


def swapped(code):
    """Two neighbouring instructions changed over."""
    at = op_places(code) + [len(code)]
    if len(at) < 3:
        return code
    k = rng.randrange(len(at) - 2)
    return code[: at[k]] + code[at[k + 1] : at[k + 2]] + code[at[k] : at[k + 1]] + code[at[k + 2] :]


def op_changed(code, ops, by):
    """The operand's last byte of an instruction with one of these opcodes made another."""
    at = [at for at in op_places(code) if code[at] in ops]
    if not at:
        return code
    at = rng.choice(at)
    return put(code, at + jobs.OPERANDS[code[at]], by(code[at + jobs.OPERANDS[code[at]]]))


CODE_DAMAGE = {
    "cut": lambda code: code[: rng.randrange(len(code))],
    "mark": lambda code: changed(code, rng.randrange(3)),
    "version": lambda code: changed(code, rng.randrange(3, 5)),
    "opcode": lambda code: changed(code, rng.choice(op_places(code))),
    "register": lambda code: op_changed(code, (3, 4), lambda _: rng.choice((64, 255))),
    "length": lambda code: op_changed(code, (7,), other),
    "order": swapped,
    "byte": unlike,
    "behind": lambda code: code + rng.choice((b"\2", b"\6", b"\0", rng.randbytes(1), code[5:])),
    "depth": lambda _: whole(deep(64)),
    "forks": lambda _: whole(sixteen()),
}


def damaged_code(kind):
    while True:
        code = CODE_DAMAGE[kind](whole(any_tree()))
        if jobs.job_of(code) is None:
            return code


# ---- states


def begun(tree, picks):
    memory = machine.Memory()
    machine.call_fresh(whole(tree), memory)
    machine.call_run(whole(tree), memory, picks)
    return memory


def existing(memory):
    return [i for i in range(16) if memory.threads[i].start]


def passed(code, memory):
    """The COMMITs passed by all threads."""
    return machine.commits_passed(code, [memory.threads[i] for i in existing(memory)])


def state(kind, command, what, setup, changes, picks):
    """A call on a state. Answers what it says."""
    setup, picks = words(setup).strip(), words(picks).strip()
    code, text = machine.given(what, setup, changes, picks)
    said, _ = machine.answer(command, code, setup, changes, picks)
    add(kind, command, text, said)
    return said


def calls(kind, tree, setup, lists):
    """Calls one after the other, each on what the one before left."""
    code, memory, said = whole(tree), begun(tree, []), []
    back = machine.counts(machine.call_run(code, memory, setup)[1])[3]
    for picks in lists:
        before = memory.numbers()
        number, events = machine.call_run(code, memory, picks)
        if number:
            assert memory.numbers() == before
            said.append("refused %d at 0 kept" % number)
        else:
            said.append(machine.COUNTS % machine.counts(events) + machine.show_counts(memory))
        seen["calls"]["refused" if number else "taken"] += 1
        seen["calls"]["sent back"] += any(event == 10 for event, *_ in events)
        seen["calls"]["sent back in an earlier call"] += back > 0
        back += [event for event, *_ in events].count(10)
        assert sum(record.backs for record in memory.threads[:16]) == back
        seen["calls"]["left open"] += any(record.begin for record in memory.threads[:16])
    seen["calls"]["of %d" % len(lists)] += 1
    _, text = machine.given(tree, words(setup).strip(), "", " | ".join(words(picks).strip() for picks in lists))
    add(kind, "calls", text, " | ".join(said) + machine.show_state(memory) + ", sum %d" % machine.checksum(memory))


FIELDS = machine.SCALARS + machine.ARRAYS + ("count", "records", "registers", "counts")


def altered(memory, field, commits):
    """A change of one field, so many COMMITs being passed."""
    if field in ("records", "registers", "counts"):
        n = 16 if field == "records" else 64
        return "%s %d" % (field, rng.choice((0, 1, n - 1, n + 1, rng.randrange(n))))
    v = rng.choice((0, 1, 40, 63))
    if field == "count":
        return "count %d %d" % (v, rng.choice((commits + 1, commits + 1, commits + 2, commits, rng.randint(0, commits), 2**32 - 1)))
    count = sum(record.start != 0 for record in memory.threads[:16])
    i = rng.choice((rng.randrange(count), rng.randrange(count), min(count, 15), rng.randrange(16)))
    now = getattr(memory.threads[i], field)
    if field in ("reads", "writes"):
        return "thread %d %s %d" % (i, field, now ^ 1 << rng.choice((0, 1, 63, rng.randrange(64))))
    if field in machine.SCALARS:
        value = rng.choice((now + 1, now - 1, now + rng.randint(2, 12), 0, 2**64 - 1, 64, memory.threads[0].end, 5))
        return "thread %d %s %d" % (i, field, max(0, value))
    if field == "readcount":
        return "thread %d readcount %d %d" % (i, v, rng.choice((memory.counts[v] + 1, memory.counts[v] + 1, memory.counts[v], rng.randint(0, commits + 1), 2**32 - 1)))
    k = rng.choice((memory.threads[i].height - 1, memory.threads[i].height, 63, 0)) if field == "cell" else v
    return "thread %d %s %d %d" % (i, field, max(0, min(63, k)), rng.choice((1, -1, 2147483647, -2147483648)))


def one_field(fit, field):
    """A case of a state with one field altered, which fits or does not."""
    while True:
        tree = any_tree()
        picks, _ = schedule(tree, 40)
        k = rng.randint(0, len(picks))
        memory = begun(tree, picks[:k])
        change, before = altered(memory, field, passed(whole(tree), memory)), memory.numbers()
        machine.change(bytearray(), memory, change)
        if memory.numbers() == before and memory.lent() == machine.SIZES:
            continue
        if machine.fits(whole(tree), memory) == fit:
            break
    command = rng.choice(("run", "run", "step"))
    said = state("altered" if fit else "foreign state", command, tree, picks[:k], change, picks[k : k + 1] or [0] if command == "step" else picks[k : k + 9])
    assert (said == "refused 12 at 0 kept") != fit
    seen["altered" if fit else "foreign state"][field] += 1


# ---- sums that leave the range

ENDS = (2147483647, 2147483646, 1073741824, 1, 0, -1, -1073741824, -1073741825, -2147483647, -2147483648)


def at_ends(tree):
    """The tree with numbers in its leaves whose sums are near the ends of the range, or outside."""
    kind, operand, parts = tree
    if len(operand) == 4:
        operand = rng.choice(ENDS).to_bytes(4, "big", signed=True)
    return kind, operand, tuple(at_ends(p) for p in parts)


def off_scale():
    """Threads with sums near the ends of the range, outside transactions and in some that read and write the same register."""
    look = jobs.read(0)

    def tran():
        return rng.choice((addt(look, valt(1)), addt(addt(valt(1), valt(1)), look), addt(valt(1), addt(look, valt(1)))))

    def part():
        return rng.choice((atomic(write(0, tran())), fork(atomic(write(0, tran()))), atomic(tran()), addp(valp(1), valp(1))))

    return at_ends(rng.choice((busy, lambda: joined([part() for _ in range(rng.randint(2, 4))])))())


def told(tree, lists):
    """Of each pick of these calls what it has to do with sums that leave the range: `outside` for one outside a transaction, `noted` for one
    inside, `counted` and `dropped` for a COMMIT with a note that takes effect or is sent back, `counted later` and `dropped later` if a
    call before this one noted, else nothing."""
    code, memory, out = whole(tree), begun(tree, []), []
    for picks in lists:
        # the threads whose note is as the call before left it
        lent = {i for i in range(16) if memory.threads[i].over}
        for i in picks:
            note = memory.threads[i].over if i < 16 else 0
            event, _, _, over = machine.pick(code, memory, i)
            word = ""
            if event == 2 and over:
                word = "outside"
            elif event == 2 and memory.threads[i].over > note:
                word = "noted"
            elif event in (9, 10) and note:
                word = ("counted" if event == 9 else "dropped") + " later" * (i in lent)
                lent.discard(i)
            assert over == (word == "outside") + note * word.startswith("counted")
            out.append(word)
    return out


def showing(word):
    """A tree and picks that show it."""
    while True:
        tree = off_scale()
        picks, _ = schedule(tree, 80)
        if word in told(tree, [picks]):
            return tree, picks


def note_of(kind, code, record):
    """Another note for a record of this kind, or None if it is of another. `blank`: there is no such thread; `outside`: no transaction is open;
    `high`: above the ADDs passed since BEGIN; `lower`, `higher`: not above them."""
    if not record.start or not record.begin:
        return rng.choice((1, 1, 2, 2**64 - 1)) if kind == ("outside" if record.start else "blank") else None
    adds = [code[at] for at in op_places(code) if record.begin < at < record.place].count(2)
    if kind == "high":
        return adds + rng.choice((1, 1, 1, 2, 9))
    if kind == "lower" and record.over > 0:
        return rng.randrange(record.over)
    if kind == "higher" and record.over < adds:
        return rng.randint(record.over + 1, adds)
    return None


def a_note(kind):
    """A case of a state with another note in one record, by `note_of`. If it fits, a register that this thread has read is stale now and then."""
    fit = kind in ("lower", "higher")
    stale = fit and rng.random() < 0.4
    while True:
        tree = off_scale()
        picks, _ = schedule(tree, 60)
        setup = picks[: rng.randint(0, len(picks))]
        memory, i = begun(tree, setup), rng.randrange(16)
        note = note_of(kind, whole(tree), memory.threads[i])
        if note is None:
            continue
        change = made_stale(memory, i, passed(whole(tree), memory)) if stale else None
        if stale and not change:
            continue
        changes = ", ".join(filter(None, ("thread %d over %d" % (i, note), change)))
        for text in changes.split(", "):
            machine.change(bytearray(), memory, text)
        if machine.fits(whole(tree), memory) == fit:
            break
    command = rng.choice(("run", "run", "step"))
    rest = [i] * (20 if command == "run" else 1)
    said = state("over", command, tree, setup, changes, rest)
    assert (said == "refused 12 at 0 kept") != fit
    seen["note"][kind] += 1
    if fit:
        # what becomes of the lent note
        events = [machine.pick(whole(tree), memory, i)[0] for i in rest]
        first = [event for event in events if event in (9, 10)][:1]
        seen["note"]["counted"] += note > 0 and first == [9]
        seen["note"]["dropped"] += note > 0 and first == [10]


# ---- last rules and send-backs


def marked(thread):
    """The registers of a thread's read log."""
    return [v for v in range(64) if thread.reads >> v & 1]


def made_stale(memory, i, n):
    """A change that makes a register stale which thread i has read, so many COMMITs being passed: the table's count higher or the log's lower. None
    if there is none."""
    thread = memory.threads[i]
    table = ["count %d %d" % (v, rng.randint(memory.counts[v] + 1, n)) for v in marked(thread) if memory.counts[v] < n]
    log = ["thread %d readcount %d %d" % (i, v, rng.randrange(thread.readcount[v])) for v in marked(thread) if thread.readcount[v] > 0]
    return rng.choice(table + log) if table + log else None


def some_rule():
    return rng.choice((0, rng.randint(1, 9), rng.randint(10, 73), 74, 255, rng.randrange(2**64), 2**64 - 1))


def backs_of(kind, code, memory):
    """Changes of this kind, as far as there are such, the last of which matters:
    `above`: a thread's send-backs above the COMMITs passed; `equal`: equal to them, none of its reads being stale; `equal stale`: one being stale;
    `below stale`: another number below them, one being stale; `none passed`: no COMMIT is passed, and the count of a read register is another one;
    `rule`: another rule of a thread; `blank backs`, `blank rule`: in a record of no thread."""
    threads, n = existing(memory), passed(code, memory)
    i = rng.choice(threads)
    thread, change = memory.threads[i], made_stale(memory, i, n)
    if kind == "above":
        return ["thread %d backs %d" % (i, rng.choice((n + 1, n + 1, n + 1, n + 2, n + rng.randint(3, 300), 2**64 - 1)))]
    if kind == "equal" and n > thread.backs and not machine.has_stale(thread, memory.counts):
        return ["thread %d backs %d" % (i, n)]
    if kind in ("equal stale", "below stale") and change:
        changes = [] if machine.has_stale(thread, memory.counts) else [change]
        if kind == "equal stale":
            return changes + ["thread %d backs %d" % (i, n)]
        if n > 1:
            return changes + ["thread %d backs %d" % (i, rng.choice([k for k in range(n) if k != thread.backs]))]
    if kind == "none passed" and n == 0 and marked(thread):
        return ["count %d %d" % (rng.choice(marked(thread)), rng.choice((1, 1, 2)))]
    if kind == "rule":
        return ["thread %d rule %d" % (i, some_rule())]
    if kind.startswith("blank") and len(threads) < 16 and n > 0:
        i = rng.choice((len(threads), 15, rng.randrange(len(threads), 16)))
        return ["thread %d backs %d" % (i, rng.choice((1, 1, n, 2**64 - 1))) if kind == "blank backs" else "thread %d rule %d" % (i, some_rule() or 1)]
    return []


def all_backs(memory, code):
    """Changes of the last rule and the send-backs of every thread, and perhaps of a count."""
    threads, n = existing(memory), passed(code, memory)
    changes = []
    for i in threads:
        changes += ["thread %d rule %d" % (i, some_rule())] if rng.random() < 0.5 else []
        changes.append("thread %d backs %d" % (i, rng.choice((n, n, rng.randint(0, n), rng.randint(0, n), rng.randint(0, n + 1)))))
    change = made_stale(memory, rng.choice(threads), n)
    return changes + ([change] if change and rng.random() < 0.7 else [])


def a_changed(kind, fit, trees, all_of, one_of):
    """A state with such changes, which fits or does not, and without the last one of `one_of` would fit: its tree, the picks before it, its
    code, its memory and the changes."""
    while True:
        tree = rng.choice(trees)()
        picks, _ = schedule(tree, 60)
        setup = picks[: rng.randint(0, len(picks))]
        code, memory = whole(tree), begun(tree, setup)
        changes = all_of(memory, code) if kind == "mixed" else one_of(kind, code, memory)
        if not changes:
            continue
        for change in changes:
            fitted, before = machine.fits(code, memory), memory.numbers()
            machine.change(bytearray(), memory, change)
        if before != memory.numbers() and machine.fits(code, memory) == fit and (fitted or kind == "mixed"):
            return tree, setup, code, memory, changes


def a_backs(kind, fit):
    """A case of a state with such changes, which fits or does not, and without the last one of `backs_of` would fit."""
    tree, setup, code, memory, changes = a_changed(kind, fit, (busy, contested, any_tree), all_backs, backs_of)
    # the thread concerned, or all that have not ended in turns
    i = int(changes[-1].split()[1]) if changes[-1].startswith("thread") else 0
    live = [i for i in existing(memory) if memory.threads[i].place != memory.threads[i].end]
    command = rng.choice(("run", "run", "step"))
    rest = [i] if command == "step" else [i] * 20 if i in live and kind != "mixed" else live * 5
    said = state("backs", command, tree, setup, ", ".join(changes), rest)
    assert (said == "refused 12 at 0 kept") != fit
    seen["backs"][kind + (" fits" if fit else " foreign")] += 1
    if fit:
        for i in rest:
            lent = i < 16 and memory.threads[i].backs > 0
            event = machine.pick(code, memory, i)[0]
            seen["backs"]["lent, commit"] += lent and event == 9
            seen["backs"]["lent, sent back"] += lent and event == 10


def rule_in_a_step(wanted):
    """A tree, the picks before a step and the step's pick, the step having this event, its thread having been sent back before, and if it is
    sent back again, with two stale registers or more."""
    while True:
        tree = contested()
        picks, events = schedule(tree, 60)
        code, memory, found = whole(tree), begun(tree, []), []
        for k, i in enumerate(picks):
            if events[k] == wanted and i < 16 and memory.threads[i].backs > 0:
                if wanted != 10 or sum(machine.is_stale(memory.threads[i], v, memory.counts) for v in range(64)) > 1:
                    found.append(k)
            machine.pick(code, memory, i)
        if found:
            k = rng.choice(found)
            return tree, picks[:k], picks[k : k + 1]


# ---- counts


def resting():
    """Threads that read two registers and write numbers to them that are often there already, or come back."""
    def tran():
        v = rng.choice((0, 40))
        return rng.choice((write(v, valt(rng.choice((0, 0, 5)))), write(v, jobs.read(v)), addt(jobs.read(0), jobs.read(40)), write(9, jobs.read(v))))

    def several():
        return joined([atomic(tran()) for _ in range(rng.randint(1, 3))])

    return joined([several(), fork(several()), *(fork(several()) for _ in range(rng.randint(0, 2)))])


def returned(tree, picks):
    """The places of those picks that are sent back with a register whose value is the one that was read."""
    code, memory, out = whole(tree), begun(tree, []), []
    for k, i in enumerate(picks):
        read = list(memory.threads[min(i, 16)].readlog)
        event, v, *_ = machine.pick(code, memory, i)
        if event == 10 and read[v] == memory.registers[v]:
            out.append(k)
    return out


def coming_back():
    """A tree and picks with such a place, and the places."""
    while True:
        tree = resting()
        picks, _ = schedule(tree, 80)
        places = returned(tree, picks)
        if places:
            return tree, picks, places


def counts_of(kind, code, memory):
    """Changes of this kind, as far as there are such, the last of which matters:
    `at commits`, `above commits`: a count of the table equal to the COMMITs passed, above them; `lower`: a count of the table lower than it is;
    `log at table`, `log ahead`: a count of a read log raised to the table's, above it; `log below`: lower than the table's;
    `below, equal backs`: the same, the send-backs being equal to the COMMITs passed; `value`: another value in table or log, the counts being as they are;
    `unmarked`, `outside`, `blank`: a count of a read log where its register is unmarked, no transaction is open, there is no such thread."""
    threads, n = existing(memory), passed(code, memory)
    i, v = rng.choice(threads), rng.choice((0, 40, rng.randrange(64)))
    if kind == "at commits" and memory.counts[v] < n:
        return ["count %d %d" % (v, n)]
    if kind == "above commits":
        return ["count %d %d" % (v, rng.choice((n + 1, n + 1, n + 1, n + 2, 2**32 - 1)))]
    if kind == "lower" and memory.counts[v] > 0:
        return ["count %d %d" % (v, rng.randrange(memory.counts[v]))]
    if kind in ("unmarked", "outside", "blank") and n > 0:
        if kind == "blank":
            i = rng.choice((len(threads), 15, rng.randrange(len(threads), 16))) if len(threads) < 16 else i
        thread = memory.threads[i]
        if kind == ("blank" if not thread.start else "outside" if not thread.begin else "marked" if v in marked(thread) else "unmarked"):
            changes = [] if memory.counts[v] else ["count %d 1" % v]
            return changes + ["thread %d readcount %d %d" % (i, v, rng.choice((1, 1, memory.counts[v] or 1)))]
    thread = memory.threads[i]
    if not marked(thread):
        return []
    v = rng.choice(marked(thread))
    table, log = memory.counts[v], thread.readcount[v]
    if kind == "log at table" and log < table:
        return ["thread %d readcount %d %d" % (i, v, table)]
    if kind == "log at table" and table < n:
        return ["count %d %d" % (v, n), "thread %d readcount %d %d" % (i, v, n)]
    if kind == "log ahead":
        return ["thread %d readcount %d %d" % (i, v, rng.choice((table + 1, table + 1, table + 1, table + 2, 2**32 - 1)))]
    if kind == "log below" and log > 0:
        return ["thread %d readcount %d %d" % (i, v, rng.randrange(log))]
    if kind == "below, equal backs" and made_stale(memory, i, n):
        return ["thread %d backs %d" % (i, n), made_stale(memory, i, n)]
    if kind == "value":
        value = machine.wrap(thread.readlog[v] + rng.choice((1, -1, 1000)))
        return [rng.choice(("register %d %d" % (v, value), "thread %d readlog %d %d" % (i, v, value)))]
    return []


def all_counts(memory, code):
    """Changes of many counts of the table, and of those of the read logs, mostly up to what fits."""
    n, changes = passed(code, memory), []
    table = {v: rng.randint(0, n) if rng.random() < 0.97 else n + 1 for v in (0, 40, 63, rng.randrange(64))}
    changes += ["count %d %d" % item for item in table.items()]
    for i in existing(memory):
        for v in marked(memory.threads[i]):
            most = table.get(v, memory.counts[v])
            changes.append("thread %d readcount %d %d" % (i, v, rng.choice((most, most, rng.randint(0, most))) if rng.random() < 0.97 else most + 1))
    return changes


def a_count(kind, fit):
    """A case of a state with such changes, which fits or does not, and without the last one of `counts_of` would fit."""
    tree, setup, code, memory, changes = a_changed(kind, fit, (busy, contested, resting), all_counts, counts_of)
    # the thread concerned, or all that have not ended in turns
    i = int(changes[-1].split()[1]) if changes[-1].startswith("thread") else 16
    live = [i for i in existing(memory) if memory.threads[i].place != memory.threads[i].end]
    command = rng.choice(("run", "run", "step"))
    rest = [i if i < 16 else rng.choice(live or [0])] if command == "step" else [i] * 12 if i in live and kind != "mixed" else live * 5
    said = state("counts", command, tree, setup, ", ".join(changes), rest)
    assert (said == "refused 12 at 0 kept") != fit
    seen["counts"][kind + (" fits" if fit else " foreign")] += 1
    if fit:
        for i in rest:
            thread = memory.threads[i]
            other = any(thread.readlog[v] != memory.registers[v] for v in marked(thread))
            event = machine.pick(code, memory, i)[0]
            seen["counts"]["another value, commit"] += other and event == 9
            seen["counts"]["the same values, sent back"] += not other and event == 10


def tally(tree, picks):
    """Runs the picks, and holds counts and send-backs to a tally that knows no counts: of each register the picks whose commits wrote it, by the WRITEs
    done since BEGIN; of each attempt when a register was first read from the table."""
    code, memory = whole(tree), begun(tree, [])
    wrote, read, writes = defaultdict(list), defaultdict(dict), defaultdict(set)
    for k, i in enumerate(picks):
        thread = memory.threads[min(i, 16)]
        op, operand = machine.instruction(code, thread.place)[:2] if i < 16 and thread.start and thread.place != thread.end else (0, 0)
        event, register, *_ = machine.pick(code, memory, i)
        assert (event == 0) == (op == 0)
        if op == 3 and operand not in writes[i]:
            read[i].setdefault(operand, k)
        elif op == 4:
            writes[i].add(operand)
        elif op == 6:
            stale = [v for v in sorted(read[i]) if any(at > read[i][v] for at in wrote[v])]
            assert (event, register) == ((10, stale[0]) if stale else (9, 0))
            for v in () if stale else writes[i]:
                wrote[v].append(k)
            read[i], writes[i] = {}, set()
            seen["tally"]["sent back" if stale else "commits"] += 1
        assert memory.counts[:64] == [len(wrote[v]) for v in range(64)]
        for j in existing(memory):
            assert memory.threads[j].readcount == [sum(at < read[j][v] for at in wrote[v]) if v in read[j] else 0 for v in range(64)]
    seen["tally"]["runs"] += 1


# ---- texts of formulas

BYTES = b"forkatomic()+-0123456789r:= \n\r\t(+r1"  # what is put into a text to damage it


def some_text(tree):
    """A text of the tree with blanks, superfluous brackets and zeros, or the shortest one."""
    if rng.random() < 0.2:
        return formulas.printed(tree)
    return formulas.spaced(formulas.words_of(tree, rng, rng.choice((0, 0, 0.1, 0.4))), rng, rng.choice((0, 0.1, 0.3)))


def mistyped(text):
    """A byte changed, left out or put in, two neighbours exchanged, or a few left out."""
    at = rng.randrange(len(text))
    byte = bytes([rng.choice(BYTES)])
    return rng.choice(
        (
            text[:at] + byte + text[at + 1 :],
            text[:at] + byte + text[at:],
            text[:at] + text[at + 1 :],
            text[:at] + text[at + 1 : at + 2] + text[at : at + 1] + text[at + 2 :],
            text[:at] + text[at + rng.randint(2, 5) :],
        )
    )


def tower(opened, inside=False):
    """What stands before and behind a term so that so many are open around it, brackets, forks, atomics and writes; and whether it stands in a transaction,
    as the tower does if it is `inside`."""
    before, behind, forks, fresh = [], [], 0, True  # fresh: a sum may begin here
    while opened > 0:
        if fresh and rng.random() < 0.1:
            before += [b"r1" if inside else b"1", b"+"]
            fresh = False
        words = [b"("]
        if inside and fresh and rng.random() < 0.5:
            words = [b"r2", b":="]
        elif not inside and forks < 15 and rng.random() < 0.25:
            words, forks = [formulas.FORK], forks + 1
        elif not inside and opened > 1 and rng.random() < 0.03:
            words, inside = [formulas.ATOMIC, b"("], True
        before += words
        opened -= 2 if words[0] == formulas.ATOMIC else 1
        fresh = words[0] != formulas.FORK
        if words[-1] == b"(":
            behind = [b")"] + ([b"+", b"3"] if rng.random() < 0.05 else []) + behind
    return before, behind, inside


def inmost(inside):
    """A term, or as much as may stand behind `:=` or a bracket; it opens up to two more."""
    words = ("7", "r7", "( 7 )", "r7 := 7", "r7 + 7") if inside else ("7", "fork 7", "( 7 )", "atomic ( 7 )", "7 + 7")
    return rng.choice(words).encode().split()


def high_text(opened):
    """A text in which so many are open somewhere, or up to three more; or two such places, brackets around each."""
    around, behind, inside = tower(opened if rng.random() < 0.5 else rng.randrange(opened - 4))
    left = opened - opened_by(around)
    if left == 0:
        parts = inmost(inside)
    else:
        parts = [b"("]
        for sign in ((), (b"+",)):
            before, after, within = tower(left - rng.choice((1, 2, 2, 3)), inside)
            parts += [*sign, b"(", *before, *inmost(within), *after, b")"]
        parts += [b")"]
    return formulas.spaced(around + parts + behind, rng, rng.choice((0, 0, 0, 0.1)))


def opened_by(words):
    """How many are open behind these words, of which none is closed."""
    return sum(word in (b"(", b":=", formulas.FORK, formulas.ATOMIC) for word in words)


def limit_number():
    """Digits of a number at or near the end of the range."""
    near, any_one = rng.randrange(2**31 - 5, 2**31 + 5), rng.randrange(10**11)
    n = rng.choice((2147483647, 2147483648, 2147483649, 214748364, 2**32, 2**32 + 1, 2**31 + 10, near, near, any_one))
    return rng.choice((b"", b"-")) + b"0" * rng.choice((0, 0, 1, 5, 30)) + b"%d" % n


def limit_register():
    """A register at or near the end of the range."""
    v = rng.choice((0, 59, 62, 63, 64, 65, rng.randrange(64), rng.randrange(60, 70), rng.randrange(1000), 2**32, 2**64 + 1))
    return b"r" + b"0" * rng.choice((0, 0, 1, 5, 30)) + b"%d" % v


def limit_text():
    """A short text with such a number or register."""
    n, v = limit_number(), limit_register()
    parts = rng.choice((
        "{n}", "1 + {n}", "( {n} ) + 1", "fork {n}", "atomic ( {n} )", "atomic ( {v} )", "atomic ( {v} := 1 )", "atomic ( r1 := {v} )", "atomic ( 1 + {v} )",
        "atomic ( {v} := {v} + {n} )",
    )).format(n=n.decode(), v=v.decode()).encode().split()
    return formulas.spaced(parts, rng, rng.choice((0, 0.1)))


# ---- the cases


def a_formula(kind, text, size=None):
    """A text in an output of this size. Where none is given, it is as long as the job or longer."""
    answer = formulas.formula(text, 6000)
    if size is None:
        size = rng.choice((0, 20, 100)) if answer[0] == "refused" else room(len(answer))
    answer = formulas.formula(text, size)
    add("formula", "formula %d %s" % (size, kind), formulas.to_text(text), jobs.show_output("job", answer))
    number = answer[1] if answer[0] == "refused" else 0
    seen["formula"][number] += 1
    seen[kind + " formula"][number] += 1
    if number == 15:
        seen["places of 15"]["the end" if answer[2] == len(text) else repr(chr(text[answer[2]]))[1:-1]] += 1


def the_formulas():
    cases.section("formulas: texts of trees")
    for _ in range(110):
        a_formula("tree", some_text(any_tree()))
    for k in range(6):
        for tree in (sixteen(), deep(62 + k), around(198 + k), large(rng.choice((70, 150)))):
            a_formula("large", some_text(tree))
    cases.section("formulas: outputs that are too short")
    for _ in range(30):
        tree = small()
        n = len(job(tree))
        a_formula("short", some_text(tree), rng.choice((n - 1, 0, rng.randrange(n))))
    cases.section("formulas: texts that are mistyped, in one place or in two")
    for k in range(200):
        text = mistyped(some_text(any_tree()))
        a_formula("mistyped", mistyped(text) if k % 3 == 0 and text else text)
    cases.section("formulas: 58 to 68 open")
    for k in range(88):
        a_formula("open", high_text(58 + k % 11))
    cases.section("formulas: 1 to 700 terms")
    for n in (1, 2, 3, 63, 64, 65, 66, 100, 300, 500, 501, 700):
        terms = [rng.choice((valp(rng.randrange(10)), valp(1), atomic(jobs.read(3)))) if n < 200 else valp(rng.randrange(10)) for _ in range(n)]
        a_formula("terms", b"+".join(map(formulas.printed, terms)))
        a_formula("terms", formulas.printed(jobs.flat(addp, terms)))
    for n in (1, 2, 62, 63, 64, 100, 101, 150):
        terms = [rng.choice((valt(rng.randrange(10)), jobs.read(rng.randrange(10)))) for _ in range(n)]
        a_formula("terms", b"atomic(" + b"+".join(map(formulas.printed, terms)) + b")")
        a_formula("terms", formulas.printed(atomic(jobs.flat(addt, terms))))
    cases.section("formulas: numbers and registers near the ends of their ranges")
    for _ in range(80):
        a_formula("limit", limit_text())


def a_job(data, size=None):
    """A job is read, or compiled into an output of this size."""
    if size is None:
        add("damaged job" if jobs.read_job(data)[0] == "refused" else "job", "job", data.hex(), jobs.show(jobs.read_job(data)))
        return
    answer = jobs.compile_job(data, size)
    kind = ("short tray" if answer[1] == 10 else "damaged job") if isinstance(answer, tuple) else "job"
    add(kind, "compile %d" % size, data.hex(), jobs.show_output("code", answer))


def a_code(code, size, kind=""):
    answer = jobs.read_back(code, size)
    said = {10: "short tray", 11: "damaged code"}[answer[1]] if isinstance(answer, tuple) else "code"
    add(said, ("back %d %s" % (size, kind)).strip(), code.hex(), jobs.show_output("job", answer))


def a_forecast(data):
    """The forecast of a job; of an accepted one its figures are compared with its code and a finished run."""
    answer = jobs.forecast(data)
    if answer[0] == "refused":
        add("damaged forecast", "forecast", data.hex(), jobs.show_forecast(answer))
        seen["forecast"]["refused %d" % answer[1]] += 1
        return
    compare_run(jobs.tree_at(data, 7)[0], answer)
    add("forecast", "forecast", data.hex(), jobs.show_forecast(answer))


def compare_run(tree, answer):
    """Runs the tree's code until all threads have ended, and compares what that shows with a forecast."""
    length, k, t, l, m, bound, reads, writes, heights = answer
    code, memory = whole(tree), machine.Memory()
    machine.call_fresh(code, memory)
    # by the start of a thread's code its greatest height; by its number the instructions of its attempt
    highest, attempt = Counter(), Counter()
    commits = steps = back = longest = 0
    named = {3: set(), 4: set()}
    while live := [i for i in range(16) if memory.threads[i].start and memory.threads[i].place != memory.threads[i].end]:
        i = rng.choice(live)
        thread = memory.threads[i]
        op, operand, _ = machine.instruction(code, thread.place)
        event = machine.pick(code, memory, i)[0]
        highest[thread.start] = max(highest[thread.start], thread.height)
        steps += 1
        if op in named:
            named[op].add(operand)
        attempt[i] = 1 if op == 5 else attempt[i] + 1
        if op == 6:
            longest = max(longest, attempt[i])
            commits += event == 9
            back += event == 10
    assert (length, k, m, l) == (len(code), commits, longest, len(op_places(code)))
    assert t == len(highest) == sum(memory.threads[i].start != 0 for i in range(16))
    assert (set(reads), set(writes)) == (named[3], named[4])
    assert heights == [highest[start] for start in [5] + [at + 3 for at in op_places(code) if code[at] == 7]]
    assert l < steps <= bound if back else steps == l
    assert back == sum(memory.threads[i].backs for i in range(16))
    note = seen["forecast"]
    note["sent back"] += back > 0
    for name, n in (("no transaction", k == 0), ("several transactions", k > 1), ("several threads", t > 1), ("a greater bound", bound > l)):
        note[name] += n


def room(n):
    """A size of an output in which n bytes have room."""
    return n + rng.choice((0, 0, 0, 1, 2, 50))


def the_jobs():
    cases.section("jobs that are accepted, and their code")
    for k in range(360):
        data = job(any_tree())
        a_job(data, None if k % 3 == 0 else room(jobs.read_job(data)[2]))
    cases.section("outputs that are too short")
    for k in range(40):
        tree = small()
        n = len(whole(tree))
        a_job(job(tree), rng.choice((n - 1, 0, rng.randrange(n))))
        n = len(job(tree))
        a_code(whole(tree), rng.choice((n - 1, 0, rng.randrange(n))))


def the_damaged_jobs():
    cases.section("jobs that are turned down")
    data = job(jobs.WHOLE)
    damaged = [data[:n] for n in range(len(data))] + [changed(data, at) for at in range(7)]
    damaged += [damaged_job(number) for number in JOB_DAMAGE for _ in range(32)]
    while len(damaged) < 400:
        data = unlike(job(any_tree()))
        if jobs.read_job(data)[0] == "refused":
            damaged.append(data)
    for data in damaged:
        seen["test"][test_of(data)] += 1
        seen["places of %d" % jobs.read_job(data)[1]][jobs.read_job(data)[2]] += 1
        a_job(data, rng.choice((None, None, 0, 100)))


def the_codes():
    cases.section("code that is read back")
    for _ in range(320):
        tree = any_tree()
        a_code(whole(tree), room(len(job(tree))))
    for _ in range(20):  # of another job
        code = b""
        while jobs.job_of(code) is None:
            code = unlike(whole(small()))
        a_code(code, room(len(jobs.job_of(code))), "other")


def the_damaged_codes():
    cases.section("foreign code")
    for k in range(330):
        kind = rng.choice(("depth", "forks")) if k % 15 == 0 else list(CODE_DAMAGE)[k % 9]
        seen["damage of code"][kind] += 1
        a_code(damaged_code(kind), rng.choice((0, 100, 100)), kind)
    for k in range(66):
        code = damaged_code(rng.choice(("cut", "opcode", "register", "length", "order", "byte", "behind")))
        command = ("fresh", "step", "run")[k % 3]
        said = state("damaged code", command, code, [], rng.choice(("", "", "records 15", "registers 65", "counts 63")), [0] * rng.choice((1, LONG)) if command == "run" else [0])
        assert said == "refused 11 at 0 kept"


def the_states():
    cases.section("fresh states")
    for k in range(45):
        n = rng.randrange(15)
        changes = (
            "",
            "register %d 5, count %d 5, thread %d reads 1, thread %d readcount 0 5" % (n, n, n, n),
            "records %d" % rng.choice((n, 17)),
            "registers %d" % rng.choice((n, 63, 65)),
            "counts %d" % rng.choice((n, 63, 65)),
        )[k % 5]
        said = state("fresh", "fresh", any_tree(), [], changes, [])
        seen["fresh"][said.split(",")[0]] += 1
    cases.section("one step")
    wanted = Counter({event: 30 for event in range(11)})
    while +wanted:
        tree = any_tree()
        picks, events = schedule(tree)
        # the rarest event that is still wanted
        for event in sorted(set(events), key=lambda e: -wanted[e]):
            if wanted[event] > 0:
                wanted[event] -= 1
                k = rng.choice([i for i, e in enumerate(events) if e == event])
                said = state("step", "step", tree, picks[:k], "", picks[k : k + 1])
                assert said.startswith("event %d " % event)
                seen["event"][event] += 1
                break
    cases.section("runs in one call")
    for _ in range(100):
        tree = any_tree()
        picks, events = schedule(tree)
        seen["event in a run"].update(events)
        state("run", "run", tree, [], "", picks)
    cases.section("one field altered: states that do not fit")
    for field in FIELDS:
        if field not in ("over", "rule", "backs"):  # in the_overs and the_rules
            for _ in range(23):
                one_field(False, field)
    cases.section("one field altered: states that fit")
    for field in ("cell", "readlog", "readcount", "writelog", "count", "reads", "writes", "place"):
        for _ in range(10):
            one_field(True, field)
    cases.section("a foreign state comes before a long list")
    for _ in range(6):
        tree = small()
        said = state("long list", "run", tree, [], rng.choice(("thread 0 height 9", "records 15")), [0] * LONG)
        assert said == "refused 12 at 0 kept"


def the_calls():
    cases.section("runs in several calls")
    for k in range(330):
        tree = rng.choice((busy, busy, any_tree))()
        picks, _ = schedule(tree)
        cuts = sorted(rng.randint(0, len(picks)) for _ in range(rng.choice((1, 1, 2, 3, 4))))
        lists = [picks[a:b] for a, b in zip([0] + cuts, cuts + [len(picks)])]
        setup = []
        if k % 10 == 0:
            lists.insert(rng.randrange(len(lists) + 1), [rng.choice((0, 1, 200))] * LONG)
        elif k % 10 == 1:
            setup = lists.pop(0)
            lists.append([rng.choice(picks) for _ in range(3)])
        calls("in calls", tree, setup, lists)


def an_input(data, picks=b"", length=None):
    return (len(data) if length is None else length).to_bytes(2, "big") + data + bytes(picks)


def the_inputs():
    cases.section("inputs of the run program")
    report("whole case", an_input(job(jobs.WHOLE), machine.listed(machine.PICKS)))
    assert cases.answers[-1].endswith("steps 21 idle 0 commits 2 back 1 over 0 / thread 0 done 0 / thread 1 done 2 / thread 2 done 1 / register 0 2 / kept")
    for k in range(170):
        tree = (small, busy, any_tree, many)[k % 4 if k % 20 else 3]()
        picks, _ = schedule(tree, rng.choice((10, 60, 200)))
        data = an_input(job(tree), picks)
        n = len(printed(data))
        report("valid", data, rng.choice((n, n, n + 1, 6000)))
    least = addp(valp(-2147483648), addp(fork(atomic(write(63, valt(-2147483648)))), valp(0)))
    report("least numbers", an_input(job(least), [0] * 9 + [1] * 4))
    for v in (9, 10, 63):
        report("register", an_input(job(atomic(write(v, valt(-v)))), [0] * 4))
    cases.section("inputs with an output that is too short")
    for k in range(40):
        tree = any_tree()
        data = an_input(job(tree), schedule(tree, 60)[0])
        n = len(printed(data))
        report("short", data, rng.choice((n - 1, 0, rng.randrange(n))))
    report("short refusal", b"", 15)
    cases.section("inputs that are cut, or whose length is wrong")
    for n in range(12):
        report("cut", an_input(job(jobs.V))[:n])
    for _ in range(30):
        data = an_input(job(small()))
        report("cut", data[: rng.randrange(len(data))])
    for _ in range(30):
        data = job(small())
        report("length", an_input(data, [0, 1, 0], rng.choice((len(data) - 1, len(data) + 1, rng.randrange(len(data)), len(data) + rng.randint(2, 6), 65535))))
    cases.section("inputs with damaged jobs")
    for k in range(63):
        report("damaged", an_input(damaged_job(k % 9 + 1), [0] * rng.randrange(3)), rng.choice((None, None, 6000)))
    cases.section("inputs with long lists")
    for pick in (0, 1, 200):
        tree = small()
        report("long", an_input(job(tree)), picks=[pick] * LONG)
        report("full", an_input(job(tree)), picks=[pick] * (LONG - 1))
    report("long, cut", an_input(job(jobs.V), length=40000), picks=[0] * LONG)
    for number in range(1, 10):
        report("long, damaged", an_input(damaged_job(number)), picks=[0] * LONG)
    report("longest", an_input(job(jobs.LONG)), picks=[0] * LONG)
    report("longest", an_input(job(jobs.LONG)), picks=[0] * 16384 + [1] * 16384)
    report("beyond", an_input(job(jobs.V)), picks=[0] * 69000)
    report("beyond", b"\xff\xff", picks=[7] * 65534)
    report("beyond", b"\xff\xff", picks=[7] * 65535)


def the_large():
    cases.section("large jobs")
    for most in (70, 90, 150, 1000):
        tree = large(most)
        data, code = job(tree), whole(tree)
        picks, _ = schedule(tree, 4 * most)
        a_job(data, len(code))
        a_code(code, len(data))
        a_job(unlike(data))
        a_code(unlike(code), 6000, "large")
        state("large", "run", tree, picks[:most], "", picks[most:])
        report("large", an_input(data, picks), 6000)
        seen["large"][len(data) // 1000] += 1


def the_forecasts():
    cases.section("forecasts")
    for k in range(300):
        a_forecast(job((small, busy, any_tree, many)[k % 4 if k % 20 else 3]()))
    for most in (70, 150, 300, 1000):
        a_forecast(job(large(most)))
    cases.section("forecasts of jobs that are turned down")
    for number in JOB_DAMAGE:
        for _ in range(10):
            a_forecast(damaged_job(number))


def a_long(call, size):
    """A case of a call, the tree having a transaction of so many nodes."""
    tree = around(size)
    data, code = job(tree), whole(tree)
    picks = [0] if size > 200 else schedule(tree, 300)[0]
    if call == "job":
        a_job(data)
    elif call == "compile":
        a_job(data, 0 if size > 201 else room(len(code)))
    elif call == "back":
        a_code(code, room(len(data)), "long transaction")
    elif call == "forecast":
        a_forecast(data)
    elif call == "report":
        report("long transaction", an_input(data, picks))
    else:
        state("long transaction", call, code if size > 200 else tree, [], "", picks)
    said = cases.answers[-1].rpartition(": ")[2]
    if size <= 200:
        assert "refused" not in said
    elif call in ("back", "fresh", "step", "run"):
        assert said == "refused 11 at 0 kept"
    else:
        place = jobs.read_job(data)[2]
        assert data[place] == 3 and "refused 14 at %d" % place in said
        seen["places of 14"][place] += 1


def the_long():
    cases.section("inputs of the run program with a transaction of 200 and of 201 nodes")
    for tree, size, count, said in (
        (jobs.FULL, None, 202, "prints steps 202 idle 0 commits 1 back 0 over 0 / thread 0 done 0 /"),
        (jobs.TOO_LONG, None, 202, "prints refused 14 at 7 /"),
        (jobs.TOO_LONG, None, LONG, "prints refused 14 at 7 /"),
        (jobs.TOO_LONG, 15, 0, "refused 10 at 0"),
    ):
        report("long transaction", an_input(job(atomic(tree))), size, [0] * count)
        assert cases.answers[-1].endswith(": %s kept" % said)
    cases.section("transactions of about 200 nodes")
    for size in (200, 201, 202):
        for call in ("job", "compile", "back", "forecast", "report", "run"):
            a_long(call, size)
    for call in ("back", "fresh", "step"):
        a_long(call, rng.randint(201, 260))
    cases.section("transactions of more than 200 nodes in jobs that are turned down for another reason")
    for number in (1, 5, 6, 9):
        data = b""
        while not data or jobs.read_job(data)[:2] != ("refused", number):
            data = JOB_DAMAGE[number](job(around(rng.randint(201, 220))))
        a_job(data, rng.choice((None, 0)))


def the_overs():
    cases.section("a note that crosses two calls")
    calls("over", atomic(addt(valt(2147483647), valt(1))), [], [[0] * 4, [0]])
    assert " over 0 | steps 1 idle 0 commits 1 back 0 over 1, thread 0 done -2147483648 rule 9 backs 0, sum " in cases.answers[-1]
    cases.section("one step: sums that leave the range, commits and send-backs with a note")
    for word in ("outside", "noted", "counted", "dropped"):
        for _ in range(15):
            tree, picks = showing(word)
            k = rng.choice([k for k, shown in enumerate(told(tree, [picks])) if shown == word])
            state("over", "step", tree, picks[:k], "", picks[k : k + 1])
            seen["over in a step"][word] += 1
    cases.section("runs in one call with sums that leave the range")
    for k in range(60):
        tree, picks = showing(("outside", "counted", "dropped")[k % 3])
        seen["over in a run"].update(filter(None, told(tree, [picks])))
        state("over", "run", tree, [], "", picks)
    for _ in range(10):
        tree, picks = showing("counted")
        state("over", "cut", tree, [], "", picks[:25])
    cases.section("runs in several calls with sums that leave the range")
    for k in range(60):
        word = ("counted later", "counted later", "dropped later")[k % 3]
        while True:
            tree, picks = showing(word.split()[0])
            cuts = sorted(rng.randint(0, len(picks)) for _ in range(rng.choice((1, 2, 3))))
            lists = [picks[a:b] for a, b in zip([0] + cuts, cuts + [len(picks)])]
            shown = told(tree, lists)
            if word in shown:
                break
        seen["over in calls"].update(filter(None, shown))
        calls("over", tree, [], lists)
    cases.section("another note alone: states that do not fit")
    for _ in range(12):
        one_field(False, "over")
    for kind in ("high", "outside", "blank"):
        for _ in range(16):
            a_note(kind)
    cases.section("another note alone: states that fit")
    for kind in ("lower", "higher"):
        for _ in range(25):
            a_note(kind)
    cases.section("inputs of the run program with sums that leave the range")
    for k in range(30):
        tree, picks = showing(("outside", "counted", "dropped")[k % 3])
        report("over", an_input(job(tree), picks))
    tree = jobs.balanced(addp, valp(-2147483648), 500)
    report("over", an_input(job(tree)), picks=[0] * 999)
    assert cases.answers[-1].endswith(": prints steps 999 idle 0 commits 0 back 0 over 250 / thread 0 done 0 / kept")


def the_rules():
    cases.section("the whole case in five calls: a COMMIT of an earlier call, a send-back in another one than the commit")
    calls("backs", jobs.WHOLE, [], [[0, 0, 0, 1, 1], [2] * 6, [1, 1, 1], [1], [1] * 6])
    assert cases.answers[-1].partition(": ")[2].startswith(
        "steps 5 idle 0 commits 0 back 0 over 0 | steps 6 idle 0 commits 1 back 0 over 0, count 0 1 | steps 3 idle 0 commits 0 back 0 over 0, count 0 1 | "
        "steps 1 idle 0 commits 0 back 1 over 0, count 0 1 | steps 6 idle 0 commits 1 back 0 over 0, count 0 2, "
        "thread 0 done 0 rule 2 backs 0, thread 1 done 2 rule 9 backs 1, thread 2 done 1 rule 9 backs 0, register 0 2, count 0 2, sum "
    )
    cases.section("one step of a thread that was sent back before")
    for event in range(11):
        for _ in range(3):
            tree, setup, pick = rule_in_a_step(event)
            said = state("rule", "step", tree, setup, "", pick)
            assert said.startswith("event %d " % event)
            seen["rule in a step"][event] += 1
    cases.section("runs in several calls with send-backs in two of them or more")
    for _ in range(24):
        while True:
            tree = rng.choice((busy, contested))()
            picks, events = schedule(tree, 80)
            cuts = sorted(rng.randint(0, len(picks)) for _ in range(rng.choice((1, 2, 3))))
            edges = [0, *cuts, len(picks)]
            if sum(10 in events[a:b] for a, b in zip(edges, edges[1:])) > 1:
                break
        lists = [picks[a:b] for a, b in zip(edges, edges[1:])]
        calls("backs", tree, [], lists)
        backs = [record.backs for record in begun(tree, picks).threads[:16]]
        seen["backs in calls"]["several threads"] += sum(n > 0 for n in backs) > 1
        seen["backs in calls"]["a thread twice"] += max(backs) > 1
    cases.section("another last rule or number of send-backs: states that do not fit")
    for field in ("rule", "backs"):
        for _ in range(6):
            one_field(False, field)
    for kind in ("above", "equal stale", "none passed", "blank backs", "blank rule"):
        for _ in range(11):
            a_backs(kind, False)
    cases.section("another last rule or number of send-backs: states that fit")
    for kind in ("equal", "below stale", "rule"):
        for _ in range(11):
            a_backs(kind, True)
    cases.section("other last rules and numbers of send-backs of every thread")
    for _ in range(20):
        a_backs("mixed", True)
        a_backs("mixed", False)


def the_counts():
    cases.section("A-B-A and the same value in several calls")
    calls("counts", machine.A_B_A, [], [[0, 0, 1, 1], [2] * 8, [1, 1], [1] * 4 + [2, 0]])
    assert cases.answers[-1].partition(": ")[2].startswith(
        "steps 4 idle 0 commits 0 back 0 over 0 | steps 8 idle 0 commits 2 back 0 over 0, count 0 2 | steps 2 idle 0 commits 0 back 1 over 0, count 0 2 | "
        "steps 6 idle 0 commits 1 back 0 over 0, count 0 2, count 1 1, "
        "thread 0 done 0 rule 2 backs 0, thread 1 done 0 rule 9 backs 1, thread 2 done 5 rule 2 backs 0, count 0 2, count 1 1, sum "
    )
    calls("counts", machine.SAME, [], [[0, 0, 1, 1], [2] * 4, [1, 1], [1] * 4 + [0]])
    assert " | steps 2 idle 0 commits 0 back 1 over 0, count 0 1 | steps 5 idle 0 commits 1 back 0 over 0, count 0 1, count 1 1, " in cases.answers[-1]
    cases.section("one step: sent back with the value that was read")
    for _ in range(16):
        tree, picks, places = coming_back()
        k = rng.choice(places)
        said = state("counts", "step", tree, picks[:k], "", picks[k : k + 1])
        assert said.startswith("event 10 ")
        seen["counts"]["came back in a step"] += 1
    cases.section("runs in one call and in several with such a send-back")
    for k in range(36):
        tree, picks, places = coming_back()
        if k % 6 == 0:
            state("counts", "cut", tree, [], "", picks[:25])
            continue
        cuts = sorted(rng.randint(0, len(picks)) for _ in range(rng.choice((0, 1, 2, 3))))
        calls("counts", tree, [], [picks[a:b] for a, b in zip([0] + cuts, cuts + [len(picks)])])
        seen["counts"]["came back in calls"] += 1
    cases.section("other counts: states that do not fit")
    for kind in ("above commits", "lower", "log ahead", "below, equal backs", "unmarked", "outside", "blank"):
        for _ in range(10):
            a_count(kind, False)
    cases.section("other counts: states that fit")
    for kind in ("at commits", "lower", "log at table", "log below", "value"):
        for _ in range(10):
            a_count(kind, True)
    cases.section("many other counts")
    for _ in range(15):
        a_count("mixed", True)
        a_count("mixed", False)
    cases.section("inputs of the run program with such a send-back")
    report("A-B-A", an_input(job(machine.A_B_A), [0, 0, 1, 1] + [2] * 8 + [1, 1]))
    assert cases.answers[-1].endswith(": prints steps 14 idle 0 commits 2 back 1 over 0 / thread 0 open / thread 1 open / thread 2 open / kept")
    report("same value", an_input(job(machine.SAME), [0, 0, 1, 1, 2, 2, 2, 2, 1, 1]))
    assert cases.answers[-1].endswith(": prints steps 10 idle 0 commits 1 back 1 over 0 / thread 0 open / thread 1 open / thread 2 done 0 / kept")
    for _ in range(10):
        tree, picks, _ = coming_back()
        report("came back", an_input(job(tree), picks))


def the_tally():
    for k in range(600):
        tree = (busy, contested, resting, any_tree)[k % 4]()
        picks, _ = schedule(tree, 120)
        tally(tree, picks)
        seen["tally"]["sent back, the value the same"] += len(returned(tree, picks))


def check():
    """All that the cases are to have."""
    for kind in ("job", "damaged job", "code", "damaged code", "in calls", "foreign state", "input", "forecast"):
        assert kinds[kind] >= 300, (kind, kinds[kind])
    tests = ["1 fewer than 7", "1 no byte", "1 operand", *"2345678", "9 count used up", "9 nodes", "9 bytes"]
    assert sorted(seen["test"]) == sorted(tests) and min(seen["test"].values()) >= 5, seen["test"]
    assert set(range(32)) <= set(seen["places of 1"])
    for number, place in ((2, 0), (3, 3), (4, 5)):
        assert set(seen["places of %d" % number]) == {place}
    for number, least in ((5, 10), (6, 10), (7, 10), (8, 5), (9, 10), (14, 2)):
        assert len(seen["places of %d" % number]) >= least, (number, seen["places of %d" % number])
    assert set(seen["damage of code"]) == set(CODE_DAMAGE) and min(seen["damage of code"].values()) >= 5
    assert set(seen["event"]) == set(seen["event in a run"]) == set(range(11))
    assert set(seen["foreign state"]) == set(FIELDS)
    assert set(seen["fresh"]) == {"laid", "refused 12 at 0 kept"}
    for name in ("refused", "taken", "sent back", "sent back in an earlier call", "left open", "of 2", "of 3", "of 4", "of 5"):
        assert seen["calls"][name] >= 10, (name, seen["calls"])
    for name in ("no transaction", "several transactions", "several threads", "a greater bound", "sent back", *("refused %d" % n for n in JOB_DAMAGE)):
        assert seen["forecast"][name] >= 10, (name, seen["forecast"])
    for part, ends in (("a step", ("counted", "dropped")), ("a run", ("counted", "dropped")), ("calls", ("counted", "counted later", "dropped later"))):
        for word in ("outside", "noted", *ends):
            assert seen["over in " + part][word] >= 5, (part, word, seen["over in " + part])
    for kind in ("high", "outside", "blank", "lower", "higher", "counted", "dropped"):
        assert seen["note"][kind] >= 3, (kind, seen["note"])
    assert set(seen["rule in a step"]) == set(range(11))
    for kind in ("above foreign", "equal stale foreign", "none passed foreign", "blank backs foreign", "blank rule foreign", "equal fits", "below stale fits",
                 "rule fits", "mixed fits", "mixed foreign", "lent, commit"):
        assert seen["backs"][kind] >= 10, (kind, seen["backs"])
    assert seen["backs"]["lent, sent back"] >= 3, seen["backs"]
    for name in ("several threads", "a thread twice"):
        assert seen["backs in calls"][name] >= 3, (name, seen["backs in calls"])
    assert kinds["backs"] + kinds["rule"] >= 180
    for kind in ("above commits foreign", "lower foreign", "log ahead foreign", "below, equal backs foreign", "unmarked foreign", "outside foreign",
                 "blank foreign", "at commits fits", "lower fits", "log at table fits", "log below fits", "value fits", "mixed fits", "mixed foreign",
                 "came back in a step", "came back in calls", "another value, commit", "the same values, sent back"):
        assert seen["counts"][kind] >= 5, (kind, seen["counts"])
    for name, least in (("runs", 500), ("commits", 1000), ("sent back", 150), ("sent back, the value the same", 30)):
        assert seen["tally"][name] >= least, (name, seen["tally"])
    assert kinds["formula"] >= 500 and set(seen["formula"]) == {0, 4, 7, 8, 10, 14, 15} and min(seen["formula"].values()) >= 3, seen["formula"]
    for kind, numbers in (("tree", (0,)), ("short", (10,)), ("mistyped", (0, 15)), ("open", (0, 15)), ("terms", (0, 7)), ("limit", (0, 15))):
        assert all(seen[kind + " formula"][number] >= 5 for number in numbers), (kind, seen[kind + " formula"])
    for name in ("the end", *"():=afr9"):
        assert seen["places of 15"][name] >= 1, (name, seen["places of 15"])
    for name in ("short", "longer", "steps", "idle", "commits", "back", "over", "thread open", "thread negative", "thread least", "thread of two digits",
                 "register negative", "register least", "register of two digits", *("refused %d" % n for n in (1, 2, 3, 4, 5, 6, 7, 8, 9, 13, 14))):
        assert seen["report"][name] >= 1, (name, seen["report"])


def main(seed=SEED, folder=HERE):
    rng.seed(int(seed))
    for stated in (jobs, machine, formulas):
        stated.make()
        cases.lines += stated.cases.lines + [""]
        cases.answers += stated.cases.answers
    cases.lines.append("# Random cases of every call.")
    for part in (
        the_jobs, the_damaged_jobs, the_codes, the_damaged_codes, the_states, the_calls, the_inputs, the_large, the_forecasts, the_overs, the_long, the_rules,
        the_counts, the_tally, the_formulas,
    ):
        part()
    check()
    cases.save(folder, ROOM)
    for name, counted in (("kinds", kinds), *seen.items()):
        print(name + ":", ", ".join("%s %d" % (key, counted[key]) for key in sorted(counted, key=str)))


if __name__ == "__main__":
    main(*sys.argv[1:])

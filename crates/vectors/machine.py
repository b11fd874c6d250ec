"""Cases of fresh, step and run, for cases.py, which writes them.

The machine here is a second implementation, written from documents 01 and 02; the fields of a record and the numbers of the events are those of the library's interface. Jobs, their code and what code is foreign come from the
second implementation in jobs.py. Where a case states its answer by hand, the two are compared before anything is written.
"""
import copy
import random
import re

import jobs
from jobs import addp, addt, atomic, chain, fork, job, job_of, nodes, read, valp, valt, whole, write

# ---- the machine

SCALARS = ("start", "end", "place", "height", "begin", "base", "over", "reads", "writes", "rule", "backs")
ARRAYS = ("cell", "readlog", "readcount", "writelog")


SIZES = (64, 64, 16)  # registers, counts and records of a state


class Record:
    """A thread record. A thread exists if its start is not 0."""

    def __init__(self, number=0):
        for name in SCALARS:
            setattr(self, name, number)
        for name in ARRAYS:
            setattr(self, name, [number] * 64)

    def numbers(self):
        out = [getattr(self, name) for name in SCALARS]
        for name in ARRAYS:
            out += getattr(self, name)
        return out


class Memory:
    """65 registers, 65 counts, which say how often commits have written a register, and 17 records; of each the first so many are lent."""

    def __init__(self):
        self.registers = [-7] * 65
        self.counts = [7] * 65
        self.threads = [Record(7) for _ in range(17)]
        self.lent_registers = 64
        self.lent_counts = 64
        self.lent_records = 16

    def lent(self):
        """Of how many registers, counts and records the state is."""
        return self.lent_registers, self.lent_counts, self.lent_records

    def numbers(self):
        out = self.registers + self.counts
        for record in self.threads:
            out += record.numbers()
        return out


def wrap(n):
    """A number in 32 bits, two's complement."""
    return (n + 2**31) % 2**32 - 2**31


def outside(n):
    """1 if the number is outside the signed 32-bit range, else 0."""
    return int(not -2147483648 <= n <= 2147483647)


OPERAND = jobs.OPERANDS


def instruction(code, place):
    """(opcode, operand, place behind it)."""
    op = code[place]
    behind = place + 1 + OPERAND[op]
    return op, int.from_bytes(code[place + 1 : behind], "big", signed=op == 1), behind


def walk(code, start, end):
    """The places of the thread that owns this code: place, stack height, the open transaction's BEGIN, the height there and the ADDs
    passed since, or None, the child code of the FORKs passed, and the COMMITs passed. The last one is the end."""
    points, height, note, passed, commits, at = [], 0, None, [], 0, start
    while True:
        points.append((at, height, note, list(passed), commits))
        if at == end:
            return points
        op, operand, behind = instruction(code, at)
        if op in (1, 3):
            height += 1
        elif op == 2:
            height -= 1
            if note is not None:
                note = (*note[:2], note[2] + 1)
        elif op == 5:
            note = (at, height, 0)
        elif op == 6:
            note = None
            commits += 1
        elif op == 7:
            height += 1
            passed.append((behind, behind + operand))
            behind += operand
        at = behind


def is_stale(record, v, counts):
    """Whether a commit wrote the register after it entered the read log: it is there with another count than the table's."""
    return record.reads >> v & 1 == 1 and record.readcount[v] != counts[v]


def has_stale(record, counts):
    return any(is_stale(record, v, counts) for v in range(64))


def commits_passed(code, threads):
    """The COMMITs passed by all threads, each in its own code up to its place."""
    return sum(point[4] for record in threads for point in walk(code, record.start, record.end) if point[0] == record.place)


def fits(code, memory):
    if memory.lent() != SIZES:
        return False
    records = memory.threads[:16]
    count = sum(record.start != 0 for record in records)
    threads, others = records[:count], records[count:]
    # numbered without gaps, and what does not exist holds 0
    if any(any(record.numbers()) for record in others):
        return False
    if count == 0 or (threads[0].start, threads[0].end) != (5, len(code)):
        return False
    # every piece of code that a thread can own
    owned, left = {}, [(5, len(code))]
    while left:
        piece = left.pop()
        owned[piece] = walk(code, *piece)
        left += owned[piece][-1][3]
    asked = []
    for record in threads:
        piece = (record.start, record.end)
        if piece not in owned:
            return False
        found = [point for point in owned[piece] if point[0] == record.place]
        if not found:
            return False
        _, height, note, passed, _ = found[0]
        asked += passed
        if record.height != height or any(record.cell[height:]):
            return False
        if note is None:
            if record.begin or record.base or record.over or record.reads or record.writes:
                return False
        elif (record.begin, record.base) != note[:2] or record.over > note[2]:
            return False
        for v in range(64):
            if not record.reads >> v & 1 and (record.readlog[v] or record.readcount[v]):
                return False
            if not record.writes >> v & 1 and record.writelog[v]:
                return False
    if sorted(asked) != sorted((record.start, record.end) for record in threads[1:]):
        return False
    commits = commits_passed(code, threads)
    if any(n > commits for n in memory.counts[:64]):
        return False
    for record in threads:
        if any(record.readcount[v] > memory.counts[v] for v in range(64)):
            return False
        if record.backs > commits or record.backs == commits and has_stale(record, memory.counts):
            return False
    return True


def close(record):
    """Logs and notes emptied."""
    record.begin = record.base = record.over = record.reads = record.writes = 0
    record.readlog = [0] * 64
    record.readcount = [0] * 64
    record.writelog = [0] * 64


def pick(code, memory, i):
    """One pick: (event, register, turn, over). If it is not idle, its thread's record holds the rule, and the send-back if it is one."""
    told = act(code, memory, i)
    event, register, _, _ = told
    if event:
        memory.threads[i].rule = event + register
        memory.threads[i].backs += event == 10
    return told


def act(code, memory, i):
    """What a pick does, but for its thread's last rule and number of send-backs: (event, register, turn, over)."""
    if i >= 16 or memory.threads[i].start == 0:
        return 0, 0, 0, 0
    t = memory.threads[i]
    if t.place == t.end:
        return 0, 0, 0, 0
    op, operand, behind = instruction(code, t.place)

    def push(n):
        t.cell[t.height] = n
        t.height += 1

    if op == 1:
        push(operand)
        t.place = behind
        return 1, 0, 0, 0
    if op == 2:
        right, left = t.cell[t.height - 1], t.cell[t.height - 2]
        t.cell[t.height - 1] = 0
        t.cell[t.height - 2] = wrap(left + right)
        t.height -= 1
        t.place = behind
        over = outside(left + right)
        if t.begin:
            t.over += over
            return 2, 0, 0, 0
        return 2, 0, 1, over
    if op == 3:
        if t.writes >> operand & 1:
            value, event = t.writelog[operand], 5
        elif t.reads >> operand & 1:
            value, event = t.readlog[operand], 6
        else:
            value, event = memory.registers[operand], 7
            t.reads |= 1 << operand
            t.readlog[operand] = value
            t.readcount[operand] = memory.counts[operand]
        push(value)
        t.place = behind
        return event, 0, 0, 0
    if op == 4:
        t.writes |= 1 << operand
        t.writelog[operand] = t.cell[t.height - 1]
        t.place = behind
        return 8, 0, 0, 0
    if op == 5:
        at, height = t.place, t.height
        close(t)
        t.begin, t.base = at, height
        t.place = behind
        return 4, 0, 0, 0
    if op == 6:
        for v in range(64):
            if is_stale(t, v, memory.counts):
                t.place, t.height = t.begin, t.base
                t.cell[t.height :] = [0] * (64 - t.height)
                close(t)
                return 10, v, 0, 0
        for v in range(64):
            if t.writes >> v & 1:
                memory.registers[v] = t.writelog[v]
                memory.counts[v] += 1
        over = t.over
        close(t)
        t.place = behind
        return 9, 0, 1, over
    push(0)
    t.place = behind + operand
    child = next(record for record in memory.threads if record.start == 0)
    child.start = child.place = behind
    child.end = behind + operand
    return 3, 0, 1, 0


def refusal(code, memory, picks, fresh=False):
    """The number of the refusal, or 0."""
    if job_of(bytes(code)) is None:
        return 11
    if fresh:
        return 0 if memory.lent() == SIZES else 12
    if not fits(code, memory):
        return 12
    return 13 if len(picks) > 32768 else 0


def call_fresh(code, memory):
    number = refusal(code, memory, [], True)
    if number == 0:
        memory.registers[:64] = [0] * 64
        memory.counts[:64] = [0] * 64
        memory.threads[:16] = [Record() for _ in range(16)]
        root = memory.threads[0]
        root.start = root.place = 5
        root.end = len(code)
    return number


def call_run(code, memory, picks):
    """(refusal, events)."""
    number = refusal(code, memory, picks)
    return number, [] if number else [pick(code, memory, i) for i in picks]


def counts(events):
    """steps, idle, commits, back, over"""
    kinds = [event for event, *_ in events]
    return len(kinds) - kinds.count(0), kinds.count(0), kinds.count(9), kinds.count(10), sum(over for *_, over in events)


# ---- what is written

COUNTS = "steps %d idle %d commits %d back %d over %d"
EVENT = "event %d register %d turn %d over %d"
RULE = " rule %d backs %d"
COUNT = ", count %d %d"


def checksum(memory):
    tail = total = 0
    for n in memory.numbers():
        tail = (tail + n) % 2**64
        total = (total + tail) % 2**64
    return total


def show_state(memory):
    out = ""
    for i, t in enumerate(memory.threads[:16]):
        if t.start:
            out += ", thread %d " % i + ("done %d" % t.cell[0] if t.place == t.end else "open") + RULE % (t.rule, t.backs)
    for v, n in enumerate(memory.registers[:64]):
        if n:
            out += ", register %d %d" % (v, n)
    return out + show_counts(memory)


def show_counts(memory):
    return "".join(COUNT % (v, n) for v, n in enumerate(memory.counts[:64]) if n)


def listed(picks):
    """A list of picks from a text such as '0*3 1'."""
    out = []
    for word in picks.split():
        name, _, times = word.partition("*")
        out += [int(name)] * int(times or 1)
    return out


def change(code, memory, text):
    words = text.split()
    if words[0] == "records":
        memory.lent_records = int(words[1])
    elif words[0] == "registers":
        memory.lent_registers = int(words[1])
    elif words[0] == "counts":
        memory.lent_counts = int(words[1])
    elif words[0] == "code":
        code[int(words[1])] = int(words[2])
    elif words[0] == "register":
        memory.registers[int(words[1])] = int(words[2])
    elif words[0] == "count":
        memory.counts[int(words[1])] = int(words[2])
    elif words[2] in SCALARS:
        setattr(memory.threads[int(words[1])], words[2], int(words[3]))
    else:
        getattr(memory.threads[int(words[1])], words[2])[int(words[3])] = int(words[4])


def answer(command, code, setup, changes, picks):
    """What the program writes behind the label, and the memory."""
    code, memory, picks = bytearray(code), Memory(), listed(picks)
    if command != "fresh":
        call_fresh(code, memory)
        call_run(code, memory, listed(setup))
    for text in changes.split(", ") if changes else []:
        change(code, memory, text)
    before = copy.deepcopy(memory)
    if command == "fresh":
        number, said = call_fresh(code, memory), "laid"
    elif command == "step":
        number, events = call_run(code, memory, picks)
        said = "" if number else EVENT % events[0]
    else:
        number, events = call_run(code, memory, picks)
        said = COUNTS % counts(events)
    if command == "cut":
        assert number == 0
        for k in range(len(picks) + 1):
            again = copy.deepcopy(before)
            first, second = call_run(code, again, picks[:k]), call_run(code, again, picks[k:])
            assert first[0] == second[0] == 0 and again.numbers() == memory.numbers()
            assert tuple(map(sum, zip(counts(first[1]), counts(second[1])))) == counts(events)
        return "same", memory
    if number:
        assert before.numbers() == memory.numbers()
        return "refused %d at 0 kept" % number, memory
    assert fits(code, memory)
    return said + show_state(memory) + ", sum %d" % checksum(memory), memory


# ---- the cases

cases = jobs.Cases()
lines, answers, section, line = cases.lines, cases.answers, cases.section, cases.line


def given(what, setup, changes, picks):
    """The code of a tree, or code as it is, and a line's text on it."""
    if isinstance(what, tuple):
        code, text = whole(what), job(what).hex()
    else:
        code, text = what, ("code " + what.hex()).strip()
    return code, "%s; %s; %s; %s" % (text, setup, changes, picks)


def case(label, what, setup="", changes="", picks="", says=None, written=None):
    """A call on a tree's code, or on code. `says` is the answer stated by hand, the checksum and the table's counts left out, and each thread's
    rule and send-backs if it has none; `written` has these counts by register, those that are not 0."""
    code, text = given(what, setup, changes, picks)
    said, memory = answer(label.split()[0], code, setup, changes, picks)
    if says is not None:
        stated = re.sub(COUNT.replace("%d", "[0-9]+"), "", said.partition(", sum ")[0])
        if " rule " not in says:
            stated = re.sub(RULE.replace("%d", "[0-9]+"), "", stated)
        assert stated == says, (label, said, says)
    if written is not None:
        assert show_counts(memory) == "".join(COUNT % item for item in sorted(written.items())), (label, said, written)
    line(label, text, said)


def ran(steps, idle, commits, back, *left, over=0):
    return ", ".join((COUNTS % (steps, idle, commits, back, over),) + left)


def stepped(event, register, turn, *left, over=0):
    return ", ".join((EVENT % (event, register, turn, over),) + left)


SEVEN = valp(7)
LOW = addp(valp(-2147483648), valp(-1))
OWN = atomic(addt(write(0, valt(5)), read(0)))
STEP = fork(atomic(write(0, addt(read(0), valt(1)))))
WHOLE = addp(STEP, STEP)
PICKS = "0*3 1*2 2*6 1*10"
HIGH = addp(valp(5), addp(fork(atomic(write(0, valt(1)))), atomic(read(0))))
LOOK = atomic(read(0))
TWICE = atomic(addt(read(3), read(3)))
SMALL = atomic(addt(valt(1), valt(2)))
STALE = addp(fork(atomic(write(2, write(1, valt(1))))), atomic(addt(read(2), read(1))))
NEST = chain(fork, 15, valp(1))
NEST_PICKS = " ".join(str(i) for i in range(15))
WIDE = jobs.balanced(addp, fork(valp(2)), 15)
# four threads each add 1 to register 0; all read it before one commits
BUSY = addp(STEP, addp(STEP, addp(STEP, atomic(write(0, addt(read(0), valt(1)))))))
BUSY_PICKS = "0*3 " + 5 * "0 1 2 3 " + "1 0 2 3 " + 5 * "0 2 3 " + "2 0 3 " + 5 * "0 3 " + "3 0 200 0*9"
A_B_A = addp(fork(atomic(write(1, read(0)))), fork(addp(atomic(write(0, valt(5))), atomic(write(0, valt(0))))))
SAME = addp(fork(atomic(write(1, read(0)))), fork(atomic(write(0, valt(0)))))
BIT_63 = str(2**63)
EVERY = str(2**64 - 1)
MOST = str(2**32 - 1)  # the greatest count


def last(n):
    return addp(fork(atomic(write(63, valt(n)))), atomic(read(63)))


def after(tree):
    """The tree behind a transaction of its thread, which three picks have passed."""
    return addp(atomic(valt(0)), tree)


def the_whole_case():
    section("document 01's whole case and the cases of its bench that run")
    end = ("thread 0 done 0", "thread 1 done 2", "thread 2 done 1", "register 0 2")
    case("run the whole case", WHOLE, picks=PICKS, says=ran(21, 0, 2, 1, *end), written={0: 2})
    case("run one PUSH", SEVEN, picks="0", says=ran(1, 0, 0, 0, "thread 0 done 7"))
    case("run one PUSH picked three times", SEVEN, picks="0*3", says=ran(1, 2, 0, 0, "thread 0 done 7"))
    case("run below the least number", LOW, picks="0*3", says=ran(3, 0, 0, 0, "thread 0 done 2147483647", over=1))
    case("run above the greatest number", addp(valp(2147483647), valp(1)), picks="0*3", says=ran(3, 0, 0, 0, "thread 0 done -2147483648", over=1))
    case("run a register read after its own write", OWN, picks="0*6", says=ran(6, 0, 1, 0, "thread 0 done 10", "register 0 5"))
    case("run the same up to COMMIT", OWN, picks="0*5", says=ran(5, 0, 0, 0, "thread 0 open"))
    assert answer("run", whole(OWN), "", "", "0*5")[1].threads[0].reads == 0
    case("run an empty list", SEVEN, says=ran(0, 0, 0, 0, "thread 0 open"))
    case("run a write to register 63", atomic(write(63, read(63))), picks="0*4", says=ran(4, 0, 1, 0, "thread 0 done 0"))
    case("run a sum of register 63", atomic(write(63, addt(read(63), valt(-4)))), picks="0*6", says=ran(6, 0, 1, 0, "thread 0 done -4", "register 63 -4"))


def fresh_states():
    section("fresh: laid over memory of -7 and 7, of which register 64, count 64 and record 16 stay")
    case("fresh one PUSH", SEVEN, says="laid, thread 0 open", written={})
    case("fresh the whole case", WHOLE, says="laid, thread 0 open", written={})
    case("fresh over another memory", SEVEN, changes="register 0 5, thread 3 cell 9 -1, thread 15 reads " + EVERY, says="laid, thread 0 open", written={})
    case("fresh over other counts", SEVEN, changes="count 0 1, count 63 %s, count 64 9, thread 0 readcount 0 %s, thread 15 readcount 63 1" % (MOST, MOST), says="laid, thread 0 open", written={})
    section("fresh: 11, then 12")
    for n in (15, 17, 0):
        case("fresh %d records" % n, SEVEN, changes="records %d" % n, says="refused 12 at 0 kept")
    for n in (63, 65, 0):
        case("fresh %d registers" % n, SEVEN, changes="registers %d" % n, says="refused 12 at 0 kept")
        case("fresh %d counts" % n, SEVEN, changes="counts %d" % n, says="refused 12 at 0 kept")
    case("fresh foreign code", b"", says="refused 11 at 0 kept")
    case("fresh foreign code, a job", job(SEVEN), says="refused 11 at 0 kept")
    case("fresh foreign code and 15 records", b"", changes="records 15", says="refused 11 at 0 kept")
    case("fresh foreign code and 65 registers", SEVEN, changes="code 5 9, registers 65", says="refused 11 at 0 kept")
    case("fresh foreign code and 63 counts", SEVEN, changes="code 5 9, counts 63", says="refused 11 at 0 kept")
    case("fresh foreign code and no memory", SEVEN, changes="code 4 2, registers 0, counts 0, records 0", says="refused 11 at 0 kept")


def the_order():
    section("run and step: 11, then 12, then 13")
    long = "0*32769"
    case("run foreign code, foreign state, long list", b"", picks=long, says="refused 11 at 0 kept")
    case("run foreign code, foreign state", b"", picks="0", says="refused 11 at 0 kept")
    case("run foreign code, long list", SEVEN, changes="code 5 9", picks=long, says="refused 11 at 0 kept")
    case("run foreign code", SEVEN, changes="code 5 9", picks="0", says="refused 11 at 0 kept")
    case("run foreign code, changed state", SEVEN, changes="code 0 0, thread 0 height 1", picks="0", says="refused 11 at 0 kept")
    case("run foreign code, 15 records", SEVEN, changes="code 0 0, records 15", picks="0", says="refused 11 at 0 kept")
    case("run foreign state, long list", SEVEN, changes="thread 0 start 6", picks=long, says="refused 12 at 0 kept")
    case("run foreign code, 65 counts", SEVEN, changes="code 0 0, counts 65", picks="0", says="refused 11 at 0 kept")
    case("run 63 counts, long list", SEVEN, changes="counts 63", picks=long, says="refused 12 at 0 kept")
    case("run 15 records, long list", SEVEN, changes="records 15", picks=long, says="refused 12 at 0 kept")
    case("run foreign state", SEVEN, changes="thread 0 start 6", picks="0", says="refused 12 at 0 kept")
    case("run foreign state, no picks", SEVEN, changes="thread 0 start 6", says="refused 12 at 0 kept")
    case("run long list", SEVEN, picks=long, says="refused 13 at 0 kept")
    case("run long list, the whole case begun", WHOLE, "0*3 1*2", picks="1*32000 2*769", says="refused 13 at 0 kept")
    case("run long list of idle picks", SEVEN, "0", picks="200*32769", says="refused 13 at 0 kept")
    case("run full list", SEVEN, picks="0*32768", says=ran(1, 32767, 0, 0, "thread 0 done 7"))
    case("run full list, the whole case", WHOLE, picks="0*16384 1*8192 2*8192", says=ran(15, 32753, 2, 0, "thread 0 done 0", "thread 1 done 1", "thread 2 done 2", "register 0 2"))
    case("step foreign code, foreign state", b"", picks="0", says="refused 11 at 0 kept")
    case("step foreign code", SEVEN, changes="code 5 9", picks="0", says="refused 11 at 0 kept")
    case("step foreign code, a job", job(SEVEN), picks="0", says="refused 11 at 0 kept")
    case("step foreign state", SEVEN, changes="thread 0 place 0", picks="0", says="refused 12 at 0 kept")
    case("step foreign state, an idle pick", SEVEN, changes="thread 0 place 0", picks="9", says="refused 12 at 0 kept")
    for command in ("run", "step"):
        for n in (15, 17, 0):
            case("%s %d records" % (command, n), SEVEN, changes="records %d" % n, picks="0", says="refused 12 at 0 kept")
        for n in (63, 65, 0):
            case("%s %d registers" % (command, n), SEVEN, changes="registers %d" % n, picks="0", says="refused 12 at 0 kept")
            case("%s %d counts" % (command, n), SEVEN, changes="counts %d" % n, picks="0", says="refused 12 at 0 kept")
    section("code of another job that the state fits")
    case("run another number", SEVEN, changes="code 9 8", picks="0", says=ran(1, 0, 0, 0, "thread 0 done 8"))
    case("run another register", TWICE, "0*2", "code 9 4", "0*3", says=ran(3, 0, 1, 0, "thread 0 done 0"))
    case("run another number, of two bytes", SEVEN, changes="code 8 1", picks="0", says=ran(1, 0, 0, 0, "thread 0 done 263"))


def the_events():
    section("step: each event")
    case("step 0 idle, ended", SEVEN, "0", picks="0", says=stepped(0, 0, 0, "thread 0 done 7"))
    case("step 0 idle, no such thread", SEVEN, picks="3", says=stepped(0, 0, 0, "thread 0 open"))
    for n in (15, 16, 17, 255):
        case("step 0 idle, pick %d" % n, SEVEN, picks=str(n), says=stepped(0, 0, 0, "thread 0 open"))
    case("step 1 push", SEVEN, picks="0", says=stepped(1, 0, 0, "thread 0 done 7"))
    case("step 2 sum outside", LOW, "0*2", picks="0", says=stepped(2, 0, 1, "thread 0 done 2147483647", over=1))
    case("step 2 sum inside", OWN, "0*4", picks="0", says=stepped(2, 0, 0, "thread 0 open"))
    case("step 3 fork", WHOLE, picks="0", says=stepped(3, 0, 1, "thread 0 open", "thread 1 open"))
    case("step 3 fork, the next", WHOLE, "0", picks="0", says=stepped(3, 0, 1, "thread 0 open", "thread 1 open", "thread 2 open"))
    case("step 4 begin", WHOLE, "0*2", picks="1", says=stepped(4, 0, 0, "thread 0 open", "thread 1 open", "thread 2 open"))
    case("step 4 begin, two numbers below", HIGH, "0*2", picks="0", says=stepped(4, 0, 0, "thread 0 open", "thread 1 open"))
    case("step 5 read, own write", OWN, "0*3", picks="0", says=stepped(5, 0, 0, "thread 0 open"))
    case("step 6 read, read before", TWICE, "0*2", picks="0", says=stepped(6, 0, 0, "thread 0 open"))
    case("step 7 read, the table's", WHOLE, "0*2 1", picks="1", says=stepped(7, 0, 0, "thread 0 open", "thread 1 open", "thread 2 open"))
    case("step 8 write", WHOLE, "0*2 1*4", picks="1", says=stepped(8, 0, 0, "thread 0 open", "thread 1 open", "thread 2 open"))
    case("step 9 commit", WHOLE, "0*2 1*5", picks="1", says=stepped(9, 0, 1, "thread 0 open", "thread 1 done 1", "thread 2 open", "register 0 1"), written={0: 1})
    case("step 9 commit, an empty write log", TWICE, "0*4", picks="0", says=stepped(9, 0, 1, "thread 0 done 0"), written={})
    case("step 10 sent back", WHOLE, "0*3 1*2 2*6 1*3", picks="1", says=stepped(10, 0, 0, "thread 0 done 0", "thread 1 open", "thread 2 done 1", "register 0 1"))
    section("READ: the write log, then the read log, then the table")
    values = ("register 0 9", "thread 0 reads 1, thread 0 readlog 0 7", "thread 0 writes 1, thread 0 writelog 0 5")
    risen = "count 0 1"
    case("step 7 of three values", LOOK, "0", values[0], "0", says=stepped(7, 0, 0, "thread 0 open", "register 0 9"))
    case("step 6 of three values", LOOK, "0", ", ".join(values[:2]), "0", says=stepped(6, 0, 0, "thread 0 open", "register 0 9"))
    case("step 6 of three values, the count risen", after(LOOK), "0*4", ", ".join((*values[:2], risen)), "0", says=stepped(6, 0, 0, "thread 0 open", "register 0 9"))
    case("step 5 of three values", LOOK, "0", ", ".join(values), "0", says=stepped(5, 0, 0, "thread 0 open", "register 0 9"))
    case("step 5 of three values, the count risen", after(LOOK), "0*4", ", ".join((*values, risen)), "0", says=stepped(5, 0, 0, "thread 0 open", "register 0 9"))
    case("step 5 of two values", LOOK, "0", values[0] + ", " + values[2], "0", says=stepped(5, 0, 0, "thread 0 open", "register 0 9"))
    case("run three values to the end", LOOK, "0", ", ".join(values), "0*2", says=ran(2, 0, 1, 0, "thread 0 done 5", "register 0 5"), written={0: 1})
    case("run three values to the end, the count risen", after(LOOK), "0*4", ", ".join((*values, risen)), "0*2", says=ran(2, 0, 0, 1, "thread 0 open", "register 0 9"), written={0: 1})
    case("run two values to the end", LOOK, "0", values[0] + ", " + values[2], "0*2", says=ran(2, 0, 1, 0, "thread 0 done 5", "register 0 5"), written={0: 1})
    every = "thread 0 writes %s, thread 0 writelog 0 5, thread 0 writelog 63 -6" % EVERY
    case("run all registers marked", LOOK, "0", every, "0*2", says=ran(2, 0, 1, 0, "thread 0 done 5", "register 0 5", "register 63 -6"), written={v: 1 for v in range(64)})
    case("step 9 own write, the register changed since", OWN, "0*5", "register 0 99", "0", says=stepped(9, 0, 1, "thread 0 done 10", "register 0 5"), written={0: 1})
    case("step 9 own write, the register written since", after(OWN), "0*8", "register 0 99, " + risen, "0", says=stepped(9, 0, 1, "thread 0 open", "register 0 5"), written={0: 2})
    behind = ("thread 0 open", "thread 1 open", "thread 2 done 1", "register 0 99")
    below = "register 0 99, thread 1 readcount 0 0"
    case("step 10 read and written, the register written since", WHOLE, "0*2 2*6 1*5", below, "1", says=stepped(10, 0, 0, *behind), written={0: 1})
    case("run read before the change, written after it", WHOLE, "0*2 2*6 1*2", below, "1*4", says=ran(4, 0, 0, 1, *behind), written={0: 1})
    case("step 9 read and written, another value with the same count", WHOLE, "0*2 2*6 1*5", "register 0 99", "1", says=stepped(9, 0, 1, "thread 0 open", "thread 1 done 2", "thread 2 done 1", "register 0 2"), written={0: 2})
    section("COMMIT: the first stale register")
    case("step 10 the lowest of two", STALE, "0*5 1*5", picks="0", says=stepped(10, 1, 0, "thread 0 open", "thread 1 done 1", "register 1 1", "register 2 1"), written={1: 1, 2: 1})
    case("step 10 register 63", last(1), "0*3 1*4", picks="0", says=stepped(10, 63, 0, "thread 0 open", "thread 1 done 1", "register 63 1"), written={63: 1})
    case("step 10 the same value written", last(0), "0*3 1*4", picks="0", says=stepped(10, 63, 0, "thread 0 open", "thread 1 done 0"), written={63: 1})
    case("step 10 written, and the value set back", last(1), "0*3 1*4", "register 63 0", "0", says=stepped(10, 63, 0, "thread 0 open", "thread 1 done 1"))
    case("step 9 written, and the count set back", last(1), "0*3 1*4", "count 63 0", "0", says=stepped(9, 0, 1, "thread 0 open", "thread 1 done 1", "register 63 1"))
    case("step 9 the value set, not by a commit", last(1), "0*3", "register 63 1", "0", says=stepped(9, 0, 1, "thread 0 open", "thread 1 open", "register 63 1"), written={})
    unnamed = "thread 0 reads %d, thread 0 readlog 5 1" % (2**5 + 1)
    case("step 10 a marked register never named", after(LOOK), "0*5", unnamed + ", count 5 1", "0", says=stepped(10, 5, 0, "thread 0 open"))
    case("step 9 a marked register never named, its count as it was", after(LOOK), "0*5", unnamed, "0", says=stepped(9, 0, 1, "thread 0 open"))
    case("step 10 sent back, a write log dropped", after(OWN), "0*8", "thread 0 reads 2, thread 0 readlog 1 4, count 1 1", "0", says=stepped(10, 1, 0, "thread 0 open"), written={1: 1})
    case("step 10 two numbers below", HIGH, "0*4 1*4", picks="0", says=stepped(10, 0, 0, "thread 0 open", "thread 1 done 1", "register 0 1"))
    case("run two numbers below, to the end", HIGH, "0*4 1*4", picks="0*6", says=ran(6, 0, 1, 1, "thread 0 done 6", "thread 1 done 1", "register 0 1"))


def the_sizes():
    section("many threads, a high stack")
    open_ = ["thread %d done 0" % i for i in range(15)]
    case("run 15 FORKs in each other", NEST, picks=NEST_PICKS, says=ran(15, 0, 0, 0, *open_, "thread 15 open"))
    case("run 15 FORKs in each other, and the last PUSH", NEST, picks=NEST_PICKS + " 15", says=ran(16, 0, 0, 0, *open_, "thread 15 done 1"))
    case("run picks 16, 17 and 255", SEVEN, picks="16 17 255 0", says=ran(1, 3, 0, 0, "thread 0 done 7"))
    case("run picks 16, 17 and 255 with 16 threads", NEST, NEST_PICKS, picks="16*2 17 255 15", says=ran(1, 4, 0, 0, *open_, "thread 15 done 1"))
    case("step pick 16 with 16 threads", NEST, NEST_PICKS, picks="16", says=stepped(0, 0, 0, *open_, "thread 15 open"))
    case("step pick 15 with 16 threads", NEST, NEST_PICKS, picks="15", says=stepped(1, 0, 0, *open_, "thread 15 done 1"))
    case("run 15 FORKs side by side", WIDE, picks="0*29 " + " ".join(str(i) for i in range(1, 16)), says=ran(44, 0, 0, 0, "thread 0 done 0", *("thread %d done 2" % i for i in range(1, 16))))
    deep = jobs.right_comb(addp, valp(3), 64)
    case("run a stack of 64", deep, picks="0*64", says=ran(64, 0, 0, 0, "thread 0 open"))
    assert answer("run", whole(deep), "", "", "0*64")[1].threads[0].height == 64
    case("step the first sum of a stack of 64", deep, "0*64", picks="0", says=stepped(2, 0, 1, "thread 0 open"))
    case("run a stack of 64 to the end", deep, picks="0*130", says=ran(127, 3, 0, 0, "thread 0 done 192"))
    inside = atomic(jobs.right_comb(addt, read(1), 63))
    case("run a stack of 63 in a transaction", inside, "0", "register 1 -5", "0*126", says=ran(126, 0, 1, 0, "thread 0 done -315", "register 1 -5"))
    one_less = after(atomic(jobs.right_comb(addt, read(1), 62)))
    assert answer("run", whole(one_less), "", "", "0*66")[1].threads[0].height == 63
    case("run a stack of 63 sent back", one_less, "0*66", "register 1 -5, count 1 1", "0*62", says=ran(62, 0, 0, 1, "thread 0 open", "register 1 -5"))
    comb = atomic(jobs.left_comb(addt, write(7, read(7)), 32))
    case("run many writes of one register", comb, "0", "register 7 3", "0*200", says=None, written={7: 1})
    case("run 62 WRITEs in each other", atomic(chain(lambda t: write(9, t), 62, valt(4))), picks="0*65", says=ran(65, 0, 1, 0, "thread 0 done 4", "register 9 4"), written={9: 1})


def the_transactions():
    section("a transaction of 200 nodes: a WRITE to register 0 of the sum of 100 READs of register 5")
    full = atomic(jobs.FULL)
    end = ("thread 0 done 300", "register 0 300", "register 5 3")
    case("fresh 200 nodes", full, says="laid, thread 0 open")
    case("run 200 nodes to the end", full, picks="0*202", says=ran(202, 0, 1, 0, "thread 0 done 0"))
    case("run 200 nodes, register 5 being 3", full, "0", "register 5 3", "0*202", says=ran(201, 1, 1, 0, *end))
    case("run 200 nodes up to COMMIT", full, picks="0*201", says=ran(201, 0, 0, 0, "thread 0 open"))
    case("step 200 nodes, COMMIT", full, "0*201", picks="0", says=stepped(9, 0, 1, "thread 0 done 0"))
    case("run 200 nodes, sent back once", after(full), "0*204", "register 5 3, count 5 1", "0*204", says=ran(204, 0, 1, 1, *end))
    other = addp(fork(atomic(write(5, valt(3)))), full)
    case("run 200 nodes, sent back by another thread", other, picks="0*202 1*4 0*204", says=ran(410, 0, 2, 1, end[0], "thread 1 done 3", *end[1:]))
    case("run 200 nodes in a FORK's child", fork(full), picks="0 1*202", says=ran(203, 0, 1, 0, "thread 0 done 0", "thread 1 done 0"))
    section("code of a transaction of 201 nodes: 11")
    long = atomic(jobs.TOO_LONG)
    for label, tree in (("", long), (" in a FORK's child", fork(long))):
        for command, picks in (("fresh", ""), ("step", "0"), ("run", "0*3")):
            case("%s 201 nodes%s" % (command, label), whole(tree), picks=picks, says="refused 11 at 0 kept")
    case("run 201 nodes, long list", whole(long), changes="records 15", picks="0*32769", says="refused 11 at 0 kept")
    case("fresh 201 nodes and 15 records", whole(long), changes="records 15", says="refused 11 at 0 kept")


def the_overs():
    most, least = 2147483647, -2147483648
    section("sums outside transactions that leave the range")
    case("run (2147483647 + 1) + -1", addp(addp(valp(most), valp(1)), valp(-1)), picks="0*5", says=ran(5, 0, 0, 0, "thread 0 done 2147483647", over=2))
    case("run 2147483647 + (1 + -1)", addp(valp(most), addp(valp(1), valp(-1))), picks="0*5", says=ran(5, 0, 0, 0, "thread 0 done 2147483647"))
    for a, b, total, over in (
        (most, 0, most, 0),
        (most - 1, 1, most, 0),
        (1, most, least, 1),
        (least, 0, least, 0),
        (least + 1, -1, least, 0),
        (-1, least, most, 1),
        (most, least, -1, 0),
        (least, most, -1, 0),
        (most, most, -2, 1),
        (least, least, 0, 1),
        (2**30, 2**30, least, 1),
        (2**30, 2**30 - 1, most, 0),
        (-(2**30), -(2**30), least, 0),
        (-(2**30), -(2**30) - 1, most, 1),
    ):
        case("step %d + %d" % (a, b), addp(valp(a), valp(b)), "0*2", picks="0", says=stepped(2, 0, 1, "thread 0 done %d" % total, over=over))
    case("run a sum of a child", fork(addp(valp(most), valp(1))), picks="0 1*3", says=ran(4, 0, 0, 0, "thread 0 done 0", "thread 1 done -2147483648", over=1))
    case("run 500 least numbers", jobs.balanced(addp, valp(least), 500), picks="0*999", says=ran(999, 0, 0, 0, "thread 0 done 0", over=250))
    section("sums in transactions that leave the range: counted when the attempt takes effect")
    one = atomic(addt(valt(most), valt(1)))
    two = atomic(addt(addt(valt(most), valt(1)), valt(-1)))
    case("step a sum inside, noted", one, "0*3", picks="0", says=stepped(2, 0, 0, "thread 0 open"))
    assert answer("step", whole(one), "0*3", "", "0")[1].threads[0].over == 1
    case("step a commit of one", one, "0*4", picks="0", says=stepped(9, 0, 1, "thread 0 done -2147483648", over=1))
    assert answer("step", whole(one), "0*4", "", "0")[1].threads[0].over == 0
    case("run four picks of five", one, picks="0*4", says=ran(4, 0, 0, 0, "thread 0 open"))
    case("run the last pick of five", one, "0*4", picks="0", says=ran(1, 0, 1, 0, "thread 0 done -2147483648", over=1))
    case("run five picks", one, picks="0*5", says=ran(5, 0, 1, 0, "thread 0 done -2147483648", over=1))
    case("cut a note", one, picks="0*5", says="same")
    case("step a commit of two", two, "0*6", picks="0", says=stepped(9, 0, 1, "thread 0 done 2147483647", over=2))
    case("run a sum of 63 least numbers", atomic(jobs.left_comb(addt, valt(least), 63)), picks="0*127", says=ran(127, 0, 1, 0, "thread 0 done -2147483648", over=31))
    case("run two transactions of a thread and a sum", addp(one, one), picks="0*11", says=ran(11, 0, 2, 0, "thread 0 done 0", over=3))
    section("sums of attempts that are sent back: never counted")
    # thread 1 sets register 0 to b while thread 0 adds 1 to the a that it has read there
    def again(a, b):
        return addp(atomic(write(0, valt(a))), addp(fork(atomic(write(0, valt(b)))), atomic(addt(read(0), valt(1)))))

    before = "0*9 1*4"
    rest = ("thread 0 open", "thread 1 done 5", "register 0 5")
    case("step sent back with a note", again(most, 5), before, picks="0", says=stepped(10, 0, 0, *rest))
    assert answer("step", whole(again(most, 5)), before, "", "0")[1].threads[0].over == 0
    case("run sent back with a note, none the second time, the last sum outside", again(most, 5), picks=before + " 0*8", says=ran(21, 0, 3, 1, "thread 0 done -2147483643", "thread 1 done 5", "register 0 5", over=1))
    case("run up to the second commit", again(most, 5), picks=before + " 0*6", says=ran(19, 0, 3, 1, *rest))
    case("run sent back, a note the second time", again(5, most), picks=before + " 0*6", says=ran(19, 0, 3, 1, "thread 0 open", "thread 1 done 2147483647", "register 0 2147483647", over=1))
    both = addp(fork(atomic(write(0, valt(5)))), atomic(addt(read(0), addt(valt(most), valt(1)))))
    case("run a note in both attempts", both, picks="0*7 1*4 0*9", says=ran(20, 0, 2, 1, "thread 0 done -2147483643", "thread 1 done 5", "register 0 5", over=1))
    section("a lent note counts as it stands")
    twice = atomic(addt(addt(valt(1), valt(2)), valt(most)))
    case("step a lent note of 1 behind one ADD", SMALL, "0*4", "thread 0 over 1", "0", says=stepped(9, 0, 1, "thread 0 done 3", over=1))
    case("run a lent note of 1 behind one ADD", SMALL, "0*4", "thread 0 over 1", "0", says=ran(1, 0, 1, 0, "thread 0 done 3", over=1))
    for command in ("run", "step"):
        case("%s a lent note of 2 behind one ADD" % command, SMALL, "0*4", "thread 0 over 2", "0", says="refused 12 at 0 kept")
        case("%s a lent note of 1 in front of the ADD" % command, SMALL, "0*3", "thread 0 over 1", "0", says="refused 12 at 0 kept")
    case("step a lent note of 0, the sum having left the range", one, "0*4", "thread 0 over 0", "0", says=stepped(9, 0, 1, "thread 0 done -2147483648"))
    case("run a lent note and a sum that leaves the range", twice, "0*4", "thread 0 over 1", "0*3", says=ran(3, 0, 1, 0, "thread 0 done -2147483646", over=2))
    case("run a lent note that is left open", twice, "0*4", "thread 0 over 1", "0*2", says=ran(2, 0, 0, 0, "thread 0 open"))
    assert answer("run", whole(twice), "0*4", "thread 0 over 1", "0*2")[1].threads[0].over == 2
    case("step a lent note that is sent back", after(atomic(addt(read(0), valt(1)))), "0*7", "thread 0 over 1, register 0 3, count 0 1", "0", says=stepped(10, 0, 0, "thread 0 open", "register 0 3"))
    # one ADD behind the BEGIN, others before it
    outside_first = addp(addp(valp(1), valp(2)), SMALL)
    inside_first = addp(SMALL, SMALL)
    case("run a lent note of 1, an ADD before the BEGIN", outside_first, "0*7", "thread 0 over 1", "0", says=ran(1, 0, 1, 0, "thread 0 open", over=1))
    case("run a lent note of 2, an ADD before the BEGIN", outside_first, "0*7", "thread 0 over 2", "0", says="refused 12 at 0 kept")
    case("run a lent note of 1, an ADD of the transaction before", inside_first, "0*9", "thread 0 over 1", "0", says=ran(1, 0, 1, 0, "thread 0 open", over=1))
    case("run a lent note of 2, an ADD of the transaction before", inside_first, "0*9", "thread 0 over 2", "0", says="refused 12 at 0 kept")


def the_rules():
    def record(i, left, rule, backs=0):
        return "thread %d %s" % (i, left) + RULE % (rule, backs)

    def fit(label, tree, setup, changes, pick, said):
        """A step on a state, its answer, or 12."""
        case(label, tree, setup, changes, pick, says="refused 12 at 0 kept" if said == 12 else said)

    section("the whole case, pick by pick: the rule, and the last rule and the send-backs of each thread")
    none, forked, ended = record(0, "open", 0), record(0, "open", 3), record(0, "done 0", 2)
    rows = (
        (0, 3, 0, 1, (forked, record(1, "open", 0))),
        (0, 3, 0, 1, (forked, record(1, "open", 0), record(2, "open", 0))),
        (0, 2, 0, 1, (ended, record(1, "open", 0), record(2, "open", 0))),
        (1, 4, 0, 0, (ended, record(1, "open", 4), record(2, "open", 0))),
        (1, 7, 0, 0, (ended, record(1, "open", 7), record(2, "open", 0))),
        (2, 4, 0, 0, (ended, record(1, "open", 7), record(2, "open", 4))),
        (2, 7, 0, 0, (ended, record(1, "open", 7), record(2, "open", 7))),
        (2, 1, 0, 0, (ended, record(1, "open", 7), record(2, "open", 1))),
        (2, 2, 0, 0, (ended, record(1, "open", 7), record(2, "open", 2))),
        (2, 8, 0, 0, (ended, record(1, "open", 7), record(2, "open", 8))),
        (2, 9, 0, 1, (ended, record(1, "open", 7), record(2, "done 1", 9), "register 0 1")),
        (1, 1, 0, 0, (ended, record(1, "open", 1), record(2, "done 1", 9), "register 0 1")),
        (1, 2, 0, 0, (ended, record(1, "open", 2), record(2, "done 1", 9), "register 0 1")),
        (1, 8, 0, 0, (ended, record(1, "open", 8), record(2, "done 1", 9), "register 0 1")),
        (1, 10, 0, 0, (ended, record(1, "open", 10, 1), record(2, "done 1", 9), "register 0 1")),
        (1, 4, 0, 0, (ended, record(1, "open", 4, 1), record(2, "done 1", 9), "register 0 1")),
        (1, 7, 0, 0, (ended, record(1, "open", 7, 1), record(2, "done 1", 9), "register 0 1")),
        (1, 1, 0, 0, (ended, record(1, "open", 1, 1), record(2, "done 1", 9), "register 0 1")),
        (1, 2, 0, 0, (ended, record(1, "open", 2, 1), record(2, "done 1", 9), "register 0 1")),
        (1, 8, 0, 0, (ended, record(1, "open", 8, 1), record(2, "done 1", 9), "register 0 1")),
        (1, 9, 0, 1, (ended, record(1, "done 2", 9, 1), record(2, "done 1", 9), "register 0 2")),
    )
    assert [row[0] for row in rows] == listed(PICKS)
    before = ""
    for k, (i, event, register, turn, left) in enumerate(rows):
        case("step the whole case, pick %d" % (k + 1), WHOLE, before, picks=str(i), says=stepped(event, register, turn, *left))
        before = (before + " %d" % i).strip()
    end = rows[-1][4]
    case("fresh the whole case, no rule", WHOLE, says="laid, " + none)
    case("run the whole case, its rules", WHOLE, picks=PICKS, says=ran(21, 0, 2, 1, *end))
    case("run the whole case, its rules, from the fourteenth pick", WHOLE, "0*3 1*2 2*6 1*2", picks="1*8", says=ran(8, 0, 1, 1, *end))
    case("run the whole case, its rules, the send-back in another call", WHOLE, "0*3 1*2 2*6 1*4", picks="1*6", says=ran(6, 0, 1, 0, *end))
    section("an idle pick leaves the rules")
    case("step idle, a thread that has ended", WHOLE, PICKS, picks="1", says=stepped(0, 0, 0, *end))
    for i in (0, 2, 3, 15, 16, 255):
        case("step idle, pick %d behind the whole case" % i, WHOLE, PICKS, picks=str(i), says=stepped(0, 0, 0, *end))
    case("run idle picks only", WHOLE, PICKS, picks="0*3 1 2 7 255*4", says=ran(0, 10, 0, 0, *end))
    case("run idle picks behind a send-back", WHOLE, "0*3 1*2 2*6 1*4", picks="0 2 3 255", says=ran(0, 4, 0, 0, *rows[14][4]))
    case("step idle, no rule yet", SEVEN, picks="1", says=stepped(0, 0, 0, none))
    case("step idle, a lent rule", SEVEN, "0", "thread 0 rule 66", "0", says=stepped(0, 0, 0, record(0, "done 7", 66)))
    section("reads from the logs, a child's first rule")
    case("step a read from the write log", OWN, "0*3", picks="0", says=stepped(5, 0, 0, record(0, "open", 5)))
    case("step a read from the read log", TWICE, "0*2", picks="0", says=stepped(6, 0, 0, record(0, "open", 6)))
    case("run a child of a child", NEST, picks="0 1", says=ran(2, 0, 0, 0, record(0, "done 0", 3), record(1, "done 0", 3), record(2, "open", 0)))
    sent = addp(fork(atomic(write(0, valt(5)))), addp(LOOK, fork(SEVEN)))
    case("run a child of a thread that was sent back", sent, picks="0*3 1*4 0*5", says=ran(12, 0, 2, 1, record(0, "open", 3, 1), record(1, "done 5", 9), record(2, "open", 0), "register 0 5"))
    section("the lowest stale register is named")
    lowest = (record(1, "done 1", 9), "register 1 1", "register 2 1")
    case("step two stale registers, read the higher one first", STALE, "0*5 1*5", picks="0", says=stepped(10, 1, 0, record(0, "open", 11, 1), *lowest))
    other = addp(fork(atomic(write(40, write(41, valt(1))))), atomic(addt(read(40), read(41))))
    case("step two stale registers, read the lower one first", other, "0*5 1*5", picks="0", says=stepped(10, 40, 0, record(0, "open", 50, 1), record(1, "done 1", 9), "register 40 1", "register 41 1"))
    case("step register 63 stale", last(1), "0*3 1*4", picks="0", says=stepped(10, 63, 0, record(0, "open", 73, 1), record(1, "done 1", 9), "register 63 1"))
    section("no COMMIT passed: a count of 1 is 12, a read of another value is not stale")
    for command, pick in (("run", "0"), ("run", ""), ("step", "0"), ("step", "200")):
        case("%s a stale read, no COMMIT passed, pick %s" % (command, pick or "none"), LOOK, "0*2", "count 0 1", pick, says="refused 12 at 0 kept")
    values = "register 0 9, thread 0 reads 1, thread 0 readlog 0 7"
    for label, v, tree, setup, changes, pick in (
        ("of two values", 0, LOOK, "0", values, "0"),
        ("of three values", 0, LOOK, "0", values + ", thread 0 writes 1, thread 0 writelog 0 5", "0"),
        ("read and written", 0, WHOLE, "0*2 1*5", "register 0 99", "1"),
        ("not written yet", 0, WHOLE, "0*2 1*2", "register 0 99", "1*4"),
        ("of a register never named", 5, LOOK, "0*2", "thread 0 reads %d, thread 0 readlog 5 1" % (2**5 + 1), "0"),
        ("beside a write log", 1, OWN, "0*5", "thread 0 reads 2, thread 0 readlog 1 4", "0"),
        ("of 63", 1, atomic(jobs.right_comb(addt, read(1), 63)), "0*64", "register 1 -5", "0*63"),
        ("of 100", 5, atomic(jobs.FULL), "0*201", "register 5 3", "0*203"),
        ("beside a note", 0, atomic(addt(read(0), valt(1))), "0*4", "thread 0 over 1, register 0 3", "0"),
        ("of a thread that is not picked", 0, WHOLE, "0*2 1*2", "register 0 99", "2"),
    ):
        case("run a stale read %s, no COMMIT passed" % label, tree, setup, changes + ", count %d 1" % v, pick, says="refused 12 at 0 kept")
        case("run another value %s, no COMMIT passed" % label, tree, setup, changes, pick)
        assert " back 0 over " in answers[-1], answers[-1]
    case("run another value in log and table", LOOK, "0*2", "register 0 3, thread 0 readlog 0 3", "0", says=ran(1, 0, 1, 0, record(0, "done 0", 9), "register 0 3"))
    section("lent send-backs: equal to the COMMITs passed, or above; with a stale read below them only")
    look = after(LOOK)  # one COMMIT passed by the thread itself; at its second COMMIT from 0*5 on
    for n, stale, said in (
        (0, False, stepped(9, 0, 1, record(0, "open", 9))),
        (1, False, stepped(9, 0, 1, record(0, "open", 9, 1))),
        (2, False, 12),
        (0, True, stepped(10, 0, 0, record(0, "open", 10, 1), "register 0 3")),
        (1, True, 12),
        (2, True, 12),
    ):
        fit("step %d send-backs, one COMMIT passed%s" % (n, ", a stale read" if stale else ""), look, "0*5", "thread 0 backs %d" % n + ", register 0 3, count 0 1" * stale, "0", said)
    for n, said in ((0, stepped(9, 0, 1, record(0, "done 0", 9))), (1, 12)):
        fit("step %d send-backs at the first COMMIT" % n, LOOK, "0*2", "thread 0 backs %d" % n, "0", said)
    for n, said in ((1, stepped(0, 0, 0, record(0, "done 0", 9, 1))), (2, 12)):
        fit("step %d send-backs, the COMMIT of a thread that has ended" % n, LOOK, "0*3", "thread 0 backs %d" % n, "0", said)
    # thread 0 passes the code of both children, thread 2 commits, thread 1 has read before
    stale, ahead = "0*3 1*2 2*6", "0*3 2*6 1*2"
    here = (record(2, "done 1", 9), "register 0 1")
    for label, setup, changes, said in (
        ("a COMMIT in passed child code does not count", "0*3", "thread 0 backs 1", 12),
        ("an ended thread's COMMIT counts, one", "0*3 2*6", "thread 1 backs 1", stepped(4, 0, 0, ended, record(1, "open", 4, 1), *here)),
        ("an ended thread's COMMIT counts, two", "0*3 2*6", "thread 1 backs 2", 12),
        ("each thread by itself", "0*3 2*6", "thread 0 backs 1, thread 1 backs 1, thread 2 backs 1", stepped(4, 0, 0, record(0, "done 0", 2, 1), record(1, "open", 4, 1), record(2, "done 1", 9, 1), "register 0 1")),
        ("a stale read, none", stale, "", stepped(1, 0, 0, ended, record(1, "open", 1), *here)),
        ("a stale read, one", stale, "thread 1 backs 1", 12),
        ("another thread's stale read", stale, "thread 0 backs 1, thread 2 backs 1", stepped(1, 0, 0, record(0, "done 0", 2, 1), record(1, "open", 1), record(2, "done 1", 9, 1), "register 0 1")),
        ("a read that is not stale, one", ahead, "thread 1 backs 1", stepped(1, 0, 0, ended, record(1, "open", 1, 1), *here)),
        ("a read that is not stale, two", ahead, "thread 1 backs 2", 12),
        ("a stale read, its value set back, one", stale, "thread 1 backs 1, register 0 0", 12),
        ("a stale read, its count set back, one", stale, "thread 1 backs 1, count 0 0", stepped(1, 0, 0, ended, record(1, "open", 1, 1), *here)),
        ("a read of another value, one", ahead, "thread 1 backs 1, register 0 8", stepped(1, 0, 0, ended, record(1, "open", 1, 1), record(2, "done 1", 9), "register 0 8")),
        ("a log count below the table's, none", ahead, "thread 1 readcount 0 0", stepped(1, 0, 0, ended, record(1, "open", 1), *here)),
        ("a log count below the table's, one", ahead, "thread 1 readcount 0 0, thread 1 backs 1", 12),
        ("a written register that changed, one", "0*3 2*6 1", "thread 1 backs 1, thread 1 writes 1, thread 1 writelog 0 4, register 0 8", stepped(5, 0, 0, ended, record(1, "open", 5, 1), record(2, "done 1", 9), "register 0 8")),
        ("a fresh read log, one", "0*3 2*6 1", "thread 1 backs 1, register 0 8", stepped(7, 0, 0, ended, record(1, "open", 7, 1), record(2, "done 1", 9), "register 0 8")),
    ):
        fit("step send-backs, " + label, WHOLE, setup, changes, "1", said)
    three = addp(atomic(valt(1)), addp(atomic(valt(2)), addp(atomic(valt(3)), LOOK)))
    for n, said in ((2, stepped(10, 0, 0, record(0, "open", 10, 3), "register 0 4")), (3, 12)):
        fit("step %d send-backs, three COMMITs passed, a stale read" % n, three, "0*11", "thread 0 backs %d, register 0 4, count 0 1" % n, "0", said)
    for n, said in ((3, stepped(9, 0, 1, record(0, "open", 9, 3))), (4, 12)):
        fit("step %d send-backs, three COMMITs passed" % n, three, "0*11", "thread 0 backs %d" % n, "0", said)
    case("run a lent number that goes on", three, "0*11", "thread 0 backs 2, register 0 4, count 0 3", "0*4", says=ran(4, 0, 1, 1, record(0, "open", 9, 3), "register 0 4"))
    case("run four threads on one register, their send-backs", BUSY, picks=BUSY_PICKS, says=ran(66, 1, 4, 6, record(0, "done 4", 2, 3), record(1, "done 1", 9), record(2, "done 2", 9, 1), record(3, "done 3", 9, 2), "register 0 4"))
    section("any last rule of a thread fits")
    for rule in ("0", "10", "73", "74", "255", "1000000", EVERY):
        case("step a lent rule %s" % rule, WHOLE, "0*2", "thread 0 rule %s, thread 1 rule %s" % (rule, rule), "1", says=stepped(4, 0, 0, record(0, "open", int(rule)), record(1, "open", 4), record(2, "open", 0)))
    section("a rule or a send-back in a record of no thread: 12")
    for field, value in (("rule", "1"), ("rule", "255"), ("backs", "1"), ("backs", EVERY)):
        for i in (3, 15):
            case("run thread %d with %s %s" % (i, field, value), WHOLE, "0*3 2*6", "thread %d %s %s" % (i, field, value), "1", says="refused 12 at 0 kept")
    case("run a rule in record 16", WHOLE, "0*2", "thread 16 rule 9, thread 16 backs 9", "1", says=ran(1, 0, 0, 0, forked, record(1, "open", 4), record(2, "open", 0)))
    section("fresh: no rule and no send-back")
    case("fresh over rules and send-backs", WHOLE, changes="thread 0 rule 9, thread 0 backs 9, thread 15 rule 255, thread 15 backs " + EVERY, says="laid, " + none)


def the_counts():
    def fit(label, tree, setup, changes, pick, said, written=None):
        """A step on a state, its answer, or 12."""
        case(label, tree, setup, changes, pick, says="refused 12 at 0 kept" if said == 12 else said, written=None if said == 12 else written)

    section("a value that went away and came back: thread 1 reads register 0, thread 2 writes 5 and then 0 to it")
    assert job(A_B_A).hex() == "57534a0001000d02040308010700040203080005000000050308000500000000"
    gone, here = "0*2 1*2 2*8", ("thread 0 open", "thread 1 open", "thread 2 open")
    case("run A-B-A", A_B_A, picks=gone + " 1*2", says=ran(14, 0, 2, 1, *here), written={0: 2})
    case("step A-B-A, the COMMIT of thread 1", A_B_A, gone + " 1", picks="1", says=stepped(10, 0, 0, *here), written={0: 2})
    case("run A-B-A, only A-B", A_B_A, picks="0*2 1*2 2*4 1*2", says=ran(10, 0, 1, 1, *here, "register 0 5"), written={0: 1})
    case("run A-B-A, read after it", A_B_A, picks="0*2 2*8 1*4", says=ran(14, 0, 3, 0, "thread 0 open", "thread 1 done 0", "thread 2 open"), written={0: 2, 1: 1})
    ended = ("thread 0 done 0", "thread 1 done 0", "thread 2 done 5")
    case("run A-B-A to the end", A_B_A, picks=gone + " 1*6 2 0", says=ran(20, 0, 3, 1, *ended), written={0: 2, 1: 1})
    case("run A-B-A to the end, from the send-back", A_B_A, gone + " 1*2", picks="1*4 2 0", says=ran(6, 0, 1, 0, *ended), written={0: 2, 1: 1})
    case("cut A-B-A", A_B_A, picks=gone + " 1*6 2 0", says="same")
    section("the same value: thread 1 reads register 0, thread 2 writes the 0 to it that is there")
    assert job(SAME).hex() == "57534a0001000902040308010700040308000500000000"
    here = ("thread 0 open", "thread 1 open", "thread 2 done 0")
    case("run the same value", SAME, picks="0*2 1*2 2*4 1*2", says=ran(10, 0, 1, 1, *here), written={0: 1})
    case("step the same value, the COMMIT of thread 1", SAME, "0*2 1*2 2*4 1", picks="1", says=stepped(10, 0, 0, *here), written={0: 1})
    case("run the same value, read after it", SAME, picks="0*2 2*4 1*4", says=ran(10, 0, 2, 0, "thread 0 open", "thread 1 done 0", "thread 2 done 0"), written={0: 1, 1: 1})
    case("run the same value to the end", SAME, picks="0*2 1*2 2*4 1*6 0", says=ran(15, 0, 2, 1, "thread 0 done 0", "thread 1 done 0", "thread 2 done 0"), written={0: 1, 1: 1})
    case("cut the same value", SAME, picks="0*2 1*2 2*4 1*6 0", says="same")
    own = addp(addp(LOOK, atomic(write(0, valt(0)))), LOOK)
    case("run the same value, the thread's own commit between two transactions", own, picks="0*12", says=ran(12, 0, 3, 0, "thread 0 done 0"), written={0: 1})
    section("each commit counts once in each register of its write log")
    case("run two WRITEs of one register, in each other", atomic(write(0, write(0, valt(5)))), picks="0*5", says=ran(5, 0, 1, 0, "thread 0 done 5", "register 0 5"), written={0: 1})
    case("run two WRITEs of one register, side by side", atomic(addt(write(0, valt(5)), write(0, valt(6)))), picks="0*7", says=ran(7, 0, 1, 0, "thread 0 done 11", "register 0 6"), written={0: 1})
    case("run WRITEs of two registers", atomic(write(63, write(0, valt(5)))), picks="0*5", says=ran(5, 0, 1, 0, "thread 0 done 5", "register 0 5", "register 63 5"), written={0: 1, 63: 1})
    case("run two transactions", addp(OWN, OWN), picks="0*13", says=ran(13, 0, 2, 0, "thread 0 done 20", "register 0 5"), written={0: 2})
    case("run a WRITE up to COMMIT", OWN, picks="0*5", says=ran(5, 0, 0, 0, "thread 0 open"), written={})
    case("run an empty write log", TWICE, picks="0*5", says=ran(5, 0, 1, 0, "thread 0 done 0"), written={})
    case("run an empty write log behind a commit", addp(OWN, LOOK), picks="0*9", says=ran(9, 0, 2, 0, "thread 0 open", "register 0 5"), written={0: 1})
    case("run a WRITE of an attempt that is sent back", WHOLE, picks="0*3 1*2 2*6 1*4", says=ran(15, 0, 1, 1, "thread 0 done 0", "thread 1 open", "thread 2 done 1", "register 0 1"), written={0: 1})
    case("run a WRITE beside a lent write log", after(OWN), "0*8", "thread 0 writes %d, thread 0 writelog 63 7" % (2**63 + 1), "0", says=ran(1, 0, 1, 0, "thread 0 open", "register 0 5", "register 63 7"), written={0: 1, 63: 1})
    section("the logged count: the table's when the register was read")
    for label, tree, setup, count in (("before a commit", WHOLE, "0*2 1*2", 0), ("behind a commit", WHOLE, "0*2 2*6 1*2", 1), ("behind two", addp(addp(OWN, OWN), LOOK), "0*15", 2)):
        memory = answer("run", whole(tree), setup, "", "")[1]
        assert sum(memory.threads[i].readcount[0] for i in range(16)) == memory.counts[0] == count
        case("run a READ %s" % label, tree, setup, written={0: count} if count else {})
    case("run a READ of a lent count", after(LOOK), "0*4", "count 0 1", "0*2", says=ran(2, 0, 1, 0, "thread 0 open"), written={0: 1})
    case("run a READ from the read log, a lent count", after(TWICE), "0*5", "count 3 1", "0*3", says=ran(3, 0, 0, 1, "thread 0 open"), written={3: 1})
    section("a lent log value with the table's count fits, and its COMMIT takes effect")
    marked = "thread 0 reads 1, thread 0 readlog 0 7"
    case("run a lent log value 7, the table having 0", LOOK, "0", marked, "0*2", says=ran(2, 0, 1, 0, "thread 0 done 7"), written={})
    case("step a lent log value 7, at COMMIT", LOOK, "0*2", "thread 0 readlog 0 7", "0", says=stepped(9, 0, 1, "thread 0 done 0"), written={})
    case("run a lent log value 7, both counts 1", after(LOOK), "0*4", marked + ", count 0 1, thread 0 readcount 0 1", "0*3", says=ran(3, 0, 1, 0, "thread 0 done 7"), written={0: 1})
    case("run a lent log value 7, the table's count 1", after(LOOK), "0*4", marked + ", count 0 1", "0*3", says=ran(3, 0, 0, 1, "thread 0 open"), written={0: 1})
    section("no COMMIT passed: a count of 1 is 12")
    for command in ("run", "step"):
        for v in (0, 1, 63):
            case("%s count %d 1 of a fresh state" % (command, v), LOOK, "", "count %d 1" % v, "0", says="refused 12 at 0 kept")
    case("run count 64 1 of a fresh state", LOOK, "", "count 64 1", "0*3", says=ran(3, 0, 1, 0, "thread 0 done 0"), written={})
    fit("step count 0 1 at the first COMMIT", OWN, "0*5", "count 0 1", "0", 12)
    fit("step count 0 1 behind the first COMMIT", OWN, "0*6", "", "0", stepped(0, 0, 0, "thread 0 done 10", "register 0 5"), {0: 1})
    section("one COMMIT passed: any register's count of 1 fits, 2 is 12")
    look = after(LOOK)
    for v in (0, 1, 40, 63):
        fit("step count %d 1 behind one COMMIT" % v, look, "0*3", "count %d 1" % v, "0", stepped(4, 0, 0, "thread 0 open"), {v: 1})
        fit("step count %d 2 behind one COMMIT" % v, look, "0*3", "count %d 2" % v, "0", 12)
    every = ", ".join("count %d 1" % v for v in range(64))
    fit("step every count 1 behind one COMMIT", look, "0*3", every, "0", stepped(4, 0, 0, "thread 0 open"), {v: 1 for v in range(64)})
    fit("step every count 1 but a 2 behind one COMMIT", look, "0*3", every + ", count 33 2", "0", 12)
    case("run a lent count that goes on", after(OWN), "0*8", "count 0 1", "0", says=ran(1, 0, 1, 0, "thread 0 open", "register 0 5"), written={0: 2})
    case("run a count set to 0 that goes on", addp(OWN, OWN), "0*11", "count 0 0", "0", says=ran(1, 0, 1, 0, "thread 0 open", "register 0 5"), written={0: 1})
    section("a log count above the table's, or at an unmarked register: 12")
    for label, tree, setup, changes, said in (
        ("one above 0, no COMMIT passed", LOOK, "0*2", "thread 0 readcount 0 1", 12),
        ("one above 0, one COMMIT passed", look, "0*5", "thread 0 readcount 0 1", 12),
        ("one above 1", look, "0*5", "count 0 1, thread 0 readcount 0 2", 12),
        ("equal to 1", look, "0*5", "count 0 1, thread 0 readcount 0 1", stepped(9, 0, 1, "thread 0 open")),
        ("one below 1", look, "0*5", "count 0 1", stepped(10, 0, 0, "thread 0 open")),
        ("at a marked register never named, above", look, "0*5", "thread 0 reads %d, thread 0 readcount 5 1" % (2**5 + 1), 12),
        ("at a marked register never named, equal", look, "0*5", "thread 0 reads %d, thread 0 readcount 5 1, count 5 1" % (2**5 + 1), stepped(9, 0, 1, "thread 0 open")),
        ("at an unmarked register, no COMMIT passed", LOOK, "0*2", "thread 0 readcount 1 1", 12),
        ("at an unmarked register, the table's being 1", look, "0*5", "thread 0 readcount 1 1, count 1 1", 12),
        ("at register 63, unmarked", look, "0*5", "thread 0 readcount 63 1, count 63 1", 12),
        ("at a register that is written only", after(OWN), "0*8", "thread 0 readcount 0 1, count 0 1", 12),
        ("behind BEGIN, nothing marked", look, "0*4", "thread 0 readcount 0 1, count 0 1", 12),
        ("outside a transaction", look, "0*3", "thread 0 readcount 0 1, count 0 1", 12),
        ("of a thread that has ended", LOOK, "0*3", "thread 0 readcount 0 1, count 0 1", 12),
        ("in a record of no thread", look, "0*5", "thread 1 readcount 0 1, count 0 1", 12),
        ("in the last record", look, "0*5", "thread 15 readcount 63 1, count 63 1", 12),
        ("in record 16", look, "0*5", "thread 16 readcount 63 %s" % MOST, stepped(9, 0, 1, "thread 0 open")),
    ):
        fit("step a log count " + label, tree, setup, changes, "0", said)
    section("a log count below the table's: stale, and 12 if the send-backs are equal to the COMMITs passed")
    three = addp(OWN, addp(OWN, addp(OWN, LOOK)))  # three COMMITs passed, register 0 written three times; at the last COMMIT from 0*20 on
    for backs, count, said in ((0, 2, 10), (2, 2, 10), (2, 0, 10), (3, 2, 12), (3, 0, 12), (3, 3, 9), (4, 3, 12)):
        told = 12 if said == 12 else stepped(said, 0, int(said == 9), "thread 0 open", "register 0 5")
        fit("step a log count of %d below 3, %d send-backs" % (count, backs), three, "0*20", "thread 0 readcount 0 %d, thread 0 backs %d" % (count, backs), "0", told, {0: 3})
    fit("step a log count below the table's, of a thread that is not picked", WHOLE, "0*2 2*6 1*2", "thread 1 readcount 0 0, thread 1 backs 1", "0", 12)


def the_table():
    """The rows of the table of states in docs/TRACE.md, with the same labels."""
    section("states that fit and states that do not: labels as in docs/TRACE.md")
    fresh, one, both, begun, inside, behind, done, ahead = "", "0", "0*2", "0*2 1", "0*2 1*2", "0*2 1*6", "0*2 2*6", "0*2 2*6 1*2"
    picks = "0*2 1*3 2 3"

    def blank(i):
        return "thread %d start 0, thread %d end 0, thread %d place 0" % (i, i, i)

    def spawned(i, start, end):
        return "thread %d start %d, thread %d end %d, thread %d place %d" % (i, start, i, end, i, start)

    rows = (
        ("thread 0 owns the whole code", WHOLE, (
            ("fits-fresh", fresh, "", True),
            ("root-end-early", fresh, "thread 0 end 35", False),
            ("root-end-late", fresh, "thread 0 end 37", False),
            ("root-start", fresh, "thread 0 start 20, thread 0 place 20", False),
        )),
        ("each child its FORK's child code", WHOLE, (
            ("fits-forked", both, "", True),
            ("child-end-early", both, "thread 1 end 19", False),
            ("child-end-late", both, "thread 1 end 35", False),
            ("child-start", both, spawned(1, 9, 20), False),
        )),
        ("less the child code of the FORKs in it; every FORK passed has exactly one thread, and no other exists", WHOLE, (
            ("fits-one", one, "", True),
            ("in-child", one, "thread 0 place 8", False),
            ("missing-thread", both, blank(2), False),
            ("two-threads", both, spawned(3, 23, 35), False),
            ("unforked", one, spawned(2, 23, 35), False),
            ("other-order", both, spawned(1, 23, 35) + ", " + spawned(2, 8, 20), True),
        )),
        ("the same with FORKs in each other", NEST, (
            ("fits-nest-one", one, "", True),
            ("unforked-by-child", one, spawned(2, 11, 55), False),
            ("fits-all-threads", NEST_PICKS, "", True),
            ("last-missing", NEST_PICKS, blank(15), False),
        )),
        ("each place is at an instruction of the thread's own code or at its end", WHOLE, (
            ("fits-inside", inside, "", True),
            ("in-push", inside, "thread 1 place 15", False),
            ("in-read", inside, "thread 1 place 10", False),
            ("no-place", both, "thread 1 place 0", False),
            ("other-child", both, "thread 1 place 23", False),
            ("fits-ended", PICKS, "", True),
            ("behind-end", PICKS, "thread 0 place 37", False),
            ("fits-child-ended", behind, "", True),
            ("behind-child-end", behind, "thread 1 place 35, thread 1 height 2", False),
        )),
        ("the stack height is the one which the instructions before that place leave", WHOLE, (
            ("height-low", both, "thread 0 height 1", False),
            ("height-high", both, "thread 0 height 3", False),
            ("height-high-filled", both, "thread 0 height 3, thread 0 cell 2 1", False),
            ("height-ended", PICKS, "thread 0 height 2", False),
        )),
        ("a transaction is open exactly from after BEGIN until COMMIT is done; its notes", WHOLE, (
            ("fits-begun", begun, "", True),
            ("notes-missing", begun, "thread 1 begin 0", False),
            ("begin-before", both, "thread 1 begin 8", False),
            ("base-before", both, "thread 1 base 1", False),
            ("begin-behind", behind, "thread 1 begin 8", False),
            ("base-behind", behind, "thread 1 base 1", False),
            ("begin-wrong", inside, "thread 1 begin 9", False),
            ("begin-other", inside, "thread 1 begin 23", False),
        )),
        ("the stack height in the notes", HIGH, (
            ("fits-high", "0*4", "", True),
            ("base-low", "0*4", "thread 0 base 1", False),
            ("base-high", "0*4", "thread 0 base 3", False),
        )),
        ("an open attempt's count: above the ADDs passed since its BEGIN the state is foreign", SMALL, (
            ("lent-fits", "0*4", "thread 0 over 1", True),
            ("lent-high", "0*4", "thread 0 over 2", False),
            ("before-add", "0*3", "thread 0 over 1", False),
            ("noted-before", "", "thread 0 over 1", False),
            ("noted-behind", "0*5", "thread 0 over 1", False),
        )),
        ("the same with two ADDs", atomic(addt(valt(1), addt(valt(2), valt(3)))), (
            ("two-adds", "0*6", "thread 0 over 2", True),
            ("two-adds-high", "0*6", "thread 0 over 3", False),
            ("one-of-two", "0*5", "thread 0 over 2", False),
        )),
        ("the same with an ADD before the BEGIN", addp(addp(valp(1), valp(2)), atomic(valt(3))), (
            ("sum-before", "0*4", "", True),
            ("sum-before-noted", "0*4", "thread 0 over 1", False),
            ("noted-outside", "0*3", "thread 0 over 1", False),
        )),
        ("the same with an ADD of the transaction before", addp(SMALL, atomic(valt(3))), (
            ("atomic-before", "0*6", "", True),
            ("atomic-before-noted", "0*6", "thread 0 over 1", False),
        )),
        ("logs and notes being empty otherwise", WHOLE, (
            ("read-before", both, "thread 1 reads 1", False),
            ("write-before", both, "thread 1 writes 1", False),
            ("read-behind", behind, "thread 1 reads " + BIT_63, False),
            ("write-behind", behind, "thread 1 writes " + BIT_63, False),
            ("marked-outside", both, "thread 1 reads %s, thread 1 readlog 63 9" % BIT_63, False),
        )),
        ("Threads are numbered without gaps", WHOLE, (("gap", both, blank(2) + ", " + spawned(3, 23, 35), False),)),
        ("Log values not marked", WHOLE, (
            ("unmarked-read", inside, "thread 1 readlog 1 1", False),
            ("unmarked-read-63", inside, "thread 1 readlog 63 -1", False),
            ("unmarked-write", inside, "thread 1 writelog 0 1", False),
            ("unmarked-write-63", inside, "thread 1 writelog 63 -1", False),
            ("unmarked-read-outside", both, "thread 1 readlog 3 1", False),
            ("unmarked-write-outside", both, "thread 1 writelog 3 1", False),
        )),
        ("stack cells above the height", WHOLE, (
            ("cell-above", both, "thread 0 cell 2 1", False),
            ("cell-63", both, "thread 0 cell 63 -1", False),
        )),
        ("records of threads that do not exist hold 0", WHOLE, (
            ("unused-end", both, "thread 3 end 1", False),
            ("unused-place", both, "thread 3 place 1", False),
            ("unused-height", both, "thread 3 height 1", False),
            ("unused-cell", both, "thread 3 cell 0 1", False),
            ("unused-begin", both, "thread 3 begin 1", False),
            ("unused-base", both, "thread 3 base 1", False),
            ("unused-noted", both, "thread 3 over 1", False),
            ("unused-rule", both, "thread 3 rule 1", False),
            ("unused-rule-last", both, "thread 15 rule " + EVERY, False),
            ("unused-backs", done, "thread 3 backs 1", False),
            ("unused-backs-last", done, "thread 15 backs 1", False),
            ("unused-read", both, "thread 3 reads 1", False),
            ("unused-read-value", both, "thread 3 readlog 63 1", False),
            ("unused-write", both, "thread 3 writes " + BIT_63, False),
            ("unused-write-value", both, "thread 3 writelog 0 -1", False),
            ("unused-last", both, "thread 15 cell 63 1", False),
        )),
        ("values on the stack, in registers and in logs are free; a log may mark a register which its transaction never names", WHOLE, (
            ("free-cells", both, "thread 0 cell 0 7, thread 0 cell 1 -3", True),
            ("free-registers", both, ", ".join("register %d -5" % v for v in range(64)), True),
            ("free-read", ahead, "thread 1 readlog 0 9", True),
            ("free-write", inside, "thread 1 writes 32, thread 1 writelog 5 9", True),
            ("unnamed", "0*2 2*6 1", "thread 1 reads %s, thread 1 readlog 63 9" % BIT_63, True),
        )),
        ("a thread's last rule is free", WHOLE, (
            ("free-rule", both, "thread 0 rule 7, thread 1 rule 73, thread 2 rule 0", True),
            ("free-rule-unknown", both, "thread 0 rule 74, thread 1 rule 255, thread 2 rule " + EVERY, True),
            ("free-rule-ended", PICKS, "thread 0 rule 10, thread 1 rule 0, thread 2 rule 255", True),
        )),
        ("send-backs: above the COMMITs passed by all threads the state is foreign", WHOLE, (
            ("backs-fresh", fresh, "thread 0 backs 1", False),
            ("backs-before-commit", "0*2 1*5", "thread 1 backs 1", False),
            ("backs-in-child", "0*3", "thread 0 backs 1", False),
            ("backs-equal", done, "thread 1 backs 1", True),
            ("backs-above", done, "thread 1 backs 2", False),
            ("backs-equal-ended", done, "thread 2 backs 1", True),
            ("backs-above-ended", done, "thread 2 backs 2", False),
            ("backs-equal-all", done, "thread 0 backs 1, thread 1 backs 1, thread 2 backs 1", True),
            ("backs-equal-two", PICKS, "thread 0 backs 2, thread 1 backs 2, thread 2 backs 2", True),
            ("backs-above-two", PICKS, "thread 0 backs 3", False),
        )),
        ("or equal to it while that thread's open transaction has a stale read", WHOLE, (
            ("stale-none-passed", inside, "count 0 1", False),
            ("stale-none-passed-unnamed", begun, "thread 1 reads %s, thread 1 readlog 63 9, count 63 1" % BIT_63, False),
            ("value-none-passed", inside, "register 0 5", True),
            ("value-none-passed-log", inside, "thread 1 readlog 0 9", True),
            ("value-none-passed-unnamed", begun, "thread 1 reads %s, thread 1 readlog 63 9" % BIT_63, True),
            ("stale-below", "0*2 1*2 2*6", "", True),
            ("stale-equal", "0*2 1*2 2*6", "thread 1 backs 1", False),
            ("stale-above", "0*2 1*2 2*6", "thread 1 backs 2", False),
            ("stale-of-another", "0*2 1*2 2*6", "thread 0 backs 1, thread 2 backs 1", True),
            ("unstale-equal", ahead, "thread 1 backs 1", True),
            ("unstale-above", ahead, "thread 1 backs 2", False),
            ("set-back-equal", "0*2 1*2 2*6", "thread 1 backs 1, register 0 0", False),
            ("count-set-back-equal", "0*2 1*2 2*6", "thread 1 backs 1, count 0 0", True),
            ("value-equal", ahead, "thread 1 backs 1, register 0 9", True),
            ("log-below", ahead, "thread 1 readcount 0 0", True),
            ("log-below-equal", ahead, "thread 1 readcount 0 0, thread 1 backs 1", False),
            ("written-equal", "0*2 2*6 1*5", "thread 1 backs 1, thread 1 writelog 0 -9", True),
            ("unmarked-equal", "0*2 2*6 1", "thread 1 backs 1, register 0 9", True),
        )),
        ("the table's count: above the COMMITs passed by all threads the state is foreign", WHOLE, (
            ("count-fresh", fresh, "count 0 1", False),
            ("count-fresh-63", fresh, "count 63 1", False),
            ("count-before-commit", "0*2 1*5", "count 0 1", False),
            ("count-in-child", "0*3", "count 0 1", False),
            ("count-equal", done, "count 1 1", True),
            ("count-equal-63", done, "count 63 1", True),
            ("count-equal-all", done, ", ".join("count %d 1" % v for v in range(64)), True),
            ("count-above", done, "count 0 2", False),
            ("count-above-63", done, "count 63 2", False),
            ("count-lower", done, "count 0 0", True),
            ("count-equal-two", PICKS, "count 5 2", True),
            ("count-above-two", PICKS, "count 5 3", False),
            ("count-sent-back", "0*3 1*2 2*6 1*4", "count 5 2", False),
        )),
        ("a read log's count: above the table's the state is foreign", WHOLE, (
            ("log-ahead", ahead, "thread 1 readcount 0 2", False),
            ("log-ahead-none-passed", inside, "thread 1 readcount 0 1", False),
            ("log-ahead-lower", ahead, "count 0 0", False),
            ("log-ahead-unnamed", "0*2 2*6 1", "thread 1 reads %s, thread 1 readcount 63 1" % BIT_63, False),
            ("log-equal-unnamed", "0*2 2*6 1", "thread 1 reads %s, thread 1 readcount 63 1, count 63 1" % BIT_63, True),
            ("log-equal-lower", ahead, "count 0 0, thread 1 readcount 0 0", True),
        )),
        ("or, its register unmarked, is not 0", WHOLE, (
            ("unmarked-count", ahead, "thread 1 readcount 1 1, count 1 1", False),
            ("unmarked-count-63", ahead, "thread 1 readcount 63 1, count 63 1", False),
            ("unmarked-count-written", "0*2 2*6 1", "thread 1 writes 1, thread 1 writelog 0 4, thread 1 readcount 0 1", False),
            ("unmarked-count-outside", done, "thread 1 readcount 0 1", False),
            ("unmarked-count-ended", done, "thread 2 readcount 0 1", False),
            ("unused-count", done, "thread 3 readcount 0 1", False),
            ("unused-count-last", done, "thread 15 readcount 63 1, count 63 1", False),
        )),
    )
    for title, tree, states in rows:
        lines.append("# " + title)
        for label, setup, changes, fit in states:
            case("run " + label, tree, setup, changes, picks)
            assert (answers[-1].rpartition(": ")[2] == "refused 12 at 0 kept") != fit, label
    lines.append("# a run of other than 16 records, or a table of other than 64 registers or counts")
    for changes in ("records 15", "records 17", "registers 63", "registers 65", "counts 63", "counts 65"):
        case("run " + changes.replace(" ", "-"), SEVEN, "", changes, "0", says="refused 12 at 0 kept")
    case("run fits-sized", SEVEN, "", "records 16, registers 64, counts 64", "0", says=ran(1, 0, 0, 0, "thread 0 done 7"))
    lines.append("# further states: the last numbers of a record and of 64 bits, and what lies behind the memory lent")
    for label, setup, changes in (
        ("the greatest place", both, "thread 1 place " + EVERY),
        ("the greatest height", both, "thread 0 height " + EVERY),
        ("the greatest end", "", "thread 0 end " + EVERY),
        ("the greatest start", "", "thread 0 start " + EVERY),
        ("the greatest notes", inside, "thread 1 begin %s, thread 1 base %s" % (EVERY, EVERY)),
        ("the greatest count of sums", "0*2 1*4", "thread 1 over " + EVERY),
        ("the greatest number of send-backs", done, "thread 1 backs " + EVERY),
        ("the greatest count", done, "count 0 " + MOST),
        ("the greatest count of a read log", ahead, "thread 1 readcount 0 " + MOST),
        ("a height of 64", both, "thread 0 height 64"),
        ("all registers marked outside", both, "thread 2 reads " + EVERY),
        ("a place in the mark", "", "thread 0 place 4"),
        ("thread 0 in a child's code", "", spawned(0, 8, 20)),
        ("thread 0 in a child's code, as thread 1 is", one, spawned(0, 8, 20) + ", thread 0 height 0"),
        ("no thread", "", blank(0)),
        ("no thread 0", both, blank(0) + ", thread 0 height 0"),
        ("threads 0 and 1 exchanged", one, spawned(0, 8, 20) + ", thread 1 start 5, thread 1 end 36, thread 1 place 20, thread 0 height 0, thread 1 height 1"),
    ):
        case("run " + label, WHOLE, setup, changes, picks, says="refused 12 at 0 kept")
    case("run record 16, register 64 and count 64 changed", WHOLE, both, "thread 16 start 9, thread 16 cell 0 3, thread 16 readcount 0 3, register 64 12, count 64 " + MOST, picks)
    assert "refused" not in answers[-1]


def the_cuts():
    section("cut: one call, and two calls cut at each place")
    case("cut the whole case", WHOLE, picks=PICKS, says="same")
    case("cut the whole case with idle picks", WHOLE, picks="9 0*3 1*2 0 2*6 255 1*12 2", says="same")
    case("cut four threads on one register", BUSY, picks=BUSY_PICKS, says="same")
    end = ("thread 0 done 4", "thread 1 done 1", "thread 2 done 2", "thread 3 done 3", "register 0 4")
    case("run four threads on one register", BUSY, picks=BUSY_PICKS, says=ran(66, 1, 4, 6, *end))
    case("cut from the middle", BUSY, "0*3 0 1 2 3 0 1 2 3", picks="0*3 1*4 2*9 3*4 0 1 0*8 3*2 1*9", says="same")
    case("cut 15 FORKs", NEST, picks=NEST_PICKS + " 15 16", says="same")
    case("cut an empty list", SEVEN, says="same")


def the_lines():
    section("lines that are no case")
    text = job(SEVEN).hex()
    for label, body in (
        ("jump another command", "%s; ; ; 0" % text),
        ("run half a byte", "57 5; ; ; 0"),
        ("run a job that is refused", "575343; ; ; 0"),
        ("run pick 256", "%s; ; ; 256" % text),
        ("run no number of times", "%s; ; ; 0*" % text),
        ("run a pick in setup", "%s; x; ; 0" % text),
        ("run another change", "%s; ; threads 3; 0" % text),
        ("run another field", "%s; ; thread 0 begins 3; 0" % text),
        ("run no value of a rule", "%s; ; thread 0 rule; 0" % text),
        ("run no value of the send-backs", "%s; ; thread 0 backs; 0" % text),
        ("run thread 17", "%s; ; thread 17 start 3; 0" % text),
        ("run no value of a count in a read log", "%s; ; thread 0 readcount 1; 0" % text),
        ("run cell 64", "%s; ; thread 0 cell 64 3; 0" % text),
        ("run readcount 64", "%s; ; thread 0 readcount 64 3; 0" % text),
        ("run register 65", "%s; ; register 65 3; 0" % text),
        ("run count 65", "%s; ; count 65 3; 0" % text),
        ("run 18 records", "%s; ; records 18; 0" % text),
        ("run 66 registers", "%s; ; registers 66; 0" % text),
        ("run 66 counts", "%s; ; counts 66; 0" % text),
        ("run a byte behind the code", "%s; ; code 10 3; 0" % text),
        ("run no value", "%s; ; register 0; 0" % text),
        ("run no count", "%s; ; count 0; 0" % text),
        ("step two picks", "%s; ; ; 0*2" % text),
        ("step no pick", "%s; ; ; " % text),
    ):
        line(label, body, "malformed")
    lines.append("a line with no colon")
    answers.append("a line with no colon: malformed")


# ---- random cases


def some_tran(rng, size, registers):
    if size == 1:
        return read(rng.choice(registers)) if rng.random() < 0.6 else valt(rng.choice((1, 2, -1, 1000000000, -2147483648)))
    if size == 2 or rng.random() < 0.5:
        return write(rng.choice(registers), some_tran(rng, size - 1, registers))
    left = rng.randint(1, size - 2)
    return addt(some_tran(rng, left, registers), some_tran(rng, size - 1 - left, registers))


def some_proc(rng, size, registers):
    if size == 1:
        return valp(rng.choice((0, 1, -3, 2147483647)))
    kind = rng.random()
    if size == 2 or kind < 0.35:
        if rng.random() < 0.7:
            return atomic(some_tran(rng, size - 1, registers))
        return fork(some_proc(rng, size - 1, registers))
    if kind < 0.55:
        return fork(some_proc(rng, size - 1, registers))
    left = rng.randint(1, size - 2)
    return addp(some_proc(rng, left, registers), some_proc(rng, size - 1 - left, registers))


def forks(tree):
    return (tree[0] == 4) + sum(forks(part) for part in tree[2])


def some_tree(rng):
    while True:
        tree = some_proc(rng, rng.randint(3, 25), rng.choice(((0,), (0, 1), (0, 1, 63))))
        if forks(tree) <= 15:
            return tree


def some_picks(rng, count, most):
    """Picks of the threads that there can be, now and then an idle one; runs of one thread happen."""
    out = []
    while len(out) < most:
        i = rng.randint(0, count) if rng.random() < 0.92 else rng.choice((count + 1, 15, 16, 255))
        out.append("%d*%d" % (i, n) if (n := rng.choice((1, 1, 1, 2, 3, 7))) > 1 else str(i))
    return " ".join(out)


def some_change(rng, tree, code, setup):
    """A change of one number, or of two, of a state that fits; often to a number that is near."""
    memory = Memory()
    call_fresh(code, memory)
    call_run(code, memory, listed(setup))
    count = sum(record.start != 0 for record in memory.threads[:16])
    i = rng.randint(0, min(count, 15))
    t = memory.threads[i]
    kind = rng.random()
    if kind < 0.12:
        return "code %d %d" % (rng.randrange(len(code)), rng.choice((0, 1, 2, 3, 5, 6, 7, 64)))
    v = rng.choice((0, 1, 63))
    if kind < 0.2:
        return "register %d %d" % (v, rng.randint(-3, 3))
    if kind < 0.3:
        return "count %d %d" % (v, max(0, memory.counts[v] + rng.choice((-1, 1, 1, 2))))
    if kind < 0.38:
        return "thread %d readcount %d %d" % (i, v, max(0, memory.counts[v] + rng.choice((-1, 0, 0, 1))))
    if kind < 0.5:
        log, logged = rng.choice((("reads", "readlog"), ("writes", "writelog")))
        return "thread %d %s %d, thread %d %s %d %d" % (i, log, getattr(t, log) | 1 << v, i, logged, v, rng.randint(-2, 2))
    if kind < 0.6:
        return "thread %d cell %d %d" % (i, max(0, t.height + rng.randint(-2, 1)), rng.randint(-2, 2))
    if kind < 0.7:
        return "thread %d %s %d %d" % (i, rng.choice(("readlog", "writelog")), v, rng.randint(-1, 1))
    if kind < 0.8:
        return "thread %d place %d, thread %d height %d" % (i, rng.randint(5, len(code)), i, max(0, t.height + rng.randint(-1, 1)))
    name = rng.choice(SCALARS)
    return "thread %d %s %d" % (i, name, max(0, getattr(t, name) + rng.choice((-1, 1, 2, 3))))


def the_random():
    section("random jobs and picks")
    rng = random.Random(20260101)
    for k in range(190):
        tree = some_tree(rng)
        case("run random %d" % k, tree, "", "", some_picks(rng, forks(tree), 30))
    for k in range(70):
        tree = some_tree(rng)
        case("step random %d" % k, tree, some_picks(rng, forks(tree), 14), "", str(rng.randint(0, forks(tree))))
    for k in range(25):
        tree = some_tree(rng)
        case("cut random %d" % k, tree, "", "", some_picks(rng, forks(tree), 16), says="same")
    section("random jobs and picks, a number changed in between")
    for k in range(140):
        tree = some_tree(rng)
        setup = some_picks(rng, forks(tree), 10)
        case("run changed %d" % k, tree, setup, some_change(rng, tree, bytearray(whole(tree)), setup), some_picks(rng, forks(tree), 12))


def make():
    lines.append("# Calls of fresh, step and run on states, written by cases.py.")
    for part in (the_whole_case, fresh_states, the_order, the_events, the_sizes, the_transactions, the_overs, the_rules, the_counts, the_table, the_cuts, the_lines, the_random):
        part()

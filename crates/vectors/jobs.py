"""Cases of the job reader, the compiler, the way back and the forecast, for cases.py, which writes them.

The job reader, the compiler, the way back and the forecast here are a second implementation, written from documents
01 and 02 alone. Most cases also state their answer by hand, and the two are compared before anything is written.
"""
import os
import sys

sys.setrecursionlimit(20000)

# ---- nodes and trees: a node is (kind, operand bytes, parts)

VALP_KIND, ADDP_KIND, ATOMIC_KIND, FORK_KIND, VALT_KIND, ADDT_KIND, READ_KIND, WRITE_KIND = range(1, 9)
PROCESS = (1, 2, 3, 4)
TRANSACTION = (5, 6, 7, 8)
# kind: operand's length in bytes, permitted kinds of each part, bytes of code without the parts'
KINDS = {
    VALP_KIND: (4, (), 5),
    ADDP_KIND: (0, (PROCESS, PROCESS), 1),
    ATOMIC_KIND: (0, (TRANSACTION,), 2),
    FORK_KIND: (0, (PROCESS,), 3),
    VALT_KIND: (4, (), 5),
    ADDT_KIND: (0, (TRANSACTION, TRANSACTION), 1),
    READ_KIND: (1, (), 2),
    WRITE_KIND: (1, (TRANSACTION,), 2),
}


def valp(n):
    return (VALP_KIND, n.to_bytes(4, "big", signed=True), ())


def addp(a, b):
    return (ADDP_KIND, b"", (a, b))


def atomic(t):
    return (ATOMIC_KIND, b"", (t,))


def fork(p):
    return (FORK_KIND, b"", (p,))


def valt(n):
    return (VALT_KIND, n.to_bytes(4, "big", signed=True), ())


def addt(a, b):
    return (ADDT_KIND, b"", (a, b))


def read(v):
    return (READ_KIND, bytes([v]), ())


def write(v, t):
    return (WRITE_KIND, bytes([v]), (t,))


def encode(tree):
    """The tree's nodes in prefix order."""
    kind, operand, parts = tree
    return bytes([kind]) + operand + b"".join(encode(p) for p in parts)


def nodes(tree):
    return 1 + sum(nodes(p) for p in tree[2])


def code_length(tree):
    """The length of the tree's code, without mark and version."""
    return KINDS[tree[0]][2] + sum(code_length(p) for p in tree[2])


def head(count, version=1, mark=b"WSJ"):
    return mark + version.to_bytes(2, "big") + count.to_bytes(2, "big")


def job(tree, count=None, version=1):
    return head(nodes(tree) if count is None else count, version) + encode(tree)


# ---- the job reader


def read_job(data):
    """('accepted', version, code length) or ('refused', number, place)."""
    length = len(data)
    if length < 7:
        return refused(1, length)
    if data[0:3] != b"WSJ":
        return refused(2, 0)
    version = data[3] * 256 + data[4]
    if version != 1:
        return refused(3, 3)
    count = data[5] * 256 + data[6]
    if count == 0 or count > 1000:
        return refused(4, 5)
    # the nodes that are due, the next one last: what is permitted there, and its depth
    due = [(PROCESS, 1)]
    transactions = []  # of each its ATOMIC's place and how many nodes it holds
    at, used, forks, code = 7, 0, 0, 5
    while due:
        permitted, depth = due.pop()
        if used == count:
            return refused(9, at)
        if at == length:
            return refused(1, length)
        kind = data[at]
        if kind not in permitted:
            return refused(5, at)
        if depth > 64:
            return refused(7, at)
        size, parts, own = KINDS[kind]
        if length - at - 1 < size:
            return refused(1, length)
        if kind in (READ_KIND, WRITE_KIND) and data[at + 1] > 63:
            return refused(6, at + 1)
        if kind == FORK_KIND:
            forks += 1
            if forks == 16:
                return refused(8, at)
        if kind == ATOMIC_KIND:
            transactions.append([at, 0])
        elif kind in TRANSACTION:
            transactions[-1][1] += 1
        for part in reversed(parts):
            due.append((part, depth + 1))
        at += 1 + size
        used += 1
        code += own
    if used != count or at != length:
        return refused(9, at)
    for place, held in transactions:
        if held > 200:
            return refused(14, place)
    return accepted(code)


def accepted(code, version=1):
    return ("accepted", version, code)


def refused(number, place):
    return ("refused", number, place)


# ---- the compiler


def code_of(tree):
    """The tree's code, without mark and version."""
    kind, operand, parts = tree
    codes = [code_of(p) for p in parts]
    if kind in (VALP_KIND, VALT_KIND):
        return b"\x01" + operand
    if kind in (ADDP_KIND, ADDT_KIND):
        return codes[0] + codes[1] + b"\x02"
    if kind == READ_KIND:
        return b"\x03" + operand
    if kind == WRITE_KIND:
        return codes[0] + b"\x04" + operand
    if kind == ATOMIC_KIND:
        return b"\x05" + codes[0] + b"\x06"
    return b"\x07" + len(codes[0]).to_bytes(2, "big") + codes[0]


def tree_at(data, at):
    """The tree whose root is at this place of an accepted job, and the place behind it."""
    kind = data[at]
    size, permitted, _ = KINDS[kind]
    operand, at = data[at + 1 : at + 1 + size], at + 1 + size
    parts = []
    for _ in permitted:
        part, at = tree_at(data, at)
        parts.append(part)
    return (kind, operand, tuple(parts)), at


def whole(tree):
    """The code of a job, with mark and version 1."""
    return b"WSC\x00\x01" + code_of(tree)


def compile_job(data, size):
    """The code's bytes or ('refused', number, place)."""
    reading = read_job(data)
    if reading[0] == "refused":
        return reading
    if size < reading[2]:
        return refused(10, 0)
    code = whole(tree_at(data, 7)[0])
    assert len(code) == reading[2]
    return code


# ---- the way back: instructions are taken forward, a FORK with its child's in one piece, and what they
# come from is then read from their end


class Foreign(Exception):
    pass


OPERANDS = {1: 4, 2: 0, 3: 1, 4: 1, 5: 0, 6: 0, 7: 2}


def instructions(code):
    """Pairs (opcode, operand); the operand of FORK is its child's instructions."""
    taken = []
    while code:
        op = code[0]
        if op not in OPERANDS:
            raise Foreign
        operand, code = code[1 : 1 + OPERANDS[op]], code[1 + OPERANDS[op] :]
        if len(operand) < OPERANDS[op]:
            raise Foreign
        if op == 7:
            length = int.from_bytes(operand, "big")
            if length > len(code):
                raise Foreign
            operand, code = instructions(code[:length]), code[length:]
        taken.append((op, operand))
    return taken


def last_process(taken):
    """Takes off the instructions of the process that they end with."""
    if not taken:
        raise Foreign
    op, operand = taken.pop()
    if op == 1:
        return (VALP_KIND, operand, ())
    if op == 2:
        right = last_process(taken)
        return addp(last_process(taken), right)
    if op == 6:
        inner = last_transaction(taken)
        if not taken or taken.pop()[0] != 5:
            raise Foreign
        return atomic(inner)
    if op == 7:
        return fork(only_process(operand))
    raise Foreign


def last_transaction(taken):
    if not taken:
        raise Foreign
    op, operand = taken.pop()
    if op == 1:
        return (VALT_KIND, operand, ())
    if op == 2:
        right = last_transaction(taken)
        return addt(last_transaction(taken), right)
    if op == 3:
        return (READ_KIND, operand, ())
    if op == 4:
        return (WRITE_KIND, operand, (last_transaction(taken),))
    raise Foreign


def only_process(taken):
    tree = last_process(taken)
    if taken:
        raise Foreign
    return tree


def job_of(code):
    """The accepted job that compiles to this code, or None."""
    if code[:5] != b"WSC\x00\x01":
        return None
    try:
        tree = only_process(instructions(code[5:]))
    except Foreign:
        return None
    if nodes(tree) > 1000:
        return None
    data = job(tree)
    return data if compile_job(data, len(code)) == code else None


def read_back(code, size):
    """The job's bytes or ('refused', number, place)."""
    data = job_of(code)
    if data is None:
        return refused(11, 0)
    if size < len(data):
        return refused(10, 0)
    return data


# ---- the forecast: (code length, K, T, L, M, bound, registers of READ, of WRITE, heights), the registers as lists


def each_node(tree):
    """All nodes in job order."""
    yield tree
    for part in tree[2]:
        yield from each_node(part)


def parts_of(tree, kind):
    """The parts of all nodes of a kind that has one, in job order."""
    return [node[2][0] for node in each_node(tree) if node[0] == kind]


def named(tree, kind):
    return sorted({node[1][0] for node in each_node(tree) if node[0] == kind})


def height(tree):
    """The greatest stack height while the tree's own code is run; a FORK pushes 0, and its child has another stack."""
    kind, _, parts = tree
    if kind == FORK_KIND or not parts:
        return 1
    if len(parts) == 1:
        return height(parts[0])
    return max(height(parts[0]), 1 + height(parts[1]))


def forecast(data):
    reading = read_job(data)
    if reading[0] == "refused":
        return reading
    tree = tree_at(data, 7)[0]
    threads = [tree] + parts_of(tree, FORK_KIND)
    transactions = parts_of(tree, ATOMIC_KIND)
    k, t, l = len(transactions), len(threads), nodes(tree) + len(transactions)
    m = max((nodes(part) + 2 for part in transactions), default=0)
    bound = l + (k - 1) * (t - 1) * m if k else l
    return (reading[2], k, t, l, m, bound, named(tree, READ_KIND), named(tree, WRITE_KIND), [height(thread) for thread in threads])


# ---- shapes of trees


def left_comb(add, leaf, depth):
    """A comb whose lowest leaves stand at this depth, the left part being the deep one."""
    tree = leaf
    for _ in range(depth - 1):
        tree = add(tree, leaf)
    return tree


def right_comb(add, leaf, depth):
    tree = leaf
    for _ in range(depth - 1):
        tree = add(leaf, tree)
    return tree


def balanced(add, leaf, leaves):
    return flat(add, [leaf] * leaves)


def flat(add, parts):
    """The sum of the parts, its left half being as large as its right one or one smaller."""
    if len(parts) == 1:
        return parts[0]
    half = len(parts) // 2
    return add(flat(add, parts[:half]), flat(add, parts[half:]))


def chain(node, times, tree):
    for _ in range(times):
        tree = node(tree)
    return tree


def write0(t):
    return write(0, t)


def sized(size):
    """A transaction of so many nodes: a sum of READs, or a WRITE of one."""
    return balanced(addt, read(5), (size + 1) // 2) if size % 2 else write0(sized(size - 1))


# ---- the cases


class Cases:
    """The lines of a program's standard input, and what it is to write for them."""

    def __init__(self):
        self.lines = []  # of stdin
        self.answers = []  # lines of stdout
        self.labels = set()

    def section(self, title):
        self.lines.append("")
        self.lines.append("# " + title)

    def line(self, label, text, answer):
        assert label and label[0] != "#" and not set(":\n") & set(label) and label not in self.labels, label
        self.labels.add(label)
        self.lines.append(label + ":" + (" " + text if text else ""))
        self.answers.append(label + ": " + answer)

    def save(self, folder, room):
        """Writes both files; `room` is the program's, for its input."""
        for name, text in (("stdin", self.lines), ("stdout", self.answers)):
            text = "\n".join(text) + "\n"
            assert len(text) <= room, len(text)
            with open(os.path.join(folder, name), "w", newline="\n") as file:
                file.write(text)
        print(len(self.answers), "cases")


cases = Cases()
lines, answers, labels, section, line = cases.lines, cases.answers, cases.labels, cases.section, cases.line


def show(answer):
    if answer[0] == "accepted":
        return "accepted version %d code %d" % answer[1:]
    return "refused %d at %d" % answer[1:]


def to_bytes(data):
    return bytes.fromhex(data) if isinstance(data, str) else data


def to_text(data):
    """Bytes as hex. Long ones have no spaces."""
    return data.hex(" ").upper() if len(data) < 100 else data.hex()


def words(picks):
    """A list of picks as text, such as ' 0*3 1'."""
    out, at = "", 0
    while at < len(picks):
        times = 1
        while at + times < len(picks) and picks[at + times] == picks[at]:
            times += 1
        while times:
            n = min(times, 40000)
            out += " %d" % picks[at] + ("*%d" % n if n > 1 else "")
            times, at = times - n, at + n
    return out


def case(label, data, answer):
    """A job given as bytes or as hex."""
    data = to_bytes(data)
    assert read_job(data) == answer, (label, data.hex(" "), read_job(data), answer)
    line("job " + label, to_text(data), show(answer))


def taken(label, tree):
    """A tree whose job is accepted, its code length by `code_length`."""
    case(label, job(tree), accepted(5 + code_length(tree)))


def show_output(word, answer):
    """An answer that goes with an output, whose bytes behind the result stay."""
    if isinstance(answer, tuple):
        text = show(answer)
    elif len(answer) <= 64:
        text = word + " " + answer.hex(" ").upper()
    else:
        text = "%s %d bytes sum %d" % (word, len(answer), sum(b * (i + 1) for i, b in enumerate(answer)) % 65536)
    return text + " kept"


def compiling(label, size, data, answer):
    """A job and the code it has, or its refusal, in an output of this size."""
    data, answer = to_bytes(data), to_bytes(answer)
    assert compile_job(data, size) == answer, (label, data.hex(" "), compile_job(data, size), answer)
    line("compile %d %s" % (size, label), to_text(data), show_output("code", answer))


def back(label, size, code, answer):
    """Code and the job it has, or its refusal, in an output of this size."""
    code, answer = to_bytes(code), to_bytes(answer)
    assert read_back(code, size) == answer, (label, code.hex(" "), read_back(code, size), answer)
    line("back %d %s" % (size, label), to_text(code), show_output("job", answer))


def show_forecast(answer):
    if answer[0] == "refused":
        return show(answer)
    *numbers, reads, writes, heights = answer
    numbers += [sum(1 << v for v in names) for names in (reads, writes)]
    heights = " ".join(str(n) for n in heights + [0] * (16 - len(heights)))
    return "code %d transactions %d threads %d instructions %d longest %d bound %d reads %d writes %d" % tuple(numbers) + " heights " + heights


def foretold(label, data, answer):
    """A job and its forecast, or its refusal."""
    data = to_bytes(data)
    assert forecast(data) == answer, (label, data.hex(" "), forecast(data), answer)
    line("forecast " + label, to_text(data), show_forecast(answer))


def both(label, tree):
    """A tree there and back, into outputs of exactly the size."""
    compiling(label, len(whole(tree)), job(tree), whole(tree))
    back(label, len(job(tree)), whole(tree), job(tree))


def foreign(label, code, size=100):
    """Code that no accepted job has: what follows mark and version, or, as bytes, all of it."""
    if isinstance(code, str):
        code = b"WSC\x00\x01" + bytes.fromhex(code)
    back(label, size, code, refused(11, 0))


V = valp(7)
T = valt(7)
STEP = fork(atomic(write(0, addt(read(0), valt(1)))))
DEEP = bytes([ADDP_KIND]) * 64  # the next node is at depth 65
FORKS = bytes([FORK_KIND]) * 15  # the next FORK is the sixteenth


def accepted_jobs():
    section("accepted jobs")
    case(
        "document 01's whole case",
        "57 53 4A 00 01 00 0D 02" + 2 * "04 03 08 00 06 07 00 05 00 00 00 01",
        accepted(36),
    )
    assert encode(addp(STEP, STEP)) == bytes.fromhex("02" + 2 * "04 03 08 00 06 07 00 05 00 00 00 01")
    case("document 01's job of one number", "57 53 4A 00 01 00 01 01 00 00 00 07", accepted(10))
    taken("the least number, of bytes that are kinds", valp(-2147483648 + 0x010203))
    taken("the number -1, of bytes FF", valp(-1))
    taken("a sum of two numbers", addp(valp(2147483647), valp(1)))
    taken("each kind once", addp(fork(V), atomic(addt(write(2, read(1)), T))))
    taken("a write of a read", atomic(write(6, read(7))))
    taken("a fork in a fork", fork(fork(V)))


def the_head():
    section("1 to 4: cut, mark, version, count")
    case("no bytes", "", refused(1, 0))
    case("one byte", "57", refused(1, 1))
    case("six bytes", "57 53 4A 00 01 00", refused(1, 6))
    case("six bytes with a wrong mark", "57 53 4B 00 01 00", refused(1, 6))
    case("seven bytes, no node", "57 53 4A 00 01 00 01", refused(1, 7))
    for i, letter in enumerate(("first", "second", "third")):
        for by, word in ((-1, "below"), (1, "above")):
            data = bytearray(job(V))
            data[i] += by
            case("mark with its %s letter one %s" % (letter, word), bytes(data), refused(2, 0))
    case("the mark of stack code", "57 53 43 00 01 00 01 01 00 00 00 07", refused(2, 0))
    for version in (0, 2, 256, 257):
        case("version %d" % version, job(V, version=version), refused(3, 3))
    case("count 0", head(0) + encode(V), refused(4, 5))
    case("count 0 and no byte behind it", head(0), refused(4, 5))
    for count in (1001, 65535):
        case("count %d of a single node" % count, head(count) + encode(V), refused(4, 5))
    case("count 1000 of a single node", head(1000) + encode(V), refused(9, 12))
    case("mark, version and count wrong", head(0, 0, b"WSC"), refused(2, 0))
    case("version and count wrong", head(0, 2), refused(3, 3))
    case("count and kind wrong", head(1001) + b"\x09", refused(4, 5))


def the_kinds():
    section("5: kinds")
    for kind in (0, 9, 255):
        case("kind %d at the root" % kind, head(1) + bytes([kind]), refused(5, 7))
    # a process may not stand as a part of a transaction, nor the other way round
    for name, kind in (("VALT", 5), ("ADDT", 6), ("READ", 7), ("WRITE", 8)):
        case("%s as the root" % name, head(2) + bytes([kind, 0, 0, 0, 0]), refused(5, 7))
    case("VALT as left part of ADDP", job(addp(T, V)), refused(5, 8))
    case("READ as right part of ADDP", job(addp(V, read(0))), refused(5, 13))
    case("ADDT as part of FORK", job(fork(addt(T, T))), refused(5, 8))
    case("WRITE as part of FORK", job(fork(write(0, T))), refused(5, 8))
    case("VALP as part of ATOMIC", job(atomic(V)), refused(5, 8))
    case("ATOMIC as part of ATOMIC", job(atomic(atomic(T))), refused(5, 8))
    case("ADDP as left part of ADDT", job(atomic(addt(addp(V, V), T))), refused(5, 9))
    case("VALP as right part of ADDT", job(atomic(addt(T, V))), refused(5, 14))
    case("FORK as part of WRITE", job(atomic(write(0, fork(V)))), refused(5, 10))
    case("VALP as part of WRITE", job(atomic(write(0, V))), refused(5, 10))
    case("kind 9 as part of FORK", head(2) + b"\x04\x09", refused(5, 8))
    case("kind 0 as part of WRITE", head(3) + b"\x03\x08\x00\x00", refused(5, 10))
    case("kind 9 as right part of ADDT", head(4) + b"\x03\x06\x07\x00\x09", refused(5, 11))


def the_registers():
    section("6: registers")
    taken("READ of register 63", atomic(read(63)))
    taken("WRITE of register 63", atomic(write(63, T)))
    for v in (64, 255):
        case("READ of register %d" % v, job(atomic(read(v))), refused(6, 9))
        case("WRITE of register %d" % v, job(atomic(write(v, T))), refused(6, 9))
    case("register 64 in the right part of a sum", job(atomic(addt(read(63), read(64)))), refused(6, 12))
    case("WRITE of register 64 with no part", head(3) + b"\x03\x08\x40", refused(6, 9))
    case("WRITE of register 64, then READ of it", job(atomic(write(64, read(64)))), refused(6, 9))
    case("READ of register 64 and bytes behind it", job(atomic(read(64))) + b"\x00", refused(6, 9))


def the_depth():
    section("7: depth 64 and 65")
    taken("ADDP left comb of depth 64", left_comb(addp, V, 64))
    case("ADDP left comb of depth 65", job(left_comb(addp, V, 65)), refused(7, 71))
    taken("ADDP right comb of depth 64", right_comb(addp, V, 64))
    case("ADDP right comb of depth 65", job(right_comb(addp, V, 65)), refused(7, 386))
    taken("ADDT left comb of depth 64", atomic(left_comb(addt, read(1), 63)))
    case("ADDT left comb of depth 65", job(atomic(left_comb(addt, read(1), 64))), refused(7, 71))
    taken("ADDT right comb of depth 64", atomic(right_comb(addt, read(1), 63)))
    case("ADDT right comb of depth 65", job(atomic(right_comb(addt, read(1), 64))), refused(7, 195))
    taken("ATOMIC and WRITEs to depth 64", atomic(chain(write0, 62, T)))
    case("ATOMIC and WRITEs to depth 65", job(atomic(chain(write0, 63, T))), refused(7, 134))
    taken("15 FORKs and sums to depth 64", chain(fork, 15, left_comb(addp, V, 49)))
    case("15 FORKs and sums to depth 65", job(chain(fork, 15, left_comb(addp, V, 50))), refused(7, 71))
    taken("READ at depth 64 on both sides", addp(*[atomic(chain(write0, 61, read(2)))] * 2))
    case("READ at depth 65 on the right", job(addp(V, atomic(chain(write0, 62, read(2))))), refused(7, 138))
    deep = left_comb(addp, V, 63)  # to be put below another ADDP
    taken("depth 64 left, then depth 64 right", addp(deep, right_comb(addp, V, 63)))
    case("depth 64 left, then depth 65 right", job(addp(deep, left_comb(addp, V, 64))), refused(7, 448))
    section("at depth 65: which test is first")
    case("depth 65, count used up", head(64) + DEEP + encode(V), refused(9, 71))
    case("depth 65, no byte left", head(65) + DEEP, refused(1, 71))
    case("depth 65, kind 9", head(65) + DEEP + b"\x09", refused(5, 71))
    case("depth 65, kind 0 and count used up", head(64) + DEEP + b"\x00", refused(9, 71))
    case("depth 65, VALT where a process is due", head(65) + DEEP + encode(T), refused(5, 71))
    case("depth 65, ATOMIC, count right up to it", head(65) + DEEP + b"\x03", refused(7, 71))
    case("depth 65, operand cut", head(65) + DEEP + b"\x01\x00\x00\x00", refused(7, 71))
    in_writes = b"\x03" + b"\x08\x00" * 63
    case("depth 65, READ of register 64", head(65) + in_writes + b"\x07\x40", refused(7, 134))
    case("depth 65, READ with no operand", head(65) + in_writes + b"\x07", refused(7, 134))
    case("depth 65, VALP where a transaction is due", head(65) + in_writes + b"\x01", refused(5, 134))
    case("depth 65, a sixteenth FORK", head(65) + FORKS + DEEP[15:] + b"\x04", refused(7, 71))
    case("depth 64, a sixteenth FORK", head(64) + FORKS + DEEP[16:] + b"\x04", refused(8, 70))


def the_forks():
    section("8: 15 and 16 FORKs")
    taken("15 FORKs in each other", chain(fork, 15, V))
    case("16 FORKs in each other", job(chain(fork, 16, V)), refused(8, 22))
    taken("15 FORKs side by side", balanced(addp, fork(V), 15))
    side = job(balanced(addp, fork(V), 16))
    case("16 FORKs side by side", side, refused(8, len(side) - 6))
    case("16 FORKs, the last with no part", head(17) + FORKS + b"\x04", refused(8, 22))
    case("16 FORKs, the last with a part of kind 9", head(17) + FORKS + b"\x04\x09", refused(8, 22))
    case("16 FORKs, count used up at the last", head(15) + FORKS + b"\x04", refused(9, 22))
    case("15 FORKs, then no byte", head(16) + FORKS, refused(1, 22))


def the_cuts():
    section("1: nodes cut")
    for n in range(4):
        case("VALP cut after %d bytes of its number" % n, job(V)[: 8 + n], refused(1, 8 + n))
        data = job(atomic(T))[: 9 + n]
        case("VALT cut after %d bytes of its number" % n, data, refused(1, 9 + n))
    case("READ with no register", job(atomic(read(0)))[:-1], refused(1, 9))
    case("WRITE with no register", head(3) + b"\x03\x08", refused(1, 9))
    case("WRITE with no part", head(3) + b"\x03\x08\x00", refused(1, 10))
    case("ATOMIC with no part", head(2) + b"\x03", refused(1, 8))
    case("FORK with no part", head(2) + b"\x04", refused(1, 8))
    case("ADDP with no right part", job(addp(V, V))[:13], refused(1, 13))
    case("kind 9 with nothing behind it", head(1) + b"\x09", refused(5, 7))
    case("VALT as the root, its number cut", head(1) + b"\x05\x00", refused(5, 7))
    case("the whole case without its last byte", job(addp(STEP, STEP))[:-1], refused(1, 31))


def the_lengths():
    section("9: nodes or bytes do not match the count")
    case("count used up and no byte left", "57 53 4A 00 01 00 01 02", refused(9, 8))
    case("count not used up and no byte left", "57 53 4A 00 01 00 02 02", refused(1, 8))
    case("count used up before a kind 9", "57 53 4A 00 01 00 01 02 09", refused(9, 8))
    case("count used up before the right part", job(addp(V, V), count=2), refused(9, 13))
    case("count used up before the right part, a kind 0", head(2) + b"\x02" + encode(V) + b"\x00", refused(9, 13))
    case("count used up before the part of WRITE", job(atomic(write(0, T)), count=2), refused(9, 10))
    case("count one below the nodes of the whole case", job(addp(STEP, STEP), count=12), refused(9, 27))
    case("count one above the nodes of the whole case", job(addp(STEP, STEP), count=14), refused(9, 32))
    case("count one above, and no byte left over", job(V, count=2), refused(9, 12))
    case("a byte behind the tree", job(V) + b"\x00", refused(9, 12))
    case("a node behind the tree", job(V) + encode(V), refused(9, 12))
    case("a node behind the tree, and counted", job(V, count=2) + encode(V), refused(9, 12))
    case("a kind 9 behind the tree, and counted", job(V, count=2) + b"\x09", refused(9, 12))
    case("the whole case and a byte behind it", job(addp(STEP, STEP)) + b"\xff", refused(9, 32))


def the_sizes():
    section("1,000 and 1,001 nodes")
    values, small = balanced(addp, V, 499), balanced(addp, atomic(read(5)), 333)
    assert nodes(READS) == 1000 and nodes(values) == 997 and nodes(small) == 998
    taken("1000 nodes, 496 of them READs", READS)
    taken("1000 nodes, most of them processes", addp(values, atomic(T)))
    taken("1000 nodes, 333 of them ATOMICs", chain(fork, 2, small))
    over = balanced(addp, atomic(read(5)), 334)
    assert nodes(over) == 1001
    case("1001 nodes, and the count says so", job(over), refused(4, 5))
    case("1001 nodes, and the count says 1000", job(over, count=1000), refused(9, 7 + 333 + 334 * 3 - 2))
    case("999 nodes, and the count says 1000", job(balanced(addp, V, 500), count=1000), refused(9, 3006))
    case("999 nodes, 333 of them ATOMICs, and the count says 1000", job(fork(small), count=1000), refused(9, 7 + 1 + 332 + 333 * 3))


def the_first_of_two():
    section("two faults: the left one counts, and in one node the earlier test")
    case("kind 9 left, register 64 right", head(4) + b"\x02\x09\x03\x07\x40", refused(5, 8))
    case("register 64 left, kind 9 right", head(4) + b"\x02\x03\x07\x40\x09", refused(6, 10))
    case("register 64, then the number cut", job(atomic(addt(read(64), T)))[:-1], refused(6, 10))
    case("a sixteenth FORK, then register 64", job(chain(fork, 16, atomic(read(64)))), refused(8, 22))
    case("register 64 above a sixteenth FORK", job(addp(atomic(read(64)), chain(fork, 16, V))), refused(6, 10))
    case("kind 9 and a count too large", head(5) + b"\x03\x09", refused(5, 8))
    case("number cut and a count too large", job(V, count=9)[:-1], refused(1, 11))
    case("FORK in a transaction is no sixteenth", head(17) + FORKS + b"\x03\x04", refused(5, 23))


def the_transactions():
    section("14: transactions of 200 and 201 nodes")
    taken("200 nodes in a transaction", atomic(FULL))
    for label, full, over in LENGTHS:
        assert nodes(full) == 200 and nodes(over) == 201
        case("201 nodes in a transaction, %s" % label, job(atomic(over)), refused(14, 7))
    case("239 nodes in a transaction, to depth 64", job(atomic(chain(lambda t: addt(t, read(5)), 56, sized(127)))), refused(14, 7))
    case("301 nodes in a transaction", job(atomic(sized(301))), refused(14, 7))
    section("14: each transaction is counted by itself")
    long = encode(atomic(TOO_LONG))
    assert (len(long), len(encode(atomic(FULL)))) == (303, 302)
    taken("150 and 150 nodes", addp(atomic(sized(150)), atomic(sized(150))))
    taken("101 and 100 nodes", addp(atomic(sized(101)), atomic(sized(100))))
    taken("200 nodes in a transaction, 15 FORKs above it", chain(fork, 15, atomic(FULL)))
    taken("200 nodes in a transaction, sums above it", chain(lambda p: addp(p, V), 50, atomic(FULL)))
    taken("200 nodes in each of a FORK's child and its thread", addp(fork(atomic(FULL)), atomic(FULL)))
    section("14: the place is that of the first one")
    for label, tree, place in (
        ("as right part", addp(V, atomic(TOO_LONG)), 13),
        ("before a short one", addp(atomic(TOO_LONG), atomic(read(1))), 8),
        ("behind a short one", addp(atomic(read(1)), atomic(TOO_LONG)), 11),
        ("behind one of 200", addp(atomic(FULL), atomic(TOO_LONG)), 310),
        ("twice", addp(atomic(TOO_LONG), atomic(TOO_LONG)), 8),
        ("twice, the second being longer", addp(atomic(TOO_LONG), atomic(sized(301))), 8),
        ("in a FORK's child", fork(atomic(TOO_LONG)), 8),
        ("in the child of a FORK's child", fork(addp(V, fork(atomic(TOO_LONG)))), 15),
        ("in a FORK's child, behind a short one in another", addp(fork(atomic(read(1))), fork(atomic(TOO_LONG))), 13),
        ("in a FORK's child, and behind it", addp(fork(atomic(TOO_LONG)), atomic(TOO_LONG)), 9),
        ("behind a FORK's child with a short one", addp(fork(atomic(read(1))), atomic(TOO_LONG)), 12),
    ):
        case("a long transaction " + label, job(tree), refused(14, place))
    section("14 comes behind all tests for 1 to 9")
    behind = b"\x02" + long  # the next node is at 311
    case("a long transaction, another first byte", b"w" + job(atomic(TOO_LONG))[1:], refused(2, 0))
    case("a long transaction, version 2", job(atomic(TOO_LONG), version=2), refused(3, 3))
    case("a long transaction, count 0", job(atomic(TOO_LONG), count=0), refused(4, 5))
    case("a long transaction, count 1001", job(atomic(TOO_LONG), count=1001), refused(4, 5))
    case("a long transaction and a byte behind the tree", job(atomic(TOO_LONG)) + b"\x00", refused(9, 310))
    case("a long transaction, count one above", job(atomic(TOO_LONG), count=203), refused(9, 310))
    case("a long transaction, count one below", job(atomic(TOO_LONG), count=201), refused(9, 308))
    case("register 64 in a long transaction", job(atomic(flat(addt, [read(5)] * 100 + [read(64)]))), refused(6, 309))
    case("a long transaction, then count used up", head(203) + behind + encode(V), refused(9, 311))
    case("a long transaction, then no byte", head(300) + behind, refused(1, 311))
    case("a long transaction, then the number cut", head(300) + behind + b"\x01\x00\x00\x00", refused(1, 315))
    case("a long transaction, then kind 9", head(300) + behind + b"\x09", refused(5, 311))
    case("a long transaction, then register 64", head(300) + behind + b"\x03\x07\x40", refused(6, 313))
    case("a long transaction, then a node at depth 65", head(300) + behind + DEEP[1:] + b"\x01", refused(7, 374))
    case("a long transaction, then a sixteenth FORK", head(300) + behind + FORKS + b"\x04", refused(8, 326))


WHOLE = addp(STEP, STEP)
WHOLE_CODE = "57 53 43 00 01" + 2 * "07 00 0C 05 03 00 01 00 00 00 01 02 04 00 06" + "02"
ONE_CODE = "57 53 43 00 01 01 00 00 00 07"
P = "01 00 00 00 07"  # the code of V, and in a transaction of T
FULL = sized(200)
TOO_LONG = sized(201)
# shapes of transactions, of 200 and of 201 nodes
LENGTHS = (
    ("sums", FULL, TOO_LONG),
    ("the left part being the deep one", *(chain(lambda t: addt(t, read(5)), 50, sized(n)) for n in (100, 101))),
    ("the right part being the deep one", *(chain(lambda t: addt(read(5), t), 50, sized(n)) for n in (100, 101))),
    ("WRITEs in each other", *(flat(addt, [chain(write0, n, read(5)) for n in (48, 48, k, 49)]) for k in (48, 49))),
)
READS = flat(addp, [atomic(FULL)] * 4 + [atomic(sized(191))])
LONG = fork(balanced(addp, valp(-2), 500))
# 1000 nodes: 262 transactions, one of them of 200 nodes, and 16 threads
BOUND = flat(addp, [fork(atomic(read(1)))] * 15 + [atomic(read(1))] * 245 + [atomic(write(1, read(1))), atomic(FULL)])
FEW = addp(fork(left_comb(addp, valp(258), 50)), V)  # its child's code has 299 bytes
MANY = addp(fork(addp(atomic(read(1)), left_comb(addp, valp(258), 51))), V)  # and here 310


def there():
    section("compiling: the code byte by byte, and the output")
    data = job(WHOLE)
    compiling("the whole case, an output one short", 35, data, refused(10, 0))
    compiling("the whole case, an output just as long", 36, data, WHOLE_CODE)
    compiling("the whole case, a longer output", 50, data, WHOLE_CODE)
    compiling("the whole case, no output", 0, data, refused(10, 0))
    compiling("one number, an output one short", 9, job(V), refused(10, 0))
    compiling("one number", 10, job(V), ONE_CODE)
    compiling("one number, an output one longer", 11, job(V), ONE_CODE)
    section("compiling: a refused job, whatever the output")
    for label, data, answer in (
        ("cut", "57 53 4A 00 01 00", refused(1, 6)),
        ("mark", "57 53 43 00 01 00 01 01 00 00 00 07", refused(2, 0)),
        ("version", job(V, version=2), refused(3, 3)),
        ("count", job(V, count=0), refused(4, 5)),
        ("kind", job(addp(V, T)), refused(5, 13)),
        ("register", job(addp(V, atomic(read(64)))), refused(6, 15)),
        ("depth", job(left_comb(addp, V, 65)), refused(7, 71)),
        ("forks", job(chain(fork, 16, V)), refused(8, 22)),
        ("length", job(WHOLE) + b"\x00", refused(9, 32)),
        ("long transaction", job(atomic(TOO_LONG)), refused(14, 7)),
    ):
        compiling("refused for its " + label, 6000, data, answer)
        compiling("refused for its " + label, 0, data, answer)


def there_and_back():
    section("there and back")
    back("the whole case, an output one short", 31, WHOLE_CODE, refused(10, 0))
    back("the whole case, an output just as long", 32, WHOLE_CODE, job(WHOLE))
    back("the whole case, a longer output", 50, WHOLE_CODE, job(WHOLE))
    back("the whole case, no output", 0, WHOLE_CODE, refused(10, 0))
    back("one number, an output one short", 11, ONE_CODE, refused(10, 0))
    back("one number", 12, ONE_CODE, job(V))
    back("one number, an output one longer", 13, ONE_CODE, job(V))
    for label, tree, code in (
        ("the least number", valp(-2147483648), "01 80 00 00 00"),
        ("the number -1", valp(-1), "01 FF FF FF FF"),
        ("a number of opcodes, in a transaction", atomic(valt(0x05060207)), "05 01 05 06 02 07 06"),
        ("a sum of -1 and 1", addp(valp(-1), valp(1)), "01 FF FF FF FF 01 00 00 00 01 02"),
        ("a sum in the left part", addp(addp(valp(1), valp(2)), V), "01 00000001 01 00000002 02" + P + "02"),
        ("a sum in the right part", addp(valp(1), addp(valp(2), V)), "01 00000001 01 00000002" + P + "02 02"),
        ("a write of a read", atomic(write(6, read(7))), "05 03 07 04 06 06"),
        ("a write as left part, a read as right", atomic(addt(write(0, T), read(0))), "05" + P + "04 00 03 00 02 06"),
        ("a write of a sum", atomic(write(63, addt(read(0), read(63)))), "05 03 00 03 3F 02 04 3F 06"),
        ("two transactions", addp(atomic(read(5)), atomic(read(6))), "05 03 05 06 05 03 06 06 02"),
        ("a fork in a fork", fork(fork(V)), "07 00 08 07 00 05" + P),
        ("a fork in each part of a fork's sum", fork(addp(fork(V), fork(V))), "07 00 11" + 2 * ("07 00 05" + P) + "02"),
        ("a transaction in a fork, a number behind it", addp(fork(atomic(T)), V), "07 00 07 05" + P + "06" + P + "02"),
    ):
        assert whole(tree) == b"WSC\x00\x01" + bytes.fromhex(code), label
        both(label, tree)
    assert code_of(FEW)[:3] == b"\x07\x01\x2b" and code_of(MANY)[:3] == b"\x07\x01\x36"
    both("a child of 299 bytes", FEW)
    both("a child of 310 bytes", MANY)
    back("a child of 310 bytes, an output one short", len(job(MANY)) - 1, whole(MANY), refused(10, 0))
    both("ADDP left comb of depth 64", left_comb(addp, V, 64))
    both("ADDP right comb of depth 64", right_comb(addp, V, 64))
    both("ADDT left comb of depth 64", atomic(left_comb(addt, read(1), 63)))
    both("ADDT right comb of depth 64", atomic(right_comb(addt, read(1), 63)))
    both("ATOMIC and WRITEs to depth 64", atomic(chain(write0, 62, T)))
    both("15 FORKs and sums to depth 64", chain(fork, 15, left_comb(addp, V, 49)))
    both("15 FORKs in each other", chain(fork, 15, V))
    both("15 FORKs side by side", balanced(addp, fork(V), 15))
    for label, full, _ in LENGTHS:
        both("200 nodes in a transaction, %s" % label, atomic(full))
    compiling("200 nodes in a transaction, no output", 0, job(atomic(FULL)), refused(10, 0))
    both("101 nodes in a transaction, 100 in a FORK's", addp(atomic(sized(101)), fork(atomic(sized(100)))))
    both("1000 nodes, 496 of them READs", READS)
    compiling("1000 nodes, 496 of them READs, an output one short", len(whole(READS)) - 1, job(READS), refused(10, 0))
    back("1000 nodes, 496 of them READs, an output one short", len(job(READS)) - 1, whole(READS), refused(10, 0))
    assert nodes(LONG) == 1000 and len(whole(LONG)) == 3007  # no code is longer
    compiling("1000 nodes, an output one short", 3006, job(LONG), refused(10, 0))
    compiling("1000 nodes, the longest code", 6000, job(LONG), whole(LONG))
    back("1000 nodes, an output one short", len(job(LONG)) - 1, whole(LONG), refused(10, 0))
    back("1000 nodes, the longest code", 6000, whole(LONG), job(LONG))


def the_forecasts():
    section("forecasts")
    for label, tree, answer in (
        ("document 01's whole case", WHOLE, (36, 2, 3, 15, 6, 27, [0], [0], [2, 2, 2])),
        ("one number", V, (10, 0, 1, 1, 0, 1, [], [], [1])),
        ("no ATOMIC, a FORK", addp(fork(V), V), (19, 0, 2, 4, 0, 4, [], [], [2, 1])),
        ("one ATOMIC, a READ that the write log answers", atomic(addt(write(0, T), read(0))), (17, 1, 1, 6, 6, 6, [0], [0], [2])),
        ("one ATOMIC in a FORK", fork(atomic(T)), (15, 1, 2, 4, 3, 4, [], [], [1, 1])),
        ("two ATOMICs, one thread", addp(atomic(read(1)), atomic(read(1))), (14, 2, 1, 7, 3, 7, [1], [], [2])),
        ("the longer transaction in front", addp(fork(atomic(write(63, write(9, read(8))))), atomic(read(62))), (21, 2, 2, 10, 5, 15, [8, 62], [9, 63], [2, 1])),
        ("the longer transaction behind", addp(fork(atomic(read(62))), atomic(write(63, write(9, read(8))))), (21, 2, 2, 10, 5, 15, [8, 62], [9, 63], [2, 1])),
        ("registers 0 and 63", atomic(write(63, write(0, addt(read(0), read(63))))), (16, 1, 1, 7, 7, 7, [0, 63], [0, 63], [2])),
        ("registers 31, 32 and 33", atomic(write(32, addt(read(31), read(33)))), (14, 1, 1, 6, 6, 6, [31, 33], [32], [2])),
        ("fork (fork (1 + 1)) + fork 1", addp(fork(fork(addp(V, V))), fork(V)), (31, 0, 4, 8, 0, 8, [], [], [2, 1, 2, 1])),
        ("a sum in the left part", addp(addp(V, V), V), (22, 0, 1, 5, 0, 5, [], [], [2])),
        ("a sum in the right part", addp(V, addp(V, V)), (22, 0, 1, 5, 0, 5, [], [], [3])),
        ("a transaction above two numbers", addp(V, addp(V, atomic(addt(T, addt(T, T))))), (36, 1, 1, 11, 7, 11, [], [], [5])),
        ("a FORK above two numbers", addp(V, addp(V, fork(addp(V, V)))), (31, 0, 2, 8, 0, 8, [], [], [3, 2])),
        ("WRITEs in each other", atomic(chain(write0, 5, T)), (22, 1, 1, 8, 8, 8, [], [0], [1])),
        ("sums to depth 64 on the left", left_comb(addp, V, 64), (388, 0, 1, 127, 0, 127, [], [], [2])),
        ("sums to depth 64 on the right", right_comb(addp, V, 64), (388, 0, 1, 127, 0, 127, [], [], [64])),
        ("sums to depth 64 in a FORK", fork(right_comb(addp, V, 63)), (385, 0, 2, 126, 0, 126, [], [], [1, 63])),
        ("sums to depth 64 in a transaction", atomic(right_comb(addt, read(1), 63)), (195, 1, 1, 127, 127, 127, [1], [], [63])),
        ("15 FORKs in each other", chain(fork, 15, V), (55, 0, 16, 16, 0, 16, [], [], [1] * 16)),
        ("15 FORKs side by side", balanced(addp, fork(V), 15), (139, 0, 16, 44, 0, 44, [], [], [5] + [1] * 15)),
        ("every register", flat(addp, [atomic(write(63 - v, read(v))) for v in range(64)]), (452, 64, 1, 319, 4, 319, list(range(64)), list(range(64)), [7])),
        ("200 nodes in a transaction", atomic(FULL), (308, 1, 1, 202, 202, 202, [5], [0], [8])),
        ("100 nodes in a FORK's transaction, 101 in its thread's", addp(fork(atomic(sized(100))), atomic(sized(101))), (316, 2, 2, 207, 103, 310, [5], [0], [8, 7])),
        ("the greatest bound", BOUND, (1660, 262, 16, 1262, 202, 792092, [1, 5], [0, 1], [17] + [1] * 15)),
        ("1000 nodes, the longest code", LONG, (3007, 0, 2, 1000, 0, 1000, [], [], [1, 10])),
        ("1000 nodes in five transactions", READS, (1510, 5, 1, 1005, 202, 1005, [5], [0], [11])),
    ):
        foretold(label, job(tree), answer)
    section("forecasts: a refused job")
    for label, data, answer in (
        ("no bytes", "", refused(1, 0)),
        ("cut at its last byte", job(WHOLE)[:-1], refused(1, 31)),
        ("mark", "57 53 43 00 01 00 01 01 00 00 00 07", refused(2, 0)),
        ("version", job(V, version=2), refused(3, 3)),
        ("count", job(V, count=0), refused(4, 5)),
        ("kind", job(addp(V, T)), refused(5, 13)),
        ("register", job(addp(V, atomic(read(64)))), refused(6, 15)),
        ("depth", job(left_comb(addp, V, 65)), refused(7, 71)),
        ("forks", job(chain(fork, 16, V)), refused(8, 22)),
        ("bytes left over", job(WHOLE) + b"\x00", refused(9, 32)),
        ("nodes left over", job(WHOLE, count=14), refused(9, 32)),
        ("a long transaction", job(atomic(TOO_LONG)), refused(14, 7)),
        ("a long transaction in a FORK's child", job(addp(V, fork(atomic(TOO_LONG)))), refused(14, 14)),
        ("a long transaction and a byte behind it", job(atomic(TOO_LONG)) + b"\x00", refused(9, 310)),
    ):
        foretold("refused, " + label, data, answer)


def foreign_heads():
    section("foreign code: mark and version")
    for n in range(5):
        foreign("%d bytes" % n, bytes.fromhex(ONE_CODE)[:n])
    foreign("5 bytes, no instruction", "")
    for i, letter in enumerate(("first", "second", "third")):
        code = bytearray.fromhex(ONE_CODE)
        code[i] ^= 1
        foreign("mark with a wrong %s letter" % letter, bytes(code))
    foreign("the mark of a job", job(V))
    for version in (0, 2, 256, 257):
        foreign("version %d" % version, b"WSC" + version.to_bytes(2, "big") + code_of(V))


def foreign_instructions():
    section("foreign code: instructions that are none")
    for n in range(4):
        foreign("PUSH cut after %d bytes of its number" % n, P[: 2 + 3 * n])
    foreign("PUSH cut, behind a number", P + "01 00 00")
    foreign("READ with no register", "05 03")
    foreign("WRITE with no register", "05" + P + "04")
    foreign("FORK with no length", "07")
    foreign("FORK with half a length", "07 00")
    foreign("FORK with half a length, in a FORK", "07 00 07" + P + "07 00")
    for op in (0, 8, 255):
        foreign("opcode %d alone" % op, "%02X" % op)
        foreign("opcode %d behind a number" % op, P + "%02X" % op)
        foreign("opcode %d in a transaction" % op, "05" + P + "%02X 06" % op)
    foreign("opcode 0 in a FORK", "07 00 06" + P + "00")
    for v in (64, 255):
        foreign("READ of register %d" % v, "05 03 %02X 06" % v)
        foreign("WRITE of register %d" % v, "05" + P + "04 %02X 06" % v)
    foreign("READ of register 64 in a FORK", "07 00 04 05 03 40 06")


def foreign_transactions():
    section("foreign code: transactions")
    foreign("READ outside a transaction", "03 00")
    foreign("READ behind a transaction", "05" + P + "06 03 00 02")
    foreign("WRITE outside a transaction", P + "04 00")
    foreign("WRITE behind a transaction", "05" + P + "06 04 00")
    foreign("READ in a FORK outside a transaction", "07 00 02 03 00")
    foreign("FORK alone in a transaction", "05 07 00 05" + P + "06")
    foreign("FORK as a part in a transaction", "05" + P + "07 00 05" + P + "02 06")
    foreign("BEGIN at once behind BEGIN", "05 05" + P + "06 06")
    foreign("BEGIN as a part in a transaction", "05" + P + "05" + P + "06 02 06")
    foreign("BEGIN twice, COMMIT once", "05 05" + P + "06")
    foreign("COMMIT with no BEGIN", P + "06")
    foreign("COMMIT twice", "05" + P + "06 06")
    foreign("COMMIT alone", "06")
    foreign("BEGIN alone", "05")
    foreign("a transaction left open", "05" + P)
    foreign("a transaction left open as right part", P + "05" + P + "02")
    foreign("a transaction left open in a FORK", "07 00 06 05" + P)
    foreign("a transaction left open in a FORK, COMMIT behind it", "07 00 06 05" + P + "06")
    foreign("BEGIN before a FORK, COMMIT in it", "05 07 00 06" + P + "06")
    section("foreign code: below the start of a transaction or thread")
    foreign("ADD alone", "02")
    foreign("ADD of one number", P + "02")
    foreign("ADD of one number, then another number", P + "02" + P)
    foreign("a sum reaches below its transaction", P + "05" + P + "02 06")
    foreign("a sum reaches below its transaction, then a number", P + P + "05" + P + "02" + P + "06 02 02")
    foreign("a sum reaches below its thread", P + "07 00 06" + P + "02 02")
    foreign("a sum reaches below its thread, then a number", P + "07 00 0B" + P + "02" + P + "02")
    foreign("a write reaches below its transaction", P + "05 04 00 06")
    foreign("a write reaches below its transaction, then a number", P + "05 04 00" + P + "06 02")
    foreign("a write of nothing", "05 04 00 06")
    section("foreign code: none or two left over")
    foreign("a transaction with nothing in it", "05 06")
    foreign("a transaction with nothing in it, behind a number", P + "05 06")
    foreign("a transaction with nothing in it, as a part", P + "05 06 02")
    foreign("a transaction that leaves two", "05" + P + P + "06")
    foreign("a transaction that leaves two, a sum behind it", "05" + P + P + "06 02")
    foreign("two numbers left over", P + P)
    foreign("three numbers and one sum", P + P + P + "02")
    foreign("a FORK and a number left over", "07 00 05" + P + P)
    foreign("two transactions left over", 2 * "05 03 00 06")
    foreign("two numbers left over in a FORK", "07 00 0A" + P + P)
    foreign("a transaction with nothing in it, in a FORK", "07 00 02 05 06")


def foreign_lengths():
    section("foreign code: a FORK's length")
    foreign("a FORK with an empty child", "07 00 00")
    foreign("a FORK with an empty child, a number behind it", "07 00 00" + P + "02")
    foreign("a FORK's length one too long", "07 00 06" + P)
    foreign("a FORK's length one too long, into a number", "07 00 06" + P + P + "02")
    foreign("a FORK's length one too long, with the sum behind it", P + "07 00 06" + P + "02")
    foreign("a FORK's length one too short", "07 00 04" + P)
    foreign("a FORK's length one too short, cut before a 2", P + "07 00 04 01 00 00 00 02")
    foreign("a FORK's length one too short, without its sum", "07 00 0A" + P + P + "02")
    foreign("a FORK's length with a high byte", "07 01 05" + P)
    foreign("a FORK's length with the bytes changed over", "07 05 00" + P)
    foreign("a FORK's length of 65535", "07 FF FF" + P)
    foreign("a FORK that passes its parent's end", "07 00 08 07 00 06" + P)
    foreign("a FORK that passes its parent's end, not the code's", P + "07 00 08 07 00 06" + P + "02")
    foreign("a FORK whose child ends one early in its parent", "07 00 09 07 00 05" + P + P + "02")
    many = whole(MANY)
    foreign("a child of 310 bytes, low byte of its length alone", many[:6] + b"\x00" + many[7:], 600)
    foreign("a child of 310 bytes, length one too long", many[:7] + b"\x37" + many[8:], 600)
    section("foreign code: a byte too many or too few")
    for byte in (0, 2, 5, 6):
        foreign("the whole case and a byte %d" % byte, bytes.fromhex(WHOLE_CODE) + bytes([byte]))
    foreign("the whole case without its last byte", bytes.fromhex(WHOLE_CODE)[:-1])
    foreign("one number and a byte 0", P + "00")
    foreign("the whole case twice", bytes.fromhex(WHOLE_CODE) + bytes.fromhex(WHOLE_CODE)[5:])


def foreign_sizes():
    section("foreign code: 1,001 nodes, depth 65, sixteen FORKs, 201 nodes in a transaction")
    over = balanced(addp, atomic(read(5)), 334)
    assert nodes(over) == 1001
    foreign("1001 nodes", whole(over), 6000)
    for label, tree in (
        ("ADDP left comb", left_comb(addp, V, 65)),
        ("ADDP right comb", right_comb(addp, V, 65)),
        ("ADDT left comb", atomic(left_comb(addt, read(1), 64))),
        ("ADDT right comb", atomic(right_comb(addt, read(1), 64))),
        ("ATOMIC and WRITEs", atomic(chain(write0, 63, T))),
        ("15 FORKs and sums", chain(fork, 15, left_comb(addp, V, 50))),
        ("sums down to a FORK", chain(lambda t: addp(t, V), 63, fork(V))),
        ("sums and a transaction, on the right", chain(lambda t: addp(V, t), 62, atomic(write0(T)))),
    ):
        foreign("%s of depth 65" % label, whole(tree), 1000)
    foreign("16 FORKs in each other", whole(chain(fork, 16, V)))
    foreign("16 FORKs side by side", whole(balanced(addp, fork(V), 16)), 1000)
    foreign("16 FORKs, in each other and side by side", whole(addp(chain(fork, 8, V), chain(fork, 8, V))))
    for label, _, over in LENGTHS:
        foreign("201 nodes in a transaction, %s" % label, whole(atomic(over)), 1000)
    foreign("201 nodes in the transaction of a FORK's child", whole(addp(V, fork(atomic(TOO_LONG)))), 1000)
    foreign("201 nodes in a transaction behind one of 200", whole(addp(atomic(FULL), atomic(TOO_LONG))), 1000)
    foreign("201 nodes in a transaction before a short one", whole(addp(atomic(TOO_LONG), atomic(read(1)))), 1000)
    foreign("257 numbers and no sum", 257 * P, 6000)
    section("foreign code comes before a short output")
    foreign("no bytes", b"", 0)
    foreign("mark with a wrong letter", b"WSJ\x00\x01" + code_of(V), 0)
    foreign("version 2", b"WSC\x00\x02" + code_of(V), 0)
    foreign("two numbers left over", P + P, 0)
    foreign("the whole case and a byte 0", bytes.fromhex(WHOLE_CODE) + b"\x00", 0)
    foreign("ADDP left comb of depth 65", whole(left_comb(addp, V, 65)), 0)
    foreign("16 FORKs in each other", whole(chain(fork, 16, V)), 0)
    foreign("301 nodes in a transaction", whole(atomic(sized(301))), 0)


def the_text():
    section("the text of a case")
    line("job lower case and no spaces", "57534a0001000101000000ff", "accepted version 1 code 10")
    line("job more spaces than needed", "  57 534A  0001 0001 01 00000007  ", "accepted version 1 code 10")
    for label, text in (
        ("job a lone digit", "57 5"),
        ("job a pair split by a space", "5 7"),
        ("job a letter that is no digit", "57 5G"),
        ("another word", ONE_CODE),
        ("another 12 word", ONE_CODE),
        ("job", ONE_CODE),
        ("forecast", ONE_CODE),
        ("forecast a lone digit", "57 5"),
        ("compile", ONE_CODE),
        ("compile one number", ONE_CODE),
        ("compile 6001 one number", ONE_CODE),
        ("compile 12x one number", ONE_CODE),
        ("back  12 one number", ONE_CODE),
    ):
        line(label, text, "malformed")
    labels.add("a line with no colon")
    lines.append("a line with no colon")
    answers.append("a line with no colon: malformed")


def make():
    lines.append("# Cases of every call of documents 01 and 02, written by cases.py.")
    for part in (
        accepted_jobs,
        the_head,
        the_kinds,
        the_registers,
        the_depth,
        the_forks,
        the_cuts,
        the_lengths,
        the_sizes,
        the_first_of_two,
        the_transactions,
        there,
        there_and_back,
        the_forecasts,
        foreign_heads,
        foreign_instructions,
        foreign_transactions,
        foreign_lengths,
        foreign_sizes,
        the_text,
    ):
        part()

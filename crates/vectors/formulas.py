"""Cases of texts that are to be scripts, for cases.py, which writes them; and how a tree is printed as such a text.

The reader here is a second implementation, written from document 02 alone. The job that a text would make is judged by the job reader of jobs.py.
Most cases also state their answer by hand, and the two are compared before anything is written.
"""
import re
from functools import lru_cache

import jobs
from jobs import addp, addt, atomic, chain, flat, fork, nodes, read, refused, sized, valp, valt, write

MOST_BYTES = 32768
MOST_OPEN = 64  # brackets, forks, atomics and writes
LEAST, GREATEST, LAST_REGISTER = -2147483648, 2147483647, 63
FORK, ATOMIC = b"fork", b"atomic"
BLANKS, DIGITS = b" \n\r", b"0123456789"
WRITE = re.compile(rb"[ \n\r]*r[0-9]+[ \n\r]*:")  # how a write begins

# ---- the reader: each method takes what it is named after from the text, with the blanks before it. What is told here by one byte of the text can go
# on in no other way, so a text that does not go on so fails at that byte.


class NoScript(Exception):
    """The text is no script; its argument is the place."""


class Reader:
    def __init__(self, text):
        self.text, self.at = text, 0

    def next(self):
        """The next byte, none at the end."""
        return self.text[self.at : self.at + 1]

    def blanks(self):
        while self.next() and self.next() in BLANKS:
            self.at += 1

    def word(self, word):
        self.blanks()
        for k in range(len(word)):
            if self.next() != word[k : k + 1]:
                raise NoScript(self.at)
            self.at += 1

    def digits(self, most):
        """Digits whose number is at most this."""
        n, start = 0, self.at
        while self.next() and self.next() in DIGITS:
            n = n * 10 + int(self.next())
            if n > most:
                raise NoScript(self.at)
            self.at += 1
        if self.at == start:
            raise NoScript(self.at)
        return n

    def number(self):
        self.blanks()
        if self.next() == b"-":
            self.at += 1
            return -self.digits(-LEAST)
        return self.digits(GREATEST)

    def register(self):
        self.word(b"r")
        return self.digits(LAST_REGISTER)

    def room(self, opened, more):
        """Fails where so many more may not be open."""
        self.blanks()
        if opened + more > MOST_OPEN:
            raise NoScript(self.at)
        return opened + more

    def bracketed(self, opened, what):
        """`what` in brackets, which are counted in `opened`."""
        self.word(b"(")
        tree = what(opened)
        self.word(b")")
        return tree

    def joined(self, opened, term, add):
        tree = term(opened)
        while True:
            self.blanks()
            if self.next() != b"+":
                return tree
            self.at += 1
            tree = add(tree, term(opened))

    def process(self, opened):
        return self.joined(opened, self.process_term, addp)

    def process_term(self, opened):
        self.blanks()
        if self.next() == b"(":
            return self.bracketed(self.room(opened, 1), self.process)
        if self.next() == FORK[:1]:
            opened = self.room(opened, 1)
            self.word(FORK)
            return fork(self.process_term(opened))
        if self.next() == ATOMIC[:1]:
            opened = self.room(opened, 2)
            self.word(ATOMIC)
            return atomic(self.bracketed(opened, self.transaction))
        return valp(self.number())

    def transaction(self, opened):
        if not WRITE.match(self.text, self.at):
            return self.joined(opened, self.transaction_term, addt)
        v = self.register()
        opened = self.room(opened, 1)
        self.word(b":=")
        return write(v, self.transaction(opened))

    def transaction_term(self, opened):
        self.blanks()
        if self.next() == b"(":
            return self.bracketed(self.room(opened, 1), self.transaction)
        if self.next() == b"r":
            return read(self.register())
        return valt(self.number())

    def script(self):
        tree = self.process(0)
        if self.next():
            raise NoScript(self.at)
        return tree


def tree_of(text):
    """The tree of a script, or ('refused', 15, place)."""
    if len(text) > MOST_BYTES:
        return refused(15, MOST_BYTES)
    try:
        return Reader(text).script()
    except NoScript as failure:
        return refused(15, failure.args[0])


def job_of(tree):
    """The job of a tree of any depth."""
    out, left = [], [tree]
    while left:
        kind, operand, parts = left.pop()
        out.append(bytes([kind]) + operand)
        left += reversed(parts)
    return jobs.head(len(out)) + b"".join(out)


def formula(text, size):
    """The job's bytes or ('refused', number, place)."""
    tree = tree_of(text)
    if tree[0] == "refused":
        return tree
    data = job_of(tree)
    reading = jobs.read_job(data)
    if reading[0] == "refused":
        return reading
    return data if len(data) <= size else refused(10, 0)


# ---- how a tree is printed


def zeros(rng):
    return b"0" * rng.choice((0, 0, 0, 0, 0, 1, 2, 9)) if rng else b""


def number_word(n, rng=None):
    """A number as text; with `rng` also with zeros in front, and 0 with a minus."""
    sign = b"-" if n < 0 or n == 0 and rng and rng.random() < 0.2 else b""
    return sign + zeros(rng) + b"%d" % abs(n)


def words_of(tree, rng=None, extra=0.0, place="whole"):
    """The words, numbers, registers and signs of a text that has this tree, with superfluous brackets now and then. Where it stands: `whole` alone in a
    bracket or behind `:=`, `left` of a `+`, or as a `term`."""
    kind, operand, parts = tree

    def part(k, place):
        return words_of(parts[k], rng, extra, place)

    if kind in (jobs.VALP_KIND, jobs.VALT_KIND):
        out = [number_word(int.from_bytes(operand, "big", signed=True), rng)]
    elif kind in (jobs.ADDP_KIND, jobs.ADDT_KIND):
        out = part(0, "left") + [b"+"] + part(1, "term")
    elif kind == jobs.FORK_KIND:
        out = [FORK] + part(0, "term")
    elif kind == jobs.ATOMIC_KIND:
        out = [ATOMIC, b"("] + part(0, "whole") + [b")"]
    else:
        out = [b"r" + zeros(rng) + b"%d" % operand[0]]
        if kind == jobs.WRITE_KIND:
            out += [b":="] + part(0, "whole")
    sum_as_term = kind in (jobs.ADDP_KIND, jobs.ADDT_KIND) and place == "term"
    if sum_as_term or kind == jobs.WRITE_KIND and place != "whole" or rng and rng.random() < extra:
        return [b"("] + out + [b")"]
    return out


def spaced(parts, rng, blank):
    """The parts in a row, with blanks between them now and then, in front and behind too."""
    out = b""
    for part in [*parts, b""]:
        while rng.random() < blank:
            out += rng.choice((b" ", b" ", b" ", b"\n", b"\r\n", b"\r"))
        out += part
    return out


def printed(tree):
    """The shortest text of a tree."""
    return b"".join(words_of(tree))


# ---- the cases

cases = jobs.Cases()
section = cases.section


def to_text(text):
    """Bytes as hex, or in decimal with their repetitions if that is shorter."""
    return min(jobs.to_text(text), ";" + jobs.words(text), key=len)


def case(label, text, answer, size=None):
    """A text and the tree of its job, or its refusal, in an output of this size, or just as long as the job."""
    text = text.encode() if isinstance(text, str) else text
    answer = answer if answer[0] == "refused" else job_of(answer)
    if size is None:
        size = 100 if answer[0] == "refused" else len(answer)
    assert formula(text, size) == answer, (label, text[:200], formula(text, size), answer)
    cases.line("formula %d %s" % (size, label), to_text(text), jobs.show_output("job", answer))


def fails(label, text, place):
    case(label, text, refused(15, place))


V, T, R = valp(7), valt(7), read(5)
STEP_TEXT = "fork atomic(r0 := r0 + 1)"


def scripts():
    section("scripts")
    for label, text, tree in (
        ("document 01's whole case", "%s + %s" % (STEP_TEXT, STEP_TEXT), jobs.WHOLE),
        ("the same with no blank", "forkatomic(r0:=r0+1)+forkatomic(r0:=r0+1)", jobs.WHOLE),
        ("one number", "7", V),
        ("each kind once", "fork 7 + atomic((r2 := r1) + 7)", addp(fork(V), atomic(addt(write(2, read(1)), T)))),
        ("three terms", "1+2+3", addp(addp(valp(1), valp(2)), valp(3))),
        ("three terms, the right two in brackets", "1+(2+3)", addp(valp(1), addp(valp(2), valp(3)))),
        ("three terms, the left two in brackets", "(1+2)+3", addp(addp(valp(1), valp(2)), valp(3))),
        ("four terms in a transaction", "atomic(1+r2+-3+r4)", atomic(addt(addt(addt(valt(1), read(2)), valt(-3)), read(4)))),
        ("three terms in a transaction, the right two in brackets", "atomic(r1+(r2+r3))", atomic(addt(read(1), addt(read(2), read(3))))),
        ("fork takes one term", "fork 1 + 2", addp(fork(valp(1)), valp(2))),
        ("fork takes a bracket", "fork(1 + 2)", fork(addp(valp(1), valp(2)))),
        ("fork takes a bracket, and no more", "fork(1) + 2", addp(fork(valp(1)), valp(2))),
        ("forks with no blank", "forkfork1", fork(fork(valp(1)))),
        ("fork and a minus", "fork-1", fork(valp(-1))),
        ("fork behind a sign", "1+fork 2+3", addp(addp(valp(1), fork(valp(2))), valp(3))),
        ("a write takes a sum", "atomic(r5 := 1 + 2)", atomic(write(5, addt(valt(1), valt(2))))),
        ("a write in brackets", "atomic((r5 := 1) + 2)", atomic(addt(write(5, valt(1)), valt(2)))),
        ("a write in brackets as right part", "atomic(1 + (r5 := 2))", atomic(addt(valt(1), write(5, valt(2))))),
        ("a write of a write", "atomic(r5 := r6 := 7)", atomic(write(5, write(6, T)))),
        ("a write of a write of a sum that begins with a register", "atomic(r5:=r6:=r7+r8)", atomic(write(5, write(6, addt(read(7), read(8)))))),
        ("a write of its own register", "atomic(r5 := r5)", atomic(write(5, R))),
        ("brackets that are not needed", "((((7))))", V),
        ("brackets that are not needed, around each term", "(fork((fork(7))))+(atomic((r5)))", addp(fork(fork(V)), atomic(R))),
        ("brackets that are not needed, in a transaction", "atomic((((r2:=((r5))))))", atomic(write(2, R))),
        ("brackets that are not needed, in a write", "atomic(r2:=(r3:=((r5)+7)))", atomic(write(2, write(3, addt(R, T))))),
    ):
        case(label, text, tree)
    section("scripts: blanks")
    for byte in (32, 10, 13):
        between = chr(byte)
        parts = ("", "atomic", "(", "r2", ":=", "-7", "+", "(", "r5", ")", ")", "+", "fork", "fork", "(", "7", ")", "")
        case("byte %d everywhere" % byte, between.join(parts), addp(atomic(write(2, addt(valt(-7), R))), fork(fork(V))))
        case("byte %d in front" % byte, between + "7", V)
        case("byte %d behind" % byte, "7" + between, V)
    case("all three bytes", " \r\n 7 \n\r\n+\r7\n", addp(V, V))
    section("scripts: numbers and registers")
    for text, n in (
        ("0", 0), ("-0", 0), ("00", 0), ("-00", 0), ("007", 7), ("-007", -7), ("-1", -1), ("10", 10), ("256", 256), ("2147483647", 2147483647),
        ("-2147483648", -2147483648), ("-2147483647", -2147483647), ("000000000002147483647", 2147483647), ("-000000000002147483648", -2147483648),
        ("2147483640", 2147483640), ("1999999999", 1999999999), ("00000000000000000000000000000000000000000000000000", 0),
    ):
        case("the number %s" % text, text, valp(n))
        case("the number %s in a transaction" % text, "atomic(%s)" % text, atomic(valt(n)))
    for text, v in (
        ("r0", 0), ("r00", 0), ("r9", 9), ("r10", 10), ("r59", 59), ("r60", 60), ("r63", 63), ("r063", 63), ("r0000000000000000000063", 63), ("r007", 7),
    ):
        case("read of %s" % text, "atomic(%s)" % text, atomic(read(v)))
        case("write of %s" % text, "atomic(%s:=%s)" % (text, text), atomic(write(v, read(v))))


def no_scripts():
    section("15: an end too early")
    for text, label in (
        ("", "no bytes"), (" ", "a blank"), ("\n\r ", "three blanks"), ("-", "a minus"), ("1+", "a sign behind a number"), ("1 + ", "a sign and a blank"),
        ("(", "a bracket"), ("(1", "a number in a bracket"), ("((1)", "two brackets, one closed"), ("fork", "fork"), ("for", "for"),
        ("fork ", "fork and a blank"), ("fork(", "fork and a bracket"), ("a", "a"), ("atomic", "atomic"), ("atomic (", "atomic and a bracket"),
        ("atomic(r", "a register with no digit"), ("atomic(r5", "a register"), ("atomic(r5 ", "a register and a blank"), ("atomic(r5:", "half a write's sign"),
        ("atomic(r5:=", "a write's sign"), ("atomic(r5:=-", "a minus in a write"), ("atomic(1", "a number in a transaction"),
        ("atomic(1+", "a sign in a transaction"), ("fork fork", "two forks"), ("1 + (2 + 3) + fork", "a sum and a fork"),
        ("atomic((r5 := 1) + (r6", "a register in a second bracket"),
    ):
        fails("the end behind " + label, text, len(text))
    section("15: bytes that stand nowhere")
    for byte in (0, 9, 11, 12, 31, 33, 42, 47, 59, 91, 93, 123, 128, 160, 255):
        fails("byte %d in front" % byte, bytes([byte]) + b"1", 0)
        fails("byte %d behind" % byte, b"1" + bytes([byte]), 1)
    section("15: numbers")
    for text, place in (
        ("2147483648", 9), ("2147483649", 9), ("2147483650", 9), ("21474836470", 10), ("3000000000", 9), ("9999999999", 9), ("4294967297", 9),
        ("10000000000", 10), ("18446744073709551617", 10), ("-2147483649", 10), ("-2147483650", 10), ("-21474836480", 11), ("-9999999999", 10),
        ("02147483648", 10), ("-0002147483649", 13), ("- 1", 1), ("--1", 1), ("-+1", 1), ("+1", 0), ("1++1", 2), ("1+ +1", 3), ("12 3", 3), ("1 2", 2),
        ("1-1", 1), ("1 -1", 2), ("1 - 1", 2), ("1+- 1", 3), ("0x1", 1), ("1.5", 1), ("1,000", 1), ("1e3", 1), ("-r5", 1), ("-(1)", 1), ("-fork 1", 1),
        ("1 000", 2), ("2147483647 + 2147483648", 22), ("2 * 3", 2), ("2147483648)", 9), ("-2147483648-", 11), ("1=1", 1), ("1fork 2", 1), ("1 fork 2", 2),
        ("1(2)", 1), ("1 (2)", 2), ("1atomic(2)", 1),
    ):
        fails(text, text, place)
    fails("2147483648 in a transaction", "atomic(2147483648)", 16)
    fails("-2147483649 in a write", "atomic(r5:=-2147483649)", 21)
    section("15: words and brackets")
    for text, place in (
        ("frok 1", 1), ("forK 1", 3), ("Fork 1", 0), ("FORK 1", 0), ("f ork 1", 1), ("fo rk 1", 2), ("for k 1", 3), ("fork)", 4), ("fork+1", 4),
        ("fork + 1", 5), ("forks 1", 4), ("fork r5", 5), ("fork-", 5), ("fork fork)", 9), ("atomik(1)", 5), ("Atomic(1)", 0), ("atomic 1", 7), ("atomic1", 6),
        ("atomic r5", 7), ("ato mic(1)", 3), ("atomic()", 7), ("atomic( )", 8), ("atomicatomic(1)", 6), ("atomic fork(1)", 7), ("atomic[1]", 6),
        ("atomic(fork 1)", 7), ("atomic(atomic(1))", 7), ("atomic((fork 1))", 8), ("atomic(1 + fork 1)", 11), ("atomic(1)(2)", 9), ("atomic(1) 2", 10),
        ("atomic(1))", 9), ("atomic(1,2)", 8), ("forkatomic 1", 11), ("()", 1), ("( )", 2), ("(+1)", 1), ("(1+)", 3), ("1)", 1), ("(1))", 3), (")", 0),
        ("[1]", 0), ("{1}", 0), ("(1]", 2), ("(1)(2)", 3), ("(1)2", 3), ("(1) (2)", 4), ("(1)fork 2", 3), ("1+)", 2), ("(fork)", 5), ("x", 0), ("o", 0),
        ("r", 0), ("k1", 0), ("if 1", 0), ("1 + x", 4), ("spawn 1", 0), ("# 1", 0),
    ):
        fails(text, text, place)
    fails("an end of line in a word", "at\nomic(1)", 2)
    section("15: registers and writes")
    for label, text, place in (
        ("r5 outside a transaction", "r5", 0), ("1 + r1", "1 + r1", 4), ("a write outside a transaction", "r5 := 1", 0),
        ("a write in a bracket outside a transaction", "(r5 := 1)", 1), ("r64", "atomic(r64)", 9), ("r064", "atomic(r064)", 10), ("r65", "atomic(r65)", 9),
        ("r70", "atomic(r70)", 9), ("r99", "atomic(r99)", 9), ("r100", "atomic(r100)", 10), ("r256", "atomic(r256)", 10), ("r630", "atomic(r630)", 10),
        ("r4294967296", "atomic(r4294967296)", 10), ("r18446744073709551616", "atomic(r18446744073709551616)", 10), ("write of r64", "atomic(r64:=1)", 9),
        ("write of r64 in a write", "atomic(r5:=r64:=1)", 13), ("read of r64 in a write", "atomic(r5:=r64)", 13), ("r with no digit", "atomic(r)", 8),
        ("a blank in a register", "atomic(r 5)", 8), ("a minus in a register", "atomic(r-1)", 8), ("a great R", "atomic(R5)", 7), ("rr5", "atomic(rr5)", 8),
        ("two registers", "atomic(r1 r2)", 10), ("two registers with no blank", "atomic(r1r2)", 9), ("a register and a number", "atomic(r63 1)", 11),
        ("a number and a register", "atomic(1r2)", 8), ("a register and a bracket", "atomic(r5(1))", 9), ("a register and a minus", "atomic(r5-1)", 9),
        ("an equals sign alone", "atomic(r5 = 1)", 10), ("a colon alone", "atomic(r5 : 1)", 11), ("a blank in a write's sign", "atomic(r5: =1)", 10),
        ("a colon and a number", "atomic(r5:1)", 10), ("two colons", "atomic(r5::=1)", 10), ("two equals signs", "atomic(r5:==1)", 11),
        ("a write of nothing", "atomic(r5:=)", 11), ("a write of nothing, a blank", "atomic(r5 := )", 13), ("a write to nothing", "atomic(:= 1)", 7),
        ("a write to a number", "atomic(1 := 2)", 9), ("a write to a sum", "atomic(1 + r1 := 2)", 14),
        ("a write to a sum that begins with a register", "atomic(r1 + 1 := 2)", 14), ("a write to two registers", "atomic(r1 + r2 := 3)", 15),
        ("a write to a register in brackets", "atomic((r1) := 2)", 12), ("a write to a write", "atomic((r1 := 2) := 3)", 17),
        ("a write of a write to a number", "atomic(r1 := 1 := 2)", 15), ("a write of a write to a sum", "atomic(r1 := r2 + r3 := 4)", 21),
        ("a write in a sum", "atomic(r1 + (r2) := 3)", 17), ("a write to a transaction", "atomic(r1) := 2", 11),
        ("a write of a fork", "atomic(r1 := fork 2)", 13), ("a write of a write with no brackets behind a sign", "atomic(r1 := 2 + r3 := 4)", 20),
        ("a write to fork", "fork := 1", 5),
    ):
        fails(label, text, place)


def the_open():
    section("64 and 65 open")

    def inside(n, text, inner="("):
        return inner * n + text + ")" * (n if inner == "(" else 0)

    in_forks = chain(fork, 15, V)
    for label, text, tree in (
        ("64 brackets", inside(64, "7"), V),
        ("62 brackets and an atomic", inside(62, "atomic(r5)"), atomic(R)),
        ("61 brackets, an atomic and a bracket in it", inside(61, "atomic((r5))"), atomic(R)),
        ("61 brackets, an atomic and a write", inside(61, "atomic(r5:=7)"), atomic(write(5, T))),
        ("60 brackets, an atomic and two writes", inside(60, "atomic(r5:=r5:=7)"), atomic(write(5, write(5, T)))),
        ("63 brackets and a fork", inside(63, "fork 7"), fork(V)),
        ("15 forks and 49 brackets", inside(15, inside(49, "7"), "fork"), in_forks),
        ("15 forks, 47 brackets and an atomic", inside(15, inside(47, "atomic(r5)"), "fork"), chain(fork, 15, atomic(R))),
        ("an atomic and 62 writes", "atomic(%s7)" % ("r0:=" * 62), atomic(chain(jobs.write0, 62, T))),
        ("an atomic and 62 brackets", "atomic(%s)" % inside(62, "r5"), atomic(R)),
        ("64 brackets twice", inside(64, "7") + "+" + inside(64, "7"), addp(V, V)),
        ("63 brackets, in them a bracket twice", inside(63, "(7)+(7)"), addp(V, V)),
        ("62 brackets, in them an atomic twice", inside(62, "atomic(r5)+atomic(r5)"), addp(atomic(R), atomic(R))),
        ("a fork, then 64 brackets", "fork 7+" + inside(64, "7"), addp(fork(V), V)),
        ("a fork of a bracket, then 64 brackets", "fork(7)+" + inside(64, "7"), addp(fork(V), V)),
        ("63 brackets, in them a fork twice", inside(63, "fork 7 + fork 7"), addp(fork(V), fork(V))),
        ("an atomic, then 64 brackets", "atomic(r5)+" + inside(64, "7"), addp(atomic(R), V)),
        ("a write in brackets, then 62 brackets", "atomic((r5:=7)+" + inside(62, "7") + ")", atomic(addt(write(5, T), T))),
        ("a write, in it 61 brackets", "atomic(r5:=7+" + inside(61, "7") + ")", atomic(write(5, addt(T, T)))),
    ):
        case(label, text, tree)
    for label, text, place in (
        ("65 brackets", inside(65, "7"), 64),
        ("100 brackets and nothing closed", "(" * 100, 64),
        ("64 brackets and a fork", inside(64, "fork 7"), 64),
        ("63 brackets, a fork and a bracket", inside(63, "fork(7)"), 67),
        ("63 brackets and two forks", inside(63, "fork fork 7"), 68),
        ("63 brackets and an atomic", inside(63, "atomic(r5)"), 63),
        ("63 brackets and an atomic, a blank before it", inside(63, " atomic(r5)"), 64),
        ("64 brackets and an atomic", inside(64, "atomic(r5)"), 64),
        ("62 brackets, a fork and an atomic", inside(62, "forkatomic(r5)"), 66),
        ("62 brackets, an atomic and a bracket in it", inside(62, "atomic((r5))"), 69),
        ("62 brackets, an atomic and a write", inside(62, "atomic(r1 :=2)"), 72),
        ("61 brackets, an atomic and two writes", inside(61, "atomic(r1:=r2:=3)"), 74),
        ("61 brackets, an atomic, a write and a bracket in it", inside(61, "atomic(r1:=(2))"), 72),
        ("15 forks and 50 brackets", inside(15, inside(50, "7"), "fork"), 109),
        ("65 forks", inside(65, "7", "fork"), 256),
        ("an atomic and 63 writes", "atomic(%s7)" % ("r0:=" * 63), 257),
        ("an atomic and 63 brackets", "atomic(%s)" % inside(63, "r5"), 69),
        ("64 brackets, then 65", inside(64, "7") + "+" + inside(65, "7"), 194),
        ("a fork and in it 64 brackets", "fork" + inside(64, "7"), 67),
        ("63 brackets, in them a fork, then two", inside(63, "fork 7 + fork fork 7"), 77),
        ("a write in brackets, then 63 brackets", "atomic((r5:=7)+" + inside(63, "7") + ")", 77),
        ("a write, in it 62 brackets", "atomic(r5:=7+" + inside(62, "7") + ")", 74),
    ):
        fails(label, text, place)


def the_lengths():
    section("texts of about 32,768 bytes")
    for label, text, tree in (
        ("32768 bytes, blanks in front", b" " * 32767 + b"7", V),
        ("32768 bytes, blanks behind", b"7" + b"\n" * 32767, V),
        ("32767 bytes, blanks on both sides", b" " * 16000 + b"7" + b"\r" * 16766, V),
        ("32768 bytes, zeros", b"0" * 32767 + b"7", V),
        ("32768 bytes, zeros behind a minus", b"-" + b"0" * 32757 + b"2147483648", valp(-2147483648)),
        ("32768 bytes, zeros in a register", b"atomic(r" + b"0" * 32757 + b"63)", atomic(read(63))),
        ("32768 bytes, zeros in a write", b"atomic(r" + b"0" * 32753 + b"5:=r5) ", atomic(write(5, R))),
        ("32768 bytes, blanks in 64 brackets", b"(" * 64 + b" " * 32639 + b"7" + b")" * 64, V),
    ):
        assert len(text) == int(label[:5])
        case(label, text, tree)
    for label, text, place in (
        ("32769 bytes, blanks in front", b" " * 32768 + b"7", 32768),
        ("32769 bytes, blanks behind", b"7" + b" " * 32768, 32768),
        ("32769 bytes, a byte that stands nowhere in front", b"x" + b" " * 32768, 32768),
        ("32769 bytes, a byte that stands nowhere last", b"7" + b" " * 32767 + b"x", 32768),
        ("32769 bytes, an end too early", b" " * 32769, 32768),
        ("32769 bytes, 32769 brackets", b"(" * 32769, 32768),
        ("32769 bytes, zeros", b"0" * 32769, 32768),
        ("70000 bytes", b"7" * 70000, 32768),
        ("65536 bytes, blanks behind", b"7" + b" " * 65535, 32768),
        ("32768 bytes, an end too early", b" " * 32768, 32768),
        ("32767 bytes, an end too early", b" " * 32767, 32767),
        ("32768 bytes, a byte that stands nowhere in front", b"x" + b" " * 32767, 0),
        ("32768 bytes, a byte that stands nowhere last", b"7" + b" " * 32766 + b"x", 32767),
        ("32768 bytes, a sign last", b"7" + b" " * 32766 + b"+", 32768),
        ("32768 bytes, a bracket too many", b" " * 32766 + b"7)", 32767),
        ("32768 bytes, zeros and a number too great", b"0" * 32758 + b"2147483648", 32767),
        ("32768 bytes, zeros and a register too great", b"atomic(r" + b"0" * 32757 + b"64)", 32766),
    ):
        assert len(text) == int(label[:5])
        fails(label, text, place)
    ones = b"+".join([b"1"] * 16384)
    case("%d bytes, 32767 nodes" % len(ones), ones, refused(4, 5), 6000)


def the_refusals():
    section("scripts whose job is turned down, and outputs")

    def ones(n, term="1"):
        return "+".join([term] * n)

    long = printed(jobs.TOO_LONG).decode()
    full = printed(flat(addp, [V] * 500)).decode()
    case("64 terms", ones(64), jobs.left_comb(addp, valp(1), 64))
    case("500 terms in brackets", full, flat(addp, [V] * 500))
    case("1000 nodes", "fork(%s)" % full, fork(flat(addp, [V] * 500)))
    case("15 forks side by side", ones(15, "fork 7"), jobs.left_comb(addp, fork(V), 15))
    case("200 nodes in a transaction", "atomic(%s)" % printed(jobs.FULL).decode(), atomic(jobs.FULL))
    turned_down = (
        ("65 terms", ones(65), refused(7, 71)),
        ("65 terms, the right ones in brackets", "(".join(["7+"] * 64) + "7" + ")" * 63, refused(7, 386)),
        ("500 terms", ones(500), refused(7, 71)),
        ("501 terms", ones(501), refused(4, 5)),
        ("501 terms in brackets", printed(flat(addp, [V] * 501)).decode(), refused(4, 5)),
        ("1001 nodes", "fork fork(%s)" % full, refused(4, 5)),
        ("16 forks in each other", "fork" * 16 + "7", refused(8, 22)),
        ("16 forks side by side", ones(16, "fork 7"), refused(8, 112)),
        ("64 forks", "fork" * 64 + "7", refused(8, 22)),
        ("201 nodes in a transaction", "atomic(%s)" % long, refused(14, 7)),
        ("201 nodes in a second transaction", "atomic(r5)+fork atomic(%s)" % long, refused(14, 12)),
        ("101 terms in a transaction", "atomic(%s)" % ones(101, "r5"), refused(7, 71)),
        ("201 nodes in a transaction, then 16 forks", "atomic(%s)+%s7" % (long, "fork" * 16), refused(8, 326)),
        ("16 forks and 501 terms", "fork" * 16 + "(%s)" % ones(501), refused(4, 5)),
        ("16 forks, then 65 terms", "fork" * 16 + "7+(%s)" % ones(65), refused(8, 23)),
    )
    for label, text, answer in turned_down:
        case(label, text, answer, 6000)
        if len(text) < 400 or label == "501 terms":
            case(label, text, answer, 0)
            fails(label + " and a bracket too many", text + ")", len(text))
    for size in (0, 1, 11):
        case("one number, a short output", "7", refused(10, 0), size)
    for size in (12, 13, 50, 6000):
        case("one number between blanks", " 7 ", V, size)
    whole = "%s + %s" % (STEP_TEXT, STEP_TEXT)
    for size in (0, 7, 31):
        case("the whole case, a short output", whole, refused(10, 0), size)
    for size in (33, 6000):
        case("the whole case, a longer output", whole, jobs.WHOLE, size)
    assert len(job_of(flat(addp, [V] * 500))) == 3006
    case("500 terms in brackets, an output one short", full, refused(10, 0), 3005)
    case("500 terms in brackets, a longer output", full, flat(addp, [V] * 500), 3007)
    section("the text of such a case")
    cases.line("formula 20 hex and behind it decimal", "31 2b; 40*2 55 41*2", "job 57 53 4A 00 01 00 03 02 01 00 00 00 01 01 00 00 00 07 kept")
    assert formula(b"1+((7))", 20).hex(" ").upper() in cases.answers[-1]
    for label, text in (
        ("formula", "37"),
        ("formula one number", "37"),
        ("formula 6001 one number", "37"),
        ("formula 20 a lone digit", "3"),
        ("formula 20 a great number", "; 256"),
    ):
        cases.line(label, text, "malformed")


def make():
    cases.lines.append("# Cases of document 02's scripts typed as formulas.")
    for part in (scripts, no_scripts, the_open, the_lengths, the_refusals):
        part()


# ---- the reader beside the definition: python3 formulas.py

# of each part of a text the rows of parts that it may be, with how many are open in the row more than around it, and its node; the rest are words
GRAMMAR = {
    "process": ((0, None, ("term",)), (0, addp, ("process", "+", "term"))),
    "term": ((0, valp, ("number",)), (1, None, ("(", "process", ")")), (1, fork, ("f", "term")), (2, atomic, ("at", "(", "transaction", ")"))),
    "transaction": ((0, None, ("sum",)), (1, write, ("register", ":=", "transaction"))),
    "sum": ((0, None, ("part",)), (0, addt, ("sum", "+", "part"))),
    "part": ((0, valt, ("number",)), (0, read, ("register",)), (1, None, ("(", "transaction", ")"))),
}


def spelled(part, n):
    """The texts of a number, a register or a word, with up to n zeros where they may stand, and the numbers."""
    if part == "number":
        signs = ((b"", 1, GREATEST), (b"-", -1, -LEAST))
    elif part == "register":
        signs = ((b"r", 1, LAST_REGISTER),)
    else:
        return {(part.encode(), ())}
    numbers = [(word, sign * m, b"%d" % m) for word, sign, most in signs for m in range(most + 1) if set(b"%d" % m) <= set(BYTES)]
    return {(word + b"0" * k + digits, (value,)) for word, value, digits in numbers for k in range(n)}


@lru_cache(None)
def texts(part, opened, n):
    """All texts of a part with so many open around it, each cut to n bytes, and as a tuple what it stands for, None if it was cut."""
    if part not in GRAMMAR:
        blanks = [b" " * k for k in range(n + 1)]
        return {((a + text + b)[:n], value if len(a + text + b) < n else None) for text, value in spelled(part, n) for a in blanks for b in blanks}
    out = set()
    while True:
        found = set()
        for more, node, (first, *others) in GRAMMAR[part]:
            if opened + more <= MOST_OPEN:
                row = out if first == part else texts(first, opened + more, n)
                for other in others:
                    behind = [{(b"", None)}] + [texts(other, opened + more, k) for k in range(1, n)]
                    row = {(a + b, None if v is None or w is None else v + w) for a, v in row for b, w in behind[n - len(a)]}
                found |= {(text, (node(*value),) if value and node else value) for text, value in row}
        if found <= out:
            return out
        out |= found


def compare(n, part="process", opened=0, front=b"", end=b""):
    """Holds the reader to the definition, on every beginning of a part below n bytes and on each byte behind it; in front of the part stands `front`."""
    trees, beginnings = {}, set()
    for text, value in texts(part, opened, n):
        assert value is None or trees.setdefault(text, value) == value, text  # one tree
        beginnings |= {text[:k] for k in range(len(text) + 1)}
    for text in beginnings:
        at = len(front + text)
        if len(text) == n:
            assert tree_of(front + text) == refused(15, at) or tree_of(front + text)[0] != "refused", text
            continue
        if text in trees:
            assert tree_of(front + text + end) == (atomic(*trees[text]) if end else trees[text][0]), text
        if end or text not in trees:
            assert tree_of(front + text) == refused(15, at), text
        for byte in BYTES:
            longer = text + bytes([byte])
            if longer not in beginnings and not (text in trees and bytes([byte]) == end):
                assert tree_of(front + longer + b"1)") == refused(15, at), longer
    print(len(trees), "texts of a", part, "and", len(beginnings), "beginnings of one are read as the definition says")


if __name__ == "__main__":
    # short words and small bounds, so that short texts have all there is
    MOST_OPEN, LEAST, GREATEST, LAST_REGISTER, FORK, ATOMIC, BYTES = 4, -12, 11, 10, b"f", b"at", b"fat()+-012r:= x"
    compare(6)
    compare(7, "transaction", 2, b"at(", b")")

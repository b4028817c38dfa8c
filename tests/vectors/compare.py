#!/usr/bin/env python3
"""Compares the four-state operators with Icarus Verilog on random operands.

The definitions of crates/vbits/specs are written again below, letter by letter, as plain Python over
strings (leftmost letter first). A Verilog text computes the same with variables, so that the simulator
works and not only its constant folding. The operands come from a fixed seed. Where the program of the
crate vbits_bench is built (`rt run` in its folder), the crate itself is asked too: for every operator of
the tables below, shifts, concatenation, join and truth, at the same operands.

Known difference: `?:` under an unknown condition makes z joined with z an x here, and a z there.

Usage: tests/vectors/compare.py [CASES_PER_OPERATOR]    (120 unless given)
"""
import random
import shutil
import subprocess
import sys
import tempfile
from pathlib import Path


# ---- letters

def is_unknown(letter):
    return letter in "xz"


def not_letter(a):
    return {"0": "1", "1": "0"}.get(a, "x")


def and_letter(a, b):
    return "0" if "0" in (a, b) else "1" if a == b == "1" else "x"


def or_letter(a, b):
    return "1" if "1" in (a, b) else "0" if a == b == "0" else "x"


def xor_letter(a, b):
    return "x" if is_unknown(a) or is_unknown(b) else "01"[a != b]


def xnor_letter(a, b):
    return not_letter(xor_letter(a, b))


def join_letter(a, b):
    return a if a == b and a in "01" else "x"


# ---- vectors: (letters, sign mark)

def known(v):
    return not any(map(is_unknown, v[0]))


def integer(v, signed):
    """The integer that the letters stand for, or None."""
    if not known(v):
        return None
    n = int(v[0], 2)
    return n - 2 ** len(v[0]) if signed and v[0][0] == "1" else n


def wrapped(length, z):
    return format(z % 2 ** length, "0%db" % length)


def sign_letter(v):
    return v[0][0] if v[1] else "0"


def resize(v, length):
    return (sign_letter(v) * length + v[0])[-length:]


def arithmetic(operation):
    def meaning(v, w):
        signed = v[1] and w[1]
        x, y = integer(v, signed), integer(w, signed)
        z = None if x is None or y is None else operation(x, y)
        return "x" * len(v[0]) if z is None else wrapped(len(v[0]), z)
    return meaning


def quotient(x, y):
    if y == 0:
        return None
    q = abs(x) // abs(y)
    return -q if (x < 0) != (y < 0) else q


def remainder(x, y):
    return None if y == 0 else x - y * quotient(x, y)


def order(test):
    def meaning(v, w):
        signed = v[1] and w[1]
        x, y = integer(v, signed), integer(w, signed)
        return "x" if x is None or y is None else "01"[test(x, y)]
    return meaning


def bitwise(table):
    return lambda v, w: "".join(map(table, v[0], w[0]))


def equal(v, w):
    pairs = list(zip(v[0], w[0]))
    if any({a, b} == {"0", "1"} for a, b in pairs):
        return "0"
    return "1" if known(v) and known(w) else "x"


def reduction(table, start, turned=False):
    def meaning(v):
        result = start
        for letter in reversed(v[0]):
            result = table(result, letter)
        return not_letter(result) if turned else result
    return meaning


def truth(v):
    return "1" if "1" in v[0] else "0" if known(v) else "x"


def shift(v, amount, operator):
    places = integer(amount, False)
    length = len(v[0])
    if places is None:
        return "x" * length
    places = min(places, length)
    if operator in ("<<", "<<<"):
        return (v[0] + "0" * places)[-length:]
    fill = sign_letter(v) if operator == ">>>" else "0"
    return (fill * places + v[0])[:length]


BINARY = {
    "+": arithmetic(lambda x, y: x + y),
    "-": arithmetic(lambda x, y: x - y),
    "*": arithmetic(lambda x, y: x * y),
    "/": arithmetic(quotient),
    "%": arithmetic(remainder),
    "&": bitwise(and_letter),
    "|": bitwise(or_letter),
    "^": bitwise(xor_letter),
    "~^": bitwise(xnor_letter),
    "==": equal,
    "!=": lambda v, w: not_letter(equal(v, w)),
    "===": lambda v, w: "01"[v[0] == w[0]],
    "!==": lambda v, w: "01"[v[0] != w[0]],
    "<": order(lambda x, y: x < y),
    "<=": order(lambda x, y: x <= y),
    ">": order(lambda x, y: x > y),
    ">=": order(lambda x, y: x >= y),
}

UNARY = {
    "~": lambda v: "".join(map(not_letter, v[0])),
    "-": lambda v: "x" * len(v[0]) if not known(v) else wrapped(len(v[0]), -int(v[0], 2)),
    "&": reduction(and_letter, "1"),
    "~&": reduction(and_letter, "1", True),
    "|": reduction(or_letter, "0"),
    "~|": reduction(or_letter, "0", True),
    "^": reduction(xor_letter, "0"),
    "~^": reduction(xor_letter, "0", True),
}


# ---- random operands

def random_vector(chance, length):
    letters = "01" * 6 + "xz" if chance.random() < 0.4 else "01"
    if chance.random() < 0.15:
        letters = chance.choice(["0", "1", "01"])
    text = "".join(chance.choice(letters) for _ in range(length))
    if chance.random() < 0.1:
        text = text[0] + "0" * (length - 1)
    return text, chance.random() < 0.5


def random_length(chance):
    return chance.choice([1, 2, 3, 4, 7, 8, 16, 31, 32, 33, 63, 64, chance.randint(1, 64)])


def declared(name, v):
    return "reg %s[%d:0] %s;" % ("signed " if v[1] else "", len(v[0]) - 1, name)


def literal(v):
    return "%d'%sb%s" % (len(v[0]), "s" if v[1] else "", v[0])


NAMES = {
    "+": "add", "-": "sub", "*": "mul", "/": "div", "%": "rem", "&": "and", "|": "or", "^": "xor", "~^": "xnor",
    "==": "eq", "!=": "ne", "===": "case_eq", "!==": "case_ne", "<": "lt", "<=": "le", ">": "gt", ">=": "ge",
    "<<": "shl", "<<<": "shl", ">>": "shr", ">>>": "ashr",
}
UNARY_NAMES = {
    "~": "not", "-": "neg", "&": "reduce_and", "~&": "reduce_nand", "|": "reduce_or", "~|": "reduce_nor",
    "^": "reduce_xor", "~^": "reduce_xnor",
}


def word(v):
    """An operand as the program reads it."""
    return ("s" if v[1] else "") + v[0]


class Cases:
    """The Verilog text, and beside each line that it prints what the definitions say."""

    def __init__(self):
        self.declarations = []
        self.statements = []
        self.expected = []
        self.calls = []
        self.variables = 0

    def variable(self, v):
        name = "v%d" % self.variables
        self.variables += 1
        self.declarations.append(declared(name, v))
        self.statements.append("%s = %s;" % (name, literal(v)))
        return name

    def shown(self, expression, wanted, told, passed="", call=None):
        """passed: the letters that are not compared are marked by -; call: the words for the program"""
        self.statements.append('$display("%%b", %s);' % expression)
        self.expected.append((wanted, told, passed))
        if call:
            self.calls.append((call, wanted))

    def text(self):
        return "module tb;\n%s\ninitial begin\n%s\nend\nendmodule\n" % (
            "\n".join(self.declarations), "\n".join(self.statements))


def fill(cases, chance, count):
    for operator, meaning in BINARY.items():
        for _ in range(count):
            length = random_length(chance)
            v, w = random_vector(chance, length), random_vector(chance, length)
            if chance.random() < 0.2:
                w = (v[0], w[1])
            expression = "%s %s %s" % (cases.variable(v), operator, cases.variable(w))
            cases.shown(expression, meaning(v, w), "%s %s %s" % (literal(v), operator, literal(w)),
                        call=(NAMES[operator], word(v), word(w)))
    for operator, meaning in UNARY.items():
        for _ in range(count):
            v = random_vector(chance, random_length(chance))
            cases.shown("%s%s" % (operator, cases.variable(v)), meaning(v), "%s %s" % (operator, literal(v)),
                        call=(UNARY_NAMES[operator], word(v), word(v)))
    for operator in ("<<", "<<<", ">>", ">>>"):
        for _ in range(count):
            v = random_vector(chance, random_length(chance))
            amount = random_vector(chance, chance.randint(1, 8))
            expression = "%s %s %s" % (cases.variable(v), operator, cases.variable(amount))
            cases.shown(expression, shift(v, amount, operator), "%s %s %s" % (literal(v), operator, literal(amount)),
                        call=(NAMES[operator], word(v), word(amount)))
    for _ in range(count):
        length = random_length(chance)
        v = random_vector(chance, length)
        low = chance.randint(0, length - 1)
        high = chance.randint(low, length - 1)
        told = "%s[%d:%d]" % (literal(v), high, low)
        cut = v[0][length - 1 - high:length - low]
        name = cases.variable(v)
        cases.shown("%s[%d:%d]" % (name, high, low), cut, told)
        part = random_vector(chance, high - low + 1)
        cases.statements.append("%s[%d:%d] = %s;" % (name, high, low, literal(part)))
        written = v[0][:length - 1 - high] + part[0] + v[0][length - low:]
        cases.shown(name, written, "%s = %s" % (told, literal(part)))
        right = random_vector(chance, chance.randint(1, 64))
        left = random_vector(chance, max(1, min(64 - len(right[0]), length)))
        if len(left[0]) + len(right[0]) <= 64:
            expression = "{%s, %s}" % (cases.variable(left), cases.variable(right))
            cases.shown(expression, left[0] + right[0], "{%s, %s}" % (literal(left), literal(right)),
                        call=("concat", word(left), word(right)))
        wide = chance.randint(1, 64)
        target = cases.variable(("0" * wide, False))
        cases.statements.append("%s = %s;" % (target, cases.variable(v)))
        cases.shown(target, resize(v, wide), "%s at %d" % (literal(v), wide))
        cases.shown("%s ? 1'b1 : 1'b0" % cases.variable(v), truth(v), "%s as a condition" % literal(v),
                    call=("truth", word(v), word(v)))
        w = random_vector(chance, length)
        both_z = "".join("-" if a == b == "z" else " " for a, b in zip(v[0], w[0]))
        cases.shown("1'bx ? %s : %s" % (cases.variable(v), cases.variable(w)), bitwise(join_letter)(v, w),
                    "1'bx ? %s : %s" % (literal(v), literal(w)), both_z, ("join", word(v), word(w)))


def differs(wanted, found, passed):
    if len(wanted) != len(found):
        return True
    return any(a != b and mark != "-" for a, b, mark in zip(wanted, found, passed or " " * len(wanted)))


def ask_the_crate(calls):
    """How many answers of the crate differ; none where its program isn't built."""
    program = Path(__file__).resolve().parents[2] / "crates/vbits_bench/out/vbits_bench"
    if not program.exists():
        print("vectors: the crate itself is not asked, vbits_bench is not built")
        return 0
    wrong = 0
    for words, wanted in calls:
        answer = subprocess.run([str(program), *words], check=True, capture_output=True, text=True).stdout.strip().lstrip("s")
        if answer != wanted:
            wrong += 1
            print("%s: wanted %s, the crate says %s" % (" ".join(words), wanted, answer))
    print("vectors: the crate asked %d times, %d answers differ" % (len(calls), wrong))
    return wrong


def main():
    if shutil.which("iverilog") is None or shutil.which("vvp") is None:
        print("vectors: skipped, iverilog is not installed")
        return 0
    count = int(sys.argv[1]) if len(sys.argv) > 1 else 120
    cases = Cases()
    fill(cases, random.Random(1364), count)
    with tempfile.TemporaryDirectory() as folder:
        source, program = Path(folder, "tb.v"), Path(folder, "tb.vvp")
        source.write_text(cases.text())
        subprocess.run(["iverilog", "-g2005", "-o", str(program), str(source)], check=True)
        run = subprocess.run(["vvp", "-n", str(program)], check=True, capture_output=True, text=True)
    found = run.stdout.split()
    if len(found) != len(cases.expected):
        print("vectors: %d lines wanted, %d found" % (len(cases.expected), len(found)))
        return 1
    joined = wrong = 0
    for (wanted, told, passed), line in zip(cases.expected, found):
        if differs(wanted, line, passed):
            wrong += 1
            print("%s: here %s, there %s" % (told, wanted, line))
        elif wanted != line:
            joined += 1
    print("vectors: %d compared, %d differ, %d with the known difference (z joined with z)"
          % (len(found), wrong, joined))
    return 1 if wrong + ask_the_crate(cases.calls) else 0


if __name__ == "__main__":
    sys.exit(main())

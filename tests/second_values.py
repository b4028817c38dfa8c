"""A second reading of docs/LANGUAGE.md, "Values": expressions made at random, and what they are worth. Letters stand lowest first.

A node has its text, and answers its `size` and its sign (`signed`) by itself, its value `at` a size and a sign, and the variables that it
`reads`. `world` is what is known: a list of letters for each variable, a list of signs, the time as `$time` tells it, and the bounds that
each variable was declared with, an `integer` with 31 and 0, a `time` with 63 and 0.
"""
from dataclasses import dataclass


@dataclass
class Number:
    """A number of the text (3.5.1): its letters, whether it is signed, and whether its leftmost letter spreads."""
    text: str
    letters: str
    signed: bool = False
    spreads: bool = False


@dataclass
class World:
    values: list
    signs: list
    time: int
    bounds: list


def is_known(letters):
    return set(letters) <= set("01")


def digits(n, size):
    return "".join(str(n >> i & 1) for i in range(size))


def integer(letters, signed):
    n = int(letters[::-1], 2)
    return n - (1 << len(letters)) if signed and letters[-1] == "1" else n


def extended(letters, signed, size):
    return (letters + (letters[-1] if signed else "0") * size)[:size]


def truth(letters):
    return "1" if "1" in letters else "0" if is_known(letters) else "x"


def inverse(letter):
    return {"0": "1", "1": "0"}.get(letter, "x")


def both(a, b):
    return "0" if "0" in (a, b) else "1" if (a, b) == ("1", "1") else "x"


def either(a, b):
    return "1" if "1" in (a, b) else "0" if (a, b) == ("0", "0") else "x"


def differing(a, b):
    return "x" if not is_known(a + b) else "1" if a != b else "0"


def folded(table, letters):
    result = letters[0] if letters[0] in "01" else "x"
    for letter in letters[1:]:
        result = table(result, letter)
    return result


# of one letter `x` or `z`, a table gives what it gives of two of them
def reduced(table, letters):
    return folded(table, letters) if len(letters) > 1 else letters if letters in ("0", "1") else "x"


REDUCTIONS = {"&": both, "|": either, "^": differing}
BITWISE = {"&": both, "|": either, "^": differing}


def quotient(x, y):
    n = abs(x) // abs(y)
    return n if (x < 0) == (y < 0) else -n


ARITHMETIC = {
    "+": lambda x, y: x + y,
    "-": lambda x, y: x - y,
    "*": lambda x, y: x * y,
    "/": lambda x, y: quotient(x, y) if y else None,
    "%": lambda x, y: x - y * quotient(x, y) if y else None,
}
ORDER = {"<": lambda x, y: x < y, "<=": lambda x, y: x <= y, ">": lambda x, y: x > y, ">=": lambda x, y: x >= y}


def equality(v, w):
    if any(a in "01" and b in "01" and a != b for a, b in zip(v, w)):
        return "0"
    return "1" if is_known(v + w) else "x"


class Node:
    def own(self, world):
        """Its value by itself."""
        return self.at(world, self.size(world), self.signed(world))

    def operands(self):
        return []

    def reads(self):
        return set().union(*(operand.reads() for operand in self.operands()))

    def fits(self, world):
        """Whether no part of it is over 64 bits."""
        return self.size(world) <= 64 and all(operand.fits(world) for operand in self.operands())


class Unsigned(Node):
    """What is worth the same wherever it stands."""

    def signed(self, world):
        return False

    def at(self, world, size, signed):
        return extended(self.letters(world), signed, size)


@dataclass
class Constant(Node):
    number: Number

    def text(self):
        return self.number.text

    def size(self, world):
        return len(self.number.letters)

    def signed(self, world):
        return self.number.signed

    def at(self, world, size, signed):
        last = self.number.letters[-1]
        return extended(self.number.letters, signed or (self.number.spreads and last in "xz"), size)


@dataclass
class Variable(Node):
    name: str
    place: int

    def text(self):
        return self.name

    def size(self, world):
        return len(world.values[self.place])

    def signed(self, world):
        return world.signs[self.place]

    def at(self, world, size, signed):
        return extended(world.values[self.place], signed, size)

    def reads(self):
        return {self.place}


class Time(Node):
    def text(self):
        return "$time"

    def size(self, world):
        return 64

    def signed(self, world):
        return False

    def at(self, world, size, signed):
        return extended(digits(world.time, 64), signed, size)


@dataclass
class Conversion(Node):
    mark: bool
    operand: Node

    def text(self):
        return f"${'signed' if self.mark else 'unsigned'}({self.operand.text()})"

    def size(self, world):
        return self.operand.size(world)

    def signed(self, world):
        return self.mark

    def at(self, world, size, signed):
        return extended(self.operand.own(world), signed, size)

    def operands(self):
        return [self.operand]


@dataclass
class Unary(Node):
    operator: str
    operand: Node

    def keeps(self):
        return self.operator in ("+", "-", "~")

    def text(self):
        return f"{self.operator}({self.operand.text()})"

    def size(self, world):
        return self.operand.size(world) if self.keeps() else 1

    def signed(self, world):
        return self.keeps() and self.operand.signed(world)

    def at(self, world, size, signed):
        if not self.keeps():
            return extended(self.bit(self.operand.own(world)), signed, size)
        letters = self.operand.at(world, size, signed)
        if self.operator == "~":
            return "".join(map(inverse, letters))
        if self.operator == "-":
            return digits(-integer(letters, signed), size) if is_known(letters) else "x" * size
        return letters

    def bit(self, letters):
        if self.operator == "!":
            return inverse(truth(letters))
        table = REDUCTIONS[self.operator.replace("~", "")]
        result = reduced(table, letters)
        return inverse(result) if "~" in self.operator else result

    def operands(self):
        return [self.operand]


@dataclass
class Binary(Node):
    operator: str
    left: Node
    right: Node

    def text(self):
        return f"({self.left.text()}) {self.operator} ({self.right.text()})"

    def manner(self):
        if self.operator in ("&&", "||"):
            return "combines"
        if self.operator in ("<<", ">>", "<<<", ">>>"):
            return "shifts"
        return "compares" if self.operator[0] in "<>=!" else "shares"

    def size(self, world):
        manner = self.manner()
        if manner in ("combines", "compares"):
            return 1
        left = self.left.size(world)
        return left if manner == "shifts" else max(left, self.right.size(world))

    def signed(self, world):
        manner = self.manner()
        if manner in ("combines", "compares"):
            return False
        return self.left.signed(world) and (manner == "shifts" or self.right.signed(world))

    def at(self, world, size, signed):
        manner = self.manner()
        if manner == "combines":
            table = both if self.operator == "&&" else either
            return extended(table(truth(self.left.own(world)), truth(self.right.own(world))), signed, size)
        if manner == "compares":
            return extended(self.compared(world), signed, size)
        left = self.left.at(world, size, signed)
        if manner == "shifts":
            return self.shifted(left, self.right.own(world), signed)
        return self.shared(left, self.right.at(world, size, signed), signed)

    def compared(self, world):
        wide = max(self.left.size(world), self.right.size(world))
        signed = self.left.signed(world) and self.right.signed(world)
        left, right = (side.at(world, wide, signed) for side in (self.left, self.right))
        if self.operator in ("===", "!=="):
            return "01"[(left == right) == (self.operator == "===")]
        if self.operator in ("==", "!="):
            same = equality(left, right)
            return same if self.operator == "==" else inverse(same)
        if not is_known(left + right):
            return "x"
        return "01"[ORDER[self.operator](integer(left, signed), integer(right, signed))]

    def shifted(self, letters, amount, signed):
        size = len(letters)
        if not is_known(amount):
            return "x" * size
        count = min(integer(amount, False), size)
        if self.operator in ("<<", "<<<"):
            return ("0" * count + letters)[:size]
        fill = letters[-1] if self.operator == ">>>" and signed else "0"
        return letters[count:] + fill * count

    def shared(self, left, right, signed):
        if self.operator in ARITHMETIC:
            if not is_known(left + right):
                return "x" * len(left)
            result = ARITHMETIC[self.operator](integer(left, signed), integer(right, signed))
            return "x" * len(left) if result is None else digits(result, len(left))
        table = BITWISE[self.operator.replace("~", "")]
        letters = [table(a, b) for a, b in zip(left, right)]
        return "".join(map(inverse, letters) if "~" in self.operator else letters)

    def operands(self):
        return [self.left, self.right]


@dataclass
class Conditional(Node):
    condition: Node
    when_true: Node
    when_false: Node

    def text(self):
        return f"({self.condition.text()}) ? ({self.when_true.text()}) : ({self.when_false.text()})"

    def size(self, world):
        return max(self.when_true.size(world), self.when_false.size(world))

    def signed(self, world):
        return self.when_true.signed(world) and self.when_false.signed(world)

    def at(self, world, size, signed):
        left, right = (side.at(world, size, signed) for side in (self.when_true, self.when_false))
        test = truth(self.condition.own(world))
        if test == "x":
            return "".join(a if a == b and a in "01" else "x" for a, b in zip(left, right))
        return left if test == "1" else right

    def operands(self):
        return [self.condition, self.when_true, self.when_false]


def letter_at(letters, bounds, number):
    """The letter of the bit of this number; x where there is none."""
    left, right = bounds
    inside = min(left, right) <= number <= max(left, right)
    return letters[abs(number - right)] if inside else "x"


def bit_of(letters, bounds, index, world):
    """The letter that an index selects."""
    own = index.own(world)
    return letter_at(letters, bounds, integer(own, index.signed(world))) if is_known(own) else "x"


def part_of(letters, bounds, left, right):
    step = 1 if left >= right else -1
    return "".join(letter_at(letters, bounds, number) for number in range(right, left + step, step))


@dataclass
class Bit(Unsigned):
    name: str
    place: int
    index: Node

    def text(self):
        return f"{self.name}[{self.index.text()}]"

    def size(self, world):
        return 1

    def letters(self, world):
        return bit_of(world.values[self.place], world.bounds[self.place], self.index, world)

    def operands(self):
        return [self.index]

    def reads(self):
        return {self.place} | self.index.reads()


@dataclass
class Part(Unsigned):
    name: str
    place: int
    left: int
    right: int

    def text(self):
        return f"{self.name}[{self.left}:{self.right}]"

    def size(self, world):
        return abs(self.left - self.right) + 1

    def letters(self, world):
        return part_of(world.values[self.place], world.bounds[self.place], self.left, self.right)

    def reads(self):
        return {self.place}


@dataclass
class FixedBit(Unsigned):
    """A bit of a parameter."""
    fixed: str
    bounds: tuple
    index: Node

    def size(self, world):
        return 1

    def letters(self, world):
        return bit_of(self.fixed, self.bounds, self.index, world)

    def operands(self):
        return [self.index]


@dataclass
class FixedPart(Unsigned):
    """A part of a parameter."""
    fixed: str
    bounds: tuple
    left: int
    right: int

    def size(self, world):
        return abs(self.left - self.right) + 1

    def letters(self, world):
        return part_of(self.fixed, self.bounds, self.left, self.right)


@dataclass
class Joined(Unsigned):
    parts: list

    def text(self):
        return "{" + ", ".join(part.text() for part in self.parts) + "}"

    def size(self, world):
        return sum(part.size(world) for part in self.parts)

    def letters(self, world):
        return "".join(part.own(world) for part in reversed(self.parts))

    def operands(self):
        return self.parts


@dataclass
class Repeated(Unsigned):
    count: int
    joined: Joined

    def text(self):
        return "{" + f"{self.count}{self.joined.text()}" + "}"

    def size(self, world):
        return self.count * self.joined.size(world)

    def letters(self, world):
        return self.joined.own(world) * self.count

    def operands(self):
        return [self.joined]


UNARY = ["+", "-", "!", "~", "&", "~&", "|", "~|", "^", "~^", "^~"]
BINARY = "+ - * / % & | ^ ^~ ~^ << >> <<< >>> < <= > >= == != === !== && ||".split()


def expression(rng, leaf, depth):
    """An expression whose leaves come of `leaf`."""
    kinds = {"leaf": 4, "unary": 2, "binary": 5, "conditional": 1, "conversion": 1, "time": 0.3, "joined": 0.7, "repeated": 0.4}
    kind = rng.choices(list(kinds), list(kinds.values()))[0] if depth else "leaf"
    if kind == "leaf":
        return leaf()
    if kind == "time":
        return Time()
    if kind == "unary":
        return Unary(rng.choice(UNARY), expression(rng, leaf, depth - 1))
    if kind == "conversion":
        return Conversion(rng.random() < 0.5, expression(rng, leaf, depth - 1))
    if kind == "binary":
        return Binary(rng.choice(BINARY), expression(rng, leaf, depth - 1), expression(rng, leaf, depth - 1))
    if kind == "conditional":
        return Conditional(*(expression(rng, leaf, depth - 1) for _ in range(3)))
    joined = Joined([expression(rng, leaf, depth - 1) for _ in range(rng.choice([1, 2, 2, 3]))])
    return joined if kind == "joined" else Repeated(rng.choice([1, 2, 3, 64]), joined)

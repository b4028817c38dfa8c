"""Texts of designs made at random, by docs/LANGUAGE.md: a module tb, with others below it where it is asked for. What they mean is left to
second_design.py: here stands only how they are spelled. What each function makes is text.
"""
import re
from dataclasses import dataclass, field

from second_design import Object
from second_values import Bit, Constant, Number, Part, Variable, World, digits, expression

# statements, and how often each is made; those of the second line only where one may stand inside
LEAVES = {"assign": 6, "post": 5, "delay": 4, "empty": 1, "dump": 1, "finish": 0.2, "stop": 0.1, "held": 1, "later": 1, "trigger": 1, "print": 1.5, "idle": 0.1, "command": 0.4}
NESTED = {"block": 4, "test": 3, "again": 1, "for": 1, "forever": 0.5, "on": 2, "any": 1, "until": 1, "repeat": 1, "case": 2}
DEPTH = 3
# timescales, as a text spells them
TIMESCALES = ["`timescale 1ns/1ns", "`timescale 1ns/100ps", "`timescale 10 us / 10us", "`timescale 100ms /1 ms // slow", "`timescale 100 s/1fs"]


# ---- numbers (3.5.1)

def plain(rng):
    value = rng.choice([0, 1, 2, 5, 9, 255, 4294967295, 4294967296])
    return Number(str(value), digits(value, 32), signed=True)


def spelled(rng, base, width):
    """Digits of a base of so many bits each, and their letters, lowest first."""
    known = {1: "01", 3: "01267", 4: "019aBcF"}[width]
    chosen = "".join(rng.choice(known + "xXzZ?") for _ in range(rng.randrange(1, 6)))
    unknown = {"x": "x", "X": "x", "z": "z", "Z": "z", "?": "z"}
    letters = "".join(unknown[d] * width if d in unknown else digits(int(d, 16), width) for d in reversed(chosen))
    return "_".join(chosen) if rng.random() < 0.3 else chosen, letters, unknown.get(chosen[0], "0")


def decimal(rng):
    """The same of base d, in which x and z stand alone."""
    if rng.random() < 0.2:
        digit = rng.choice("xz?")
        letter = "z" if digit == "?" else digit
        return digit, letter, letter
    value = rng.choice([0, 1, 7, 255, 4294967296, 18446744073709551615])
    return str(value), digits(value, 64), "0"


def based(rng):
    size = rng.choice([None, 1, 2, 4, 8, 33, 64])
    base, width = rng.choice([("b", 1), ("o", 3), ("h", 4), ("H", 4), ("d", 0)])
    sign = rng.choice(["", "s", "S"])
    shown, letters, fill = spelled(rng, base, width) if width else decimal(rng)
    letters = (letters + fill * 64)[: size or 32]
    gaps = [rng.choice(["", "", "", "", "", "", " ", "\t", "  "]) for _ in range(2)]
    return Number(f"{'' if size is None else str(size) + gaps[0]}'{sign}{base}{gaps[1]}{shown}", letters, bool(sign), size is None and not sign)


def integer_of(n):
    return Constant(Number(str(n), digits(n, 32), True))


# ---- modules

@dataclass
class Names:
    """What a module's statements may name."""
    objects: list
    events: list = field(default_factory=list)
    parameters: list = field(default_factory=list)  # objects of kind `parameter`
    paths: list = field(default_factory=list)  # of instances, for `$dumpvars`

    def bounds(self):
        return [one.bounds or (one.length - 1, 0) for one in self.everything()]

    def everything(self):
        return self.objects + self.parameters

    def world(self):
        everything = self.everything()
        return World(["x" * one.length for one in everything], [one.signed for one in everything], 0, self.bounds())


class Texts:
    """Statements of a module, made at random."""

    def __init__(self, rng, names, asked=frozenset()):
        self.rng, self.names, self.asked, self.blocks = rng, names, asked, 0
        self.written = [one for one in names.objects if one.kind != "wire"]
        self.leaves = {kind: weight for kind, weight in LEAVES.items() if self.is_made(kind)}

    def is_made(self, kind):
        wanted = {"held": "delays", "later": "delays", "trigger": "events", "print": "lines", "idle": "lines", "command": "dumps"}
        return (kind not in wanted or wanted[kind] in self.asked) and (kind != "trigger" or self.names.events)

    # expressions

    def leaf(self):
        everything = self.names.everything()
        if everything and self.rng.random() < 0.6:
            place = self.rng.randrange(len(everything))
            one = everything[place]
            if (one.bounds or one.kind in ("integer", "time", "parameter")) and self.rng.random() < 0.4:
                return self.rng.choice([self.bit, self.part])(one.name, place)
            return Variable(one.name, place)
        return Constant((based if self.rng.random() < 0.6 else plain)(self.rng))

    def bit(self, name, place):
        low, high = sorted(self.names.bounds()[place])
        if self.rng.random() < 0.6:
            return Bit(name, place, integer_of(self.rng.choice([low, high, self.rng.randrange(low, high + 1), high + 1, 0])))
        return Bit(name, place, expression(self.rng, self.leaf, self.rng.choice([0, 1])))

    def part(self, name, place):
        left, right = self.names.bounds()[place]
        low, high = sorted((left, right))
        one, other = sorted(self.rng.randrange(max(0, low - 2), high + 3) for _ in range(2))
        other = min(other, one + 63)
        falls = left > right or (left == right and self.rng.random() < 0.5)
        return Part(name, place, *((other, one) if falls else (one, other)))

    def made(self, leaf):
        world = self.names.world()
        while True:
            made = expression(self.rng, leaf, min(DEPTH, self.rng.choice([0, 0, 1, 2, 3])))
            if made.fits(world):
                return made

    def value(self):
        return self.made(self.leaf).text()

    def target(self, room=64):
        """What is written, of so many bits at most."""
        one = self.rng.choice(self.written)
        if "targets" not in self.asked or self.rng.random() < 0.6:
            return one.name if one.length <= room else self.selected(one, room)
        if self.rng.random() < 0.4 and room == 64:
            return "{" + ", ".join(self.target(64 // 4) for _ in range(self.rng.choice([1, 2, 3, 4]))) + "}"
        return self.selected(one, room)

    def selected(self, one, room):
        place = self.names.objects.index(one)
        if one.bounds is None and one.kind not in ("integer", "time"):
            return one.name
        while True:
            made = self.rng.choice([self.bit, self.part])(one.name, place)
            if made.fits(self.names.world()) and made.size(self.names.world()) <= room:
                return made.text()

    def amount(self):
        if self.names.parameters and self.rng.random() < 0.1:
            return self.rng.choice(self.names.parameters).name
        if self.rng.random() < 0.7:
            return self.rng.choice(["0", "1", "2", "5", "30"] * 4 + ["64'hFFFFFFFFFFFFFFFF", "4'sb1111", "1'bx", "'bz"])
        return f"({self.value()})"

    # statements

    def statement(self, depth):
        kinds = self.leaves | NESTED if depth else self.leaves
        kind = self.rng.choices(list(kinds), list(kinds.values()))[0]
        attribute = '(* keep = "x", y *) ' if self.rng.random() < 0.03 else ""
        return attribute + getattr(self, "make_" + kind)(depth - 1 if depth else 0)

    def setting(self):
        return f"{self.target()} = {self.value()}"

    def make_assign(self, depth):
        return f"{self.setting()};"

    def make_post(self, depth):
        return f"{self.target()} <= {self.value()};"

    def make_held(self, depth):
        return f"{self.target()} = #{self.amount()} {self.value()};"

    def make_later(self, depth):
        return f"{self.target()} <= #{self.amount()} {self.value()};"

    def make_trigger(self, depth):
        return f"-> {self.rng.choice(self.names.events)};"

    def make_empty(self, depth):
        return ";"

    def make_dump(self, depth):
        if not self.names.paths or self.rng.random() < 0.3:
            return "$dumpvars;"
        paths = [self.rng.choice(self.names.paths) for _ in range(self.rng.choice([0, 1, 1, 2]))]
        return f"$dumpvars({', '.join([self.rng.choice(['0', '1', '1', '2', '3', '70000', chr(39) + 'h2', '4' + chr(39) + 'sb1111']), *paths])});"

    def make_command(self, depth):
        words = ["$dumpon", "$dumpoff", "$dumpoff", "$dumpall", "$dumpflush", '$dumpfile("a.vcd")', "$dumpvars(0)"]
        return f"{self.rng.choice(words)};"

    def make_print(self, depth):
        task = self.rng.choice(["$display", "$display", "$write", "$strobe", "$monitor"])
        word = task + self.rng.choice(["", "", "", "", "b", "o", "h"])
        if task != "$monitor" and self.rng.random() < 0.1:
            return f"{word};"
        if self.rng.random() < 0.05:
            return f"{word}();"
        return f"{word}({', '.join(self.argument() for _ in range(self.rng.choice([1, 1, 2, 3])))});"

    def make_idle(self, depth):
        """A task that has no effect; what it is given isn't looked at."""
        word = self.rng.choice(["$fdisplay", "$fwriteh", "$fstrobe", "$fmonitorb", "$fopen", "$fclose", "$fflush", "$timeformat", "$printtimescale"])
        one = lambda: self.rng.choice([self.value(), "nowhere", '"%q %m"', "", "-9"])
        return self.rng.choice([f"{word};", f"{word}({', '.join(one() for _ in range(self.rng.choice([1, 2, 3])))});"])

    def form(self):
        """A format of a value; a width now and then."""
        letter = self.rng.choice("bhdtbhdtocsxBHDTOCSX")
        return "%" + self.rng.choice(["", "", "0", str(self.rng.choice([1, 2, 5, 12, 30])), "0" + str(self.rng.choice([1, 3, 9, 21]))]) + letter

    def argument(self):
        """An argument of a printing task, or a format with the arguments that it takes."""
        shown = lambda: self.rng.choice(["$time", "($time)", self.value()])
        if self.rng.random() < 0.05:
            return ""
        if self.rng.random() < 0.3:
            return shown()
        pieces, taken = [], []
        for _ in range(self.rng.choice([0, 1, 2, 3])):
            pieces.append(self.rng.choice(["", "a=", " ", "%%", "\\n", "\\t", '\\"', "\\\\", ";", "\\101", "\\7", "\\1278"]))
            if self.rng.random() < 0.1:
                pieces.append(self.rng.choice(["%m", "%m", "%M", "%0m", "%24m", "%09m"]))
            elif self.rng.random() < 0.1:
                pieces.append(self.rng.choice(["%s", "%0s", "%8S", "%08s"]))
                taken.append(self.rng.choice(['"x"', "", '""', '"a%d\\n"', '"%m"', '"longer than eight"']))
            else:
                pieces.append(self.form())
                taken.append(shown())
        pieces.append(self.rng.choice(["", ".", "%%"]))
        return ", ".join([f'"{"".join(pieces)}"', *taken])

    def make_finish(self, depth):
        return self.rng.choice(["$finish;", "$finish(1);"])

    def make_stop(self, depth):
        return self.rng.choice(["$stop;", "$stop(0);"])

    def make_delay(self, depth):
        return f"#{self.amount()} {self.statement(depth)}"

    def make_block(self, depth):
        self.blocks += 1
        body = [self.statement(depth) for _ in range(self.rng.randrange(0, 5))]
        label = [f": block_{self.blocks}"] if self.rng.random() < 0.2 and not (body and body[0].startswith("(*")) else []
        return " ".join(["begin", *label, *body, "end"])

    def make_test(self, depth):
        front = f"if ({self.value()}) begin {self.statement(depth)} end"
        return front if self.rng.random() < 0.5 else f"{front} else {self.statement(depth)}"

    def make_again(self, depth):
        return f"while ({self.value()}) begin #1; {self.statement(depth)} end"

    def make_repeat(self, depth):
        count = self.rng.choice([self.value(), self.rng.choice(["0", "1", "2", "5", "1'bx", "4'sb1111"])])
        return f"repeat ({count}) {self.statement(depth)}"

    def make_case(self, depth):
        value, count = self.value(), self.rng.choice([1, 2, 2, 3])
        default, branches = self.rng.randrange(2 * count), []
        for turn in range(count):
            items = [value if self.rng.random() < 0.1 else self.value() for _ in range(self.rng.choice([1, 1, 2, 3]))]
            label = f"default{self.rng.choice(['', ':'])}" if turn == default else f"{', '.join(items)}:"
            branches.append(f"{label} {self.statement(depth)}")
        return f"{self.rng.choice(['case', 'casez', 'casex'])} ({value}) {' '.join(branches)} endcase"

    def with_delay(self, depth, how_often):
        text = self.statement(depth)
        return f"begin #1; {text} end" if self.rng.random() < how_often else text

    def make_forever(self, depth):
        return f"forever {self.with_delay(depth, 0.8)}"

    def make_until(self, depth):
        return f"wait ({self.value()}) {self.statement(depth)}"

    def make_any(self, depth):
        return f"@{self.rng.choice(['*', '(*)', '( * )'])} {self.statement(depth)}"

    def term(self):
        if self.names.events and self.rng.random() < 0.3:
            return self.rng.choice(self.names.events)
        return f"{self.rng.choice(['', 'posedge ', 'negedge '])}{self.rng.choice(self.names.objects).name}"

    def make_on(self, depth):
        terms, text = [self.term() for _ in range(self.rng.choice([1, 1, 2, 3]))], self.statement(depth)
        if len(terms) == 1 and " " not in terms[0] and self.rng.random() < 0.5:
            return f"@{terms[0]} {text}"
        return f"@({self.rng.choice([' or ', ', ']).join(terms)}) {text}"

    def make_for(self, depth):
        return f"for ({self.setting()}; {self.value()}; {self.setting()}) {self.with_delay(depth, 0.7)}"


def ranged(signed, bounds):
    return f"{' signed' if signed else ''}{'' if bounds is None else f' [{bounds[0]}:{bounds[1]}]'}"


def declaration(one):
    return f"{one.kind}{ranged(one.signed and one.kind != 'integer', one.bounds)} {one.name}"


def some_object(rng, name, can_be_net):
    """An object, declared in one way or another."""
    if rng.random() < 0.2:
        return Object(name, "integer", 32, True, None) if rng.random() < 0.7 else Object(name, "time", 64, False, None)
    kind = "wire" if can_be_net and rng.random() < 0.3 else "reg"
    length, low, signed = rng.choice([1, 1, 2, 8, 64]), rng.randrange(0, 9), rng.random() < 0.3
    bounds = (low + length - 1, low) if rng.random() < 0.5 else (low, low + length - 1)
    return Object(name, kind, length, signed, None if length == 1 and rng.random() < 0.7 else bounds)


class Body:
    """The items of a module, a line each; the line of each process."""

    def __init__(self, rng, lines, names, asked):
        self.rng, self.lines, self.names, self.asked = rng, lines, names, asked
        self.texts, self.process_lines = Texts(rng, names, asked), []

    def item(self, text, is_process=False):
        self.lines.append(f"  {text}")
        if is_process:
            self.process_lines.append(len(self.lines))

    def pieces(self, one):
        """A net as what drives it names it: whole, or bits and parts of it, not always all; each with its size."""
        if one.bounds is None or self.rng.random() < 0.6:
            return [(one.name, one.length)]
        (left, right), found = one.bounds, []
        step = 1 if right >= left else -1
        first = left
        while (right - first) * step >= 0:
            last = first + step * min(self.rng.choice([0, 0, 1, 3, 40]), abs(right - first))
            if self.rng.random() < 0.8:
                bit = f"[{first}]" if self.rng.random() < 0.7 else f"[{first} + 0]"
                found.append((f"{one.name}{bit if first == last else f'[{first}:{last}]'}", abs(last - first) + 1))
            first = last + step
        return found

    def drive(self, nets):
        """An `assign` for each piece of these nets, or for some of them together (6.1)."""
        pieces = [piece for one in nets for piece in self.pieces(one)]
        if self.rng.random() < 0.3:
            self.rng.shuffle(pieces)
        while pieces:
            row = [pieces.pop(0)]
            while pieces and self.rng.random() < 0.3 and sum(size for _, size in row) + pieces[0][1] <= 64:
                row.append(pieces.pop(0))
            names = ", ".join(name for name, _ in row)
            target = names if len(row) == 1 and self.rng.random() < 0.9 else f"{{{names}}}"
            self.item(f"assign {target} = {self.texts.value()};", True)

    def declare(self, objects):
        """Declarations; nets are driven here, by an `assign` behind, or not at all."""
        later = []
        for one in objects:
            is_net = one.kind == "wire"
            is_driven = is_net and self.rng.random() < 0.7
            has_value = is_driven and self.rng.random() < 0.4 or not is_net and self.rng.random() < 0.1
            self.item(f"{declaration(one)}{f' = {self.texts.value()}' if has_value else ''};", has_value)
            later += [one] if is_driven and not has_value else []
        self.drive(later)

    def processes(self, count, dumps):
        for n in range(count):
            if n and self.rng.random() < 0.2:
                self.item(f"always {self.rng.choice([self.texts.make_on, self.texts.make_any])(3)}", True)
            elif n and self.rng.random() < 0.3:
                self.item(f"always begin #1; {self.texts.statement(3)} end", True)
            else:
                text = self.texts.statement(3)
                self.item(f"initial {f'begin {self.texts.make_dump(0)} {text} end' if n == 0 and dumps else text}", True)


# strings, which stay as they are, and the names that stand for something
NAMED = re.compile(r'"(?:[^"\\]|\\.)*"|\b(?:v\d+|q\d+|p\d+|e\d+|n\d+_\d+|u\d+|m\d+|block_\d+)\b')


def escaped(rng, text):
    """The text, now and then with some of its names escaped (3.7.1): each time by the same letters, or at times."""
    if rng.random() < 0.85:
        return text
    names = sorted(set(name for name in NAMED.findall(text) if name[0] != '"'))
    odd = {name: name + rng.choice(["", "+", "[1]", "!", "-x"]) for name in names if rng.random() < 0.3}

    def one(found):
        name = odd.get(found[0])
        if name is None or (name == found[0] and rng.random() < 0.5):
            return found[0]
        return f"\\{name} "
    return NAMED.sub(one, text)


def module(rng, asked=frozenset()):
    """A text of one module tb, and the line of each of its processes."""
    lines = [rng.choice(TIMESCALES)] if rng.random() < 0.3 else []
    lines.append("module tb;")
    objects = [some_object(rng, f"v{n}", n > 0) for n in range(rng.choice([1, 2, 2, 3, 3, 100]))]
    if all(one.kind == "wire" for one in objects):
        objects[0].kind = "reg"
    names = Names(objects)
    if "events" in asked and rng.random() < 0.5:
        names.events = ["e0", "e1"]
        lines.append("  event e0, e1;")
    body = Body(rng, lines, names, asked)
    if "parameters" in asked and rng.random() < 0.5:
        parameters(rng, body)
    body.declare(objects)
    body.processes(rng.randrange(1, 5), rng.random() < 0.9)
    return escaped(rng, "\n".join([*lines, "endmodule", ""])), body.process_lines


def parameters(rng, body):
    """Parameters of a module, each of those before it and of numbers."""
    for n in range(rng.choice([1, 2, 3])):
        length, signed = rng.choice([4, 8, 32]), rng.random() < 0.5
        word, value = rng.choice(["parameter", "localparam"]), constant(rng, body.names.parameters)
        if rng.random() < 0.2:
            kind, length = rng.choice([("integer", 32), ("time", 64)])
            body.item(f"{word} {kind} p{n} = {value};")
            body.names.parameters.append(Object(f"p{n}", "parameter", length, kind == "integer", (length - 1, 0)))
            continue
        body.item(f"{word}{ranged(signed, (length - 1, 0))} p{n} = {value};")
        body.names.parameters.append(Object(f"p{n}", "parameter", length, signed, (length - 1, 0)))


# ---- designs of several modules

@dataclass
class Child:
    """A module with its name, its text, its ports, the parameters that can be given, and the paths of instances in it."""
    name: str
    text: str
    ports: list
    heads: list
    paths: list


def port(rng, name):
    """The direction of a port, and its object: an output may be a variable."""
    word, one = rng.choice(["input", "output", "output"]), some_object(rng, name, True)
    if word == "output" and one.kind in ("integer", "time"):
        return word, one
    one.kind = "wire" if word == "input" else rng.choice(["wire", "reg"])
    if one.bounds is None or one.length == 64:
        one.length, one.bounds = (1, None) if one.bounds is None else (3, (0, 2))
    one.signed = one.signed and one.bounds is not None
    return word, one


def shown_port(rng, word, one):
    """A port with its direction; an output that is a variable may have a value (A.2.1.2)."""
    value = f" = {constant(rng, [])}" if one.kind != "wire" and rng.random() < 0.3 else ""
    if one.kind in ("integer", "time"):
        return f"{word} {one.kind} {one.name}{value}"
    return f"{word}{' reg' if one.kind == 'reg' else ''}{ranged(one.signed, one.bounds)} {one.name}{value}"


def shown_ports(rng, ports):
    """The list of a module's ports, and the items that declare them, where the list has names alone (12.3.2)."""
    if not ports or rng.random() < 0.6:
        return ", ".join(shown_port(rng, *one) for one in ports), []
    lines = []
    for word, one in ports:
        if one.kind in ("integer", "time"):
            lines.append(f"{shown_port(rng, word, one)};")
            continue
        is_again = rng.random() < 0.5
        first, second = rng.choice([(True, True), (True, False), (False, True)]) if is_again and one.signed else (one.signed, one.signed)
        if is_again and (word == "output" or one.kind == "wire"):
            lines.append(f"{word}{ranged(first, one.bounds)} {one.name};")
            lines.append(f"{one.kind}{ranged(second, one.bounds)} {one.name};")
        else:
            lines.append(f"{shown_port(rng, word, one)};")
    rng.shuffle(lines)
    return ", ".join(one.name for _, one in ports), lines


def child(rng, name, below, asked):
    """A module with ports and parameters, and instances of the modules below it."""
    ports = [port(rng, f"q{n}") for n in range(rng.randrange(0, 4))]
    heads = [Object(f"p{n}", "parameter", 8, False, (7, 0)) for n in range(rng.randrange(0, 3))]
    in_head = rng.random() < 0.5
    shown, declared = shown_ports(rng, ports)
    head = f" #({', '.join(f'parameter [7:0] {one.name} = {n + 3}' for n, one in enumerate(heads))})" if heads and in_head else ""
    lines = [f"module {name}{head}{f'({shown})' if ports or rng.random() < 0.5 else ''};"]
    names = Names([one for _, one in ports] + [some_object(rng, f"v{n}", False) for n in range(rng.choice([1, 1, 2]))], [], heads)
    body = Body(rng, lines, names, asked)
    for n, one in enumerate([] if in_head else heads):
        body.item(f"parameter [7:0] {one.name} = {n + 3};")
    for line in declared:
        body.item(line)
    body.declare(names.objects[len(ports):])
    for word, one in ports:
        if word == "output" and one.kind == "wire" and rng.random() < 0.8:
            body.drive([one])
    body.processes(rng.randrange(0, 3), False)
    paths = instances(rng, body, below)
    return Child(name, "\n".join([*lines, "endmodule", ""]), ports, heads, paths)


def constant(rng, parameters):
    """An expression of numbers and of these parameters."""
    value = "$time"
    while "$time" in value:
        value = Texts(rng, Names([], [], list(parameters))).value()
    return value


def given(rng, one, outside):
    """What an instantiation says of the parameters of a module: by order or by name, or nothing."""
    chosen = [head for head in one.heads if rng.random() < 0.5]
    if not chosen:
        return ""
    if rng.random() < 0.4:
        return f" #({', '.join(constant(rng, outside) for _ in chosen)})"
    rng.shuffle(chosen)
    return f" #({', '.join(f'.{head.name}({constant(rng, outside) if rng.random() < 0.9 else str()})' for head in chosen)})"


def outlet(rng, body, inner, name):
    """A net that is declared here for an output, or bits of it, or several nets (12.3.9)."""
    chance = rng.random()
    if chance < 0.7 or inner.length > 62:
        body.item(f"wire{ranged(inner.signed, inner.bounds)} {name};")
        return name
    if chance < 0.85:
        low = rng.randrange(0, 3)
        body.item(f"wire [{low + inner.length + 1}:{low}] {name};")
        return f"{name}[{low + inner.length}:{low + 1}]" if inner.length > 1 or rng.random() < 0.5 else f"{name}[{low}]"
    body.item(f"wire [1:0] {name}; wire {name}0;")
    return rng.choice([f"{{{name}, {name}0}}", f"{{{name}0, {name}[1]}}", f"{{{name}0, {{{name}}}}}"])


def instances(rng, body, below):
    """Instances of some of the modules below, and nets for what comes out of them; the paths of those, and of what stands in them."""
    paths = []
    for n in range(rng.choice([0, 1, 1, 2]) if below else 0):
        one, pairs = rng.choice(below), []
        for m, (word, inner) in enumerate(one.ports):
            pairs.append((inner.name, outlet(rng, body, inner, f"n{n}_{m}") if word == "output" else body.texts.value()))
        if rng.random() < 0.6:
            rng.shuffle(pairs)
            wiring = ", ".join(f".{inner}({value if rng.random() < 0.9 else ''})" for inner, value in pairs if rng.random() < 0.85)
        else:
            wiring = ", ".join(value for _, value in pairs[: rng.choice([len(pairs), len(pairs), rng.randrange(len(pairs) + 1)])])
        body.item(f"{one.name}{given(rng, one, body.names.parameters)} u{n}({wiring});")
        paths += [f"u{n}", *(f"u{n}.{path}" for path in one.paths)]
    return paths


def design(rng, asked):
    """A text of a module tb and of modules below it, in any order."""
    below = []
    for n in range(rng.choice([1, 2, 3])):
        below.append(child(rng, f"m{n}", list(below), asked))
    lines, inside = ["module tb;"], []
    objects = [some_object(rng, f"v{n}", n > 0) for n in range(rng.choice([1, 2, 3]))]
    if all(one.kind == "wire" for one in objects):
        objects[0].kind = "reg"
    names = Names(objects)
    body = Body(rng, lines, names, asked)
    if "parameters" in asked and rng.random() < 0.5:
        parameters(rng, body)
    names.paths = ["tb", *(f"tb.{path}" for path in instances(rng, Body(rng, inside, names, asked), below))]
    lines += inside if rng.random() < 0.5 else []
    body.declare(objects)
    body.processes(rng.randrange(1, 4), True)
    lines += [] if inside and inside[-1] in lines else inside
    texts = [*(one.text for one in below), "\n".join([*lines, "endmodule", ""])]
    rng.shuffle(texts)
    return escaped(rng, f"{rng.choice(TIMESCALES)}\n" * (rng.random() < 0.3) + "".join(texts))

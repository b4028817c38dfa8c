"""A second reading of docs/LANGUAGE.md, from the tree of a text (second_syntax.py) to its design: objects, scopes and what its processes have to
do, or the numbers of the rules that it breaks. Letters stand lowest first.

An action is a tuple, its kind first; a list of them is what a process has left. A target is ("whole", place), ("bit", place, index) or ("part",
place, left, right), a term (edge, place) or ("event", number), a piece of a printed text a str or (form, is watched, value), where a form is
(notation, width): its letter, lower case, and the digits before it.
"""
import re
from dataclasses import dataclass, field

from second_syntax import IDLE, PRINTING, Expander, Fault, Reader, cut
from second_values import Binary, Bit, Conditional, Constant, Conversion, FixedBit, FixedPart, Joined, Number, Part, Repeated, Time, Unary, Variable
from second_values import World, digits, extended, integer, is_known

MOST_LEVELS, MOST_OBJECTS, MOST_PROCESSES, MOST_INSTANCES, MOST_LETTERS, MOST_SIZE = 16, 1024, 256, 1024, 1_048_576, 4_194_304
TASKS = {"display": "line", "write": "line", "strobe": "strobe", "monitor": "monitor"}
# letters, a form with its width and its letter, or what is none
PIECES = re.compile(r"%(?:(%)|(0?(?:[1-9][0-9]{0,2})?)([bohxdtcsmBOHXDTCSM])|)|([^%]+)")
# what a letter behind a backslash stands for, and one to three octal digits
ESCAPE = re.compile(r"\\(?:([0-7]{1,3})|(.))")
ESCAPES = {"n": "\n", "t": "\t", "\\": "\\", '"': '"'}


def letters_of(string):
    """Of a tree of a string."""
    return ESCAPE.sub(lambda found: chr(int(found[1], 8)) if found[1] else ESCAPES[found[2]], string[1][1:-1])


class Refused(Exception):
    """A text that has no design: the numbers of the rules that it breaks."""

    def __init__(self, numbers):
        super().__init__(sorted(numbers))
        self.numbers = numbers


# ---- numbers (3.5.1)

def number_of(word):
    """The number that is spelled so."""
    found = re.fullmatch(r"([0-9_]*)\s*'([sS]?)([bodhBODH])\s*(.*)", word)
    if not found:
        return Number(word, digits(int(word.replace("_", "")), 32), True)
    size, sign, base, shown = found[1].replace("_", ""), found[2], found[3].lower(), found[4].replace("_", "").lower().replace("?", "z")
    length = int(size) if size else 32
    fill = shown[0] if shown[0] in "xz" else "0"
    if base == "d":
        letters = fill * 64 if fill != "0" else digits(int(shown), 64)
    else:
        wide = {"b": 1, "o": 3, "h": 4}[base]
        letters = "".join(digit * wide if digit in "xz" else digits(int(digit, 16), wide) for digit in reversed(shown))
    return Number(word, (letters + fill * 64)[:length], bool(sign), not size and not sign)


# how many bits a variable has that is declared without a range, where it isn't one (4.8)
LENGTHS = {"integer": 32, "time": 64}

# ---- the size of a module (Limits)

# trees that count nothing by themselves
PLAIN = {"module", "parameters", "head", "ports", "input", "output", "type", "range", "integer", "time", "parameter", "localparam", "declare", "wire", "reg",
         "assigns", "initial", "always", "by-order", "by-name", "delay-value", "default"}


def size_of(tree, path):
    """Of a tree, in a scope whose path has so many letters: a string counts it where `%` or a backslash may stand for it."""
    kind, *parts = tree
    if kind == "left-out" or "$" + kind in IDLE:
        return 2 if kind == "left-out" else 0
    if kind == "block" and parts[0] != "-":
        path += 1 + len(parts[0])
    inner = sum(size_of(part, path) for part in parts if isinstance(part, tuple))
    if kind == "labelled":
        return inner - 1 + (len(parts[0]) - 2) * size_of(parts[1], path)
    if kind == "terms" or kind == "events":
        return len(parts)
    if kind == "set" and isinstance(parts[0], tuple):
        return inner
    if kind == "string":
        return 1 + len(parts[0]) + path * sum(parts[0].count(letter) for letter in "%\\")
    if kind == "path":
        return sum(1 + len(name) for name in parts)
    if "$" + kind in PRINTING or kind in ("dumpvars", "dumpfile", "dumpon", "dumpoff", "dumpall", "dumpflush", "finish", "stop"):
        return inner
    if kind == "instances":
        overrides = size_of(parts[1], path) if isinstance(parts[1], tuple) else 0
        return inner + (len(parts) - 3) * overrides
    return inner if kind in PLAIN else inner + 1


# ---- what a design has

@dataclass
class Object:
    name: str
    kind: str
    length: int
    signed: bool
    bounds: object


@dataclass
class Scope:
    name: str
    path: str
    depth: int
    first: int
    count: int


@dataclass
class Design:
    objects: list = field(default_factory=list)
    scopes: list = field(default_factory=list)
    processes: list = field(default_factory=list)
    factor: int = 1
    precision: str = "1 ns"
    top: str = "tb"

    @property
    def lengths(self):
        return [one.length for one in self.objects]

    @property
    def signs(self):
        return [one.signed for one in self.objects]

    def names(self):
        """The names of the objects, with those of their scopes."""
        return [one.name for one in self.objects]

    def bounds(self):
        """The numbers of the bits of each, leftmost and rightmost."""
        return [one.bounds or (one.length - 1, 0) for one in self.objects]

    def driven(self):
        """The bits that are driven, each by its object and its place from the right, as often as they are (6.1, 12.3.9.2)."""
        return [bit for actions in self.processes for kind, *what in actions if kind == "drive" for target in what[0] for bit in self.bits_of(target)]

    def bits_of(self, target):
        """The bits that a target with constant bounds stands for, those out of its object left out."""
        kind, place, *numbers = target
        one = self.objects[place]
        left, right = one.bounds or (one.length - 1, 0)
        if kind == "whole":
            return [(place, bit) for bit in range(one.length)]
        if kind == "bit":
            letters, signed = numbers[0].own(World([], [], 0, [])), numbers[0].signed(World([], [], 0, []))
            numbers = [integer(letters, signed)] * 2 if is_known(letters) else [-1, -1]
        low, high = sorted(numbers)
        return [(place, abs(number - right)) for number in range(low, high + 1) if min(left, right) <= number <= max(left, right)]

    def start(self):
        """The values before anything is written: of a net z where nothing drives it."""
        driven = set(self.driven())
        at_first = lambda one, bit: "z" if one.kind == "wire" and bit not in driven else "x"
        return ["".join(at_first(one, (n, bit)) for bit in range(one.length)) for n, one in enumerate(self.objects)]


# what an action reads for `@*`: the places of its expressions, and of its bodies
READS = {"assign": [1], "post": [1], "held": [1, 2], "later": [1, 2], "delay": [0], "test": [0], "again": [0], "repeat": [0], "case": [1]}
INSIDE = {"delay": 1, "test": 1, "again": 1, "forever": 0, "on": 1, "until": 1, "repeat": 1, "case": 3}
WRITES = ("assign", "post", "held", "later")


def reads_of(action):
    """The objects that an action reads, those of what stands inside it too (9.7.5)."""
    kind, *what = action
    found = set().union(*(what[place].reads() for place in READS.get(kind, [])))
    if kind in WRITES:
        found |= set().union(*(target[2].reads() for target in what[0] if target[0] == "bit"))
    if kind == "case":
        found |= set().union(*(item.reads() for item in what[2]))
    if kind in TASKS.values():
        found |= set().union(*(piece[2].reads() for piece in what[0] if not isinstance(piece, str)))
    for body in what[INSIDE.get(kind, len(what)):]:
        found |= set().union(*map(reads_of, body))
    return found


# ---- units: the top and the instances (12.1)

@dataclass
class Parameter:
    value: Number
    bounds: object
    order: int


@dataclass
class Named:
    """An object, an event or an instance, by its number."""
    kind: str
    number: int


class Unit:
    """A module's instance, or the top: its names and what they mean."""

    def __init__(self, whole, tree, name, path, depth):
        self.whole, self.tree, self.name, self.path, self.depth = whole, tree, name, path, depth
        self.scope, self.parameters, self.ports, self.heads, self.blocks = {}, 0, [], 0, []

    def refuse(self, number):
        self.whole.broken.add(number)

    def add(self, name, meaning):
        if name in self.scope:
            self.refuse(302)
        else:
            self.scope[name] = meaning

    # constants

    def constant(self, tree, before):
        """What an expression of parameters that stand before is worth: None where it is no constant."""
        count = len(self.whole.broken)
        found = self.constant_names(tree)
        for name in found:
            meaning = self.scope.get(name)
            if name == "$time" or (isinstance(meaning, Named) and meaning.kind == "object"):
                self.refuse(307)
            elif meaning is None or (isinstance(meaning, Parameter) and meaning.order >= before):
                self.refuse(303)
            elif not isinstance(meaning, Parameter):
                self.refuse(310)
        if any(name == "$time" or not isinstance(self.scope.get(name), Parameter) or self.scope[name].order >= before for name in found):
            return None
        node = self.expression(tree, before)
        return node if len(self.whole.broken) == count or node else None

    def constant_names(self, tree):
        kind, *parts = tree
        if kind == "number":
            return []
        if kind == "time":
            return ["$time"]
        named = parts[:1] if kind in ("name", "bit", "part") else []
        return named + [name for part in parts if isinstance(part, tuple) for name in self.constant_names(part)]

    def own(self, node):
        """A constant's letters and its sign."""
        world = World([], [], 0, [])
        return node.own(world), node.signed(world)

    def counted(self, tree, before, least, most):
        """The number that a bound or a count is, from `least` to `most`; None where it is none."""
        node = self.constant(tree, before)
        if node is None:
            return None
        letters, signed = self.own(node)
        value = integer(letters, signed) if is_known(letters) else -1
        if not least <= value <= most:
            self.refuse(306)
            return None
        return value

    def range(self, tree, before):
        """The bounds of a declaration; None where it has none."""
        if tree == "-":
            return None
        left, right = (self.counted(bound, before, 0, 65535) for bound in tree[1:])
        if left is None or right is None:
            return 0, 0
        if abs(left - right) >= 64:
            self.refuse(306)
            return 0, 0
        return left, right

    # expressions

    def meaning(self, name):
        """What a name in an expression means."""
        meaning = self.scope.get(name)
        if meaning is None:
            self.refuse(303)
        elif isinstance(meaning, Named) and meaning.kind != "object":
            self.refuse(310)
            return None
        return meaning

    def expression(self, tree, before):
        kind, *parts = tree
        if kind == "number":
            return Constant(number_of(parts[0]))
        if kind == "time":
            return Time()
        if kind == "name":
            meaning = self.meaning(parts[0])
            return Variable(parts[0], meaning.number) if isinstance(meaning, Named) else Constant(meaning.value if meaning else number_of("1'bx"))
        if kind in ("bit", "part"):
            return self.selected(kind, *parts, before)
        if kind == "parentheses":
            return self.expression(parts[0], before)
        if kind in ("signed", "unsigned"):
            return Conversion(kind == "signed", self.expression(parts[0], before))
        if kind == "unary":
            return Unary(parts[0], self.expression(parts[1], before))
        if kind == "binary":
            return Binary(parts[0], self.expression(parts[1], before), self.expression(parts[2], before))
        if kind == "conditional":
            return Conditional(*(self.expression(part, before) for part in parts))
        if kind == "concatenation":
            return Joined([self.expression(part, before) for part in parts])
        count = self.counted(parts[0], before, 1, 64)
        return Repeated(1 if count is None else count, Joined([self.expression(part, before) for part in parts[1:]]))

    def has_bits(self, meaning):
        if isinstance(meaning, Parameter):
            return True
        one = self.whole.design.objects[meaning.number]
        return one.bounds is not None or one.kind in LENGTHS

    def part(self, meaning, left, right, before):
        """The bounds of a part of what this name means."""
        left, right = (self.counted(bound, before, 0, 65535) for bound in (left, right))
        if left is None or right is None:
            return 0, 0
        first, last = meaning.bounds if isinstance(meaning, Parameter) else self.whole.design.bounds()[meaning.number]
        if abs(left - right) >= 64 or (left - right) * (first - last) < 0:
            self.refuse(306)
            return 0, 0
        return left, right

    def selected(self, kind, name, *what):
        *what, before = what
        meaning = self.meaning(name)
        if meaning is None:
            for tree in what[: kind == "bit"]:
                self.expression(tree, before)
            return Constant(number_of("1'bx"))
        if not self.has_bits(meaning):
            self.refuse(310)
        if kind == "bit":
            index = self.expression(what[0], before)
            return FixedBit(meaning.value.letters, meaning.bounds, index) if isinstance(meaning, Parameter) else Bit(name, meaning.number, index)
        left, right = self.part(meaning, *what, before)
        if isinstance(meaning, Parameter):
            return FixedPart(meaning.value.letters, meaning.bounds, left, right)
        return Part(name, meaning.number, left, right)

    def checked(self, tree, before):
        """The expression, which has no more than 64 bits anywhere."""
        made = self.expression(tree, before)
        if not made.fits(self.whole.world()):
            self.refuse(306)
        return made

    # declarations

    def declare(self, name, kind, signed, bounds):
        """An object more; its number."""
        objects = self.whole.design.objects
        self.add(name, Named("object", len(objects)))
        length = abs(bounds[0] - bounds[1]) + 1 if bounds else LENGTHS.get(kind, 1)
        objects.append(Object(f"{self.path}.{name}", kind, length, signed or kind == "integer", bounds))
        return len(objects) - 1

    def set_parameter(self, kind, name, value):
        """A parameter more, of this tree or of an expression that was given from outside."""
        signed, bounds, length = False, None, None
        if kind[0] in LENGTHS:
            signed, length = kind[0] == "integer", LENGTHS[kind[0]]
        else:
            signed, bounds = kind[1] == "signed", self.range(kind[2], self.parameters)
            length = abs(bounds[0] - bounds[1]) + 1 if bounds else None
        node = self.constant(value, self.parameters) if isinstance(value, tuple) else value
        letters, own_sign = self.own(node) if node else ("x", False)
        if node and length:
            world = World([], [], 0, [])
            letters = node.at(world, max(length, node.size(world)), own_sign)[:length]
        if length or signed:
            own_sign = signed
        self.add(name, Parameter(Number("", letters, own_sign), bounds or (len(letters) - 1, 0), self.parameters))
        self.parameters += 1

    def settings(self):
        """The parameters that can be given, in order: their types, names and values, and whether they stand in the head."""
        _, _, heads, _, *items = self.tree
        kind = None
        if heads != "-":
            for _, own, setting in heads[1:]:
                kind = own if own != "-" else kind
                yield kind, setting[1], setting[2]
            return
        for item in items:
            if item[0] == "parameter":
                for setting in item[2:]:
                    yield item[1], setting[1], setting[2]

    def overrides(self, tree, outside, before):
        """The expressions that an instantiation gives to parameters, by name: their names are those of the unit outside (12.2.2)."""
        if tree == "-":
            return {}
        names, found = [name for _, name, _ in self.settings()], {}
        if tree[0] == "by-order":
            if len(tree) - 1 > len(names):
                self.refuse(305)
            pairs = list(zip(names, tree[1:]))
        else:
            pairs = [(name, value) for _, name, value in tree[1:]]
            if len({name for name, _ in pairs}) < len(pairs) or {name for name, _ in pairs} - set(names):
                self.refuse(305)
        for name, value in pairs:
            if value != "-" and (node := outside.constant(value, before)):
                found[name] = node
        return found

    def declare_all(self, given):
        """The names of the unit, its objects, and for each item how many parameters stand before it."""
        _, _, heads, ports, *items = self.tree
        if heads != "-":
            for kind, name, value in self.settings():
                self.set_parameter(kind, name, given.get(name, value))
        again = self.listed(ports, items)
        self.heads = self.parameters
        before = []
        for item in items:
            kind, *what = item
            if kind in ("parameter", "localparam"):
                for _, name, value in what[1:]:
                    can_be_given = kind == "parameter" and heads == "-"
                    self.set_parameter(what[0], name, given.get(name, value) if can_be_given else value)
            elif kind == "declare":
                word, *type = what[0]
                signed, bounds = self.typed(type[-1] if type else what[0], self.parameters)
                for _, name, _ in what[1:]:
                    if word in ("input", "output"):
                        again[name].append(bounds)
                    elif word not in LENGTHS and name in again:
                        again[name].append(bounds)
                    else:
                        self.declare(name, word, signed, bounds)
            elif kind == "events":
                for name in what:
                    self.add(name, Named("event", self.whole.events))
                    self.whole.events += 1
            elif kind == "instances":
                for _, name, _ in what[2:]:
                    self.add(name, Named("instance", 0))
            before.append(self.parameters)
        for name, ranges in again.items():
            self.sized(name, ranges)
        return before

    def listed(self, ports, items):
        """The ports: those of a list with directions, or those of names alone, which items declare; of these the ranges that items give."""
        rows, direction = ports[1:] if ports != "-" else (), None
        if rows and rows[0][1] == "-":
            directed, seconds = dict(directed_names(items)), dict(reversed(second_names(items)))
            for _, _, name, _ in rows:
                word, net, type = directed[name]
                other = seconds.get(name)
                kind = other[0] if other else port_kind(net, type)
                is_signed = "signed" in (type[1:2] + (other[1][1:2] if other else ()))
                self.ports.append((word, name, self.declare(name, kind, is_signed, None)))
            return {name: [] for _, _, name, _ in rows}
        for _, own, name, _ in rows:
            direction = own if own != "-" else direction
            word, net, type = direction
            self.ports.append((word, name, self.declare(name, port_kind(net, type), *self.typed(type, self.parameters))))
        return {}

    def typed(self, type, before):
        """The sign and the bounds that a type says."""
        return (type[1] == "signed", self.range(type[2], before)) if type[0] == "type" else (type[0] == "integer", None)

    def sized(self, name, ranges):
        """12.3.3: a port has the range that an item gives it, and where it is declared again, the same there."""
        if len(set(ranges)) > 1:
            self.refuse(306)
        meaning = self.scope[name]
        if ranges[0] and isinstance(meaning, Named) and meaning.kind == "object":
            one = self.whole.design.objects[meaning.number]
            one.bounds, one.length = ranges[0], abs(ranges[0][0] - ranges[0][1]) + 1

    # statements

    def object(self, name):
        """The number of what is written by this name."""
        meaning = self.scope.get(name)
        if meaning is None:
            self.refuse(303)
        elif not isinstance(meaning, Named) or meaning.kind != "object":
            self.refuse(310)
        else:
            return meaning.number
        return None

    def targets(self, tree, before):
        """What a left side writes, leftmost first."""
        kind, *what = tree
        if kind == "joined":
            return [one for part in what for one in self.targets(part, before)]
        place = self.object(what[0])
        if place is None:
            return []
        if self.whole.design.objects[place].kind == "wire":
            self.refuse(310)
        if kind == "whole":
            return [("whole", place)]
        meaning = self.scope[what[0]]
        if not self.has_bits(meaning):
            self.refuse(310)
        if kind == "bit":
            return [("bit", place, self.checked(what[1], before))]
        return [("part", place, *self.part(meaning, *what[1:], before))]

    def left_side(self, tree, before):
        targets = self.targets(tree, before)
        if sum(target_size(self.whole.design, target) for target in targets) > 64:
            self.refuse(306)
        return targets

    def amount(self, tree, before):
        kind, what = tree
        inner = {"delay-number": ("number", what), "delay-name": ("name", what), "delay-value": what}[kind]
        return self.checked(inner, before)

    def body(self, tree, before):
        return self.statement(tree, before)

    def terms(self, tree, body):
        kind, *what = tree
        if kind in ("any", "any-enclosed"):
            return [("", place) for place in sorted(set().union(*map(reads_of, body)))]
        if kind == "named":
            return [self.term("change", what[0])]
        return [self.term(*(term[1] if term[0] in ("comma", "or") else term)) for term in what]

    def term(self, edge, name):
        meaning = self.scope.get(name)
        if meaning is None:
            self.refuse(303)
        elif isinstance(meaning, Named) and meaning.kind == "event" and edge == "change":
            return "event", meaning.number
        elif not isinstance(meaning, Named) or meaning.kind != "object":
            self.refuse(310)
        else:
            return "" if edge == "change" else edge, meaning.number
        return "", 0

    def statement(self, tree, before):
        """What a statement has to do."""
        kind, *what = tree
        value = lambda place: self.checked(what[place], before)
        if kind == "empty":
            return []
        if kind == "block":
            return self.block(what[0], what[1:], before)
        if kind in ("assign", "nonblocking"):
            targets, amount = self.left_side(what[0], before), None if what[1] == "-" else self.amount(what[1], before)
            if amount is None:
                return [("assign" if kind == "assign" else "post", targets, value(2))]
            return [("held" if kind == "assign" else "later", targets, value(2), amount)]
        if kind == "trigger":
            return [("trigger", self.event(what[0]))]
        if kind in ("if", "if-else"):
            return [("test", value(0), self.body(what[1], before), self.body(what[2], before) if kind == "if-else" else [])]
        if kind in ("case", "casez", "casex"):
            return self.case(kind, what[0], what[1:], before)
        if kind in ("while", "repeat", "wait"):
            return [({"while": "again", "repeat": "repeat", "wait": "until"}[kind], value(0), self.body(what[1], before))]
        if kind == "forever":
            return [("forever", self.body(what[0], before))]
        if kind == "for":
            turns = [("assign", self.left_side(what[3], before), value(4))]
            return [("assign", self.left_side(what[0], before), value(1)), ("again", value(2), self.body(what[5], before) + turns)]
        if kind == "delayed":
            return [("delay", self.amount(what[0], before), self.body(what[1], before))]
        if kind == "on-event":
            body = self.body(what[1], before)
            return [("on", self.terms(what[0], body), body)]
        return [self.task(*what[0], before)]

    def block(self, name, statements, before):
        """9.8.3: one with a name is a scope."""
        self.blocks += [name] * (name != "-")
        actions = [action for one in statements for action in self.statement(one, before)]
        del self.blocks[len(self.blocks) - (name != "-") :]
        return actions

    def event(self, name):
        meaning = self.scope.get(name)
        if meaning is None:
            self.refuse(303)
        elif not isinstance(meaning, Named) or meaning.kind != "event":
            self.refuse(310)
        else:
            return meaning.number
        return 0

    def case(self, kind, value, branches, before):
        items, bodies, otherwise = [], [], []
        for word, what, body in branches:
            body = self.body(body, before)
            if word == "default":
                otherwise = body
                continue
            items += [self.checked(item, before) for item in what[1:]]
            bodies += [body] * (len(what) - 1)
        return [("case", kind, self.checked(value, before), items, *bodies, otherwise)]

    def task(self, word, *what):
        *what, before = what
        if "$" + word in PRINTING:
            task, base = next((task, word[len(task) :] or "d") for task in TASKS if word.startswith(task))
            return TASKS[task], self.pieces(base, what, before) + ([] if task == "write" else ["\n"])
        if word == "dumpvars":
            return "dumpvars", self.selection(what)
        if word in ("dumpfile", "dumpflush") or "$" + word in IDLE:
            return ("nothing",)
        return (word,)

    def pieces(self, base, arguments, before):
        """What a printed text is made of (17.1.1)."""
        arguments = [("string", '" "') if tree == ("left-out",) else tree for tree in arguments if arguments != [("left-out",)]]
        pieces = []
        value = lambda form, tree: pieces.append((form, tree[0] != "time", self.checked(tree, before)))
        while arguments:
            tree = arguments.pop(0)
            if tree[0] != "string":
                value((base, ""), tree)
                continue
            for percent, width, letter, letters in PIECES.findall(letters_of(tree)):
                if percent or letters:
                    pieces.append(percent or letters)
                elif letter in ("m", "M"):
                    pieces.append(".".join([self.path, *self.blocks]).rjust(int(width or 0)))
                elif not letter or not arguments or (arguments[0][0] == "string" and letter not in "sS"):
                    self.refuse(310)
                elif arguments[0][0] == "string":
                    pieces.append(letters_of(arguments.pop(0)).rjust(int(width or 0)))
                else:
                    value((letter.lower().replace("x", "h"), width), arguments.pop(0))
        return pieces

    def selection(self, parts):
        """What a `$dumpvars` selects (18.1.2): levels and the path of an instance, for each of its paths; all is the top and all below it."""
        if not parts:
            return [(0, self.whole.top)]
        letters = number_of(parts[0]).letters
        if not is_known(letters):
            self.refuse(310)
            return []
        paths = [path[1:] for path in parts[1:]] or [[self.whole.top]]
        self.whole.paths += paths
        return [(integer(letters, False), ".".join(path)) for path in paths]

    # processes and what stands inside

    def processes(self, before):
        ports = self.tree[3]
        for _, _, name, value in ports[1:] if ports != "-" else ():
            if value != "-":
                self.starts("reg", name, value, self.heads)
        for count, item in zip(before, self.tree[4:]):
            kind, *what = item
            if kind == "declare":
                for _, name, value in what[1:]:
                    if value != "-":
                        self.starts(what[0][0], name, value, count)
            elif kind == "assigns":
                for _, target, value in what:
                    self.drive(self.driven(target, count), self.checked(value, count))
            elif kind == "initial":
                self.whole.process(self.statement(what[0], count))
            elif kind == "always":
                self.whole.process([("forever", self.statement(what[0], count))])

    def starts(self, word, name, value, before):
        place = self.object(name)
        made = self.checked(value, before)
        if place is not None and word == "wire":
            self.drive([("whole", place)], made)
        elif place is not None:
            self.whole.process([("assign", [("whole", place)], made)])

    def driven(self, tree, before):
        """What a left side of nets drives, leftmost first; a bit goes by a constant (6.1)."""
        kind, *what = tree
        if kind == "joined":
            return [one for part in what for one in self.driven(part, before)]
        place = self.object(what[0])
        if place is None:
            return []
        if kind == "whole":
            return [("whole", place)]
        meaning = self.scope[what[0]]
        if not self.has_bits(meaning):
            self.refuse(310)
        if kind == "bit":
            index = self.constant(what[1], before)
            return [("bit", place, index)] if index and index.fits(self.whole.world()) else []
        return [("part", place, *self.part(meaning, *what[1:], before))]

    def drive(self, targets, value):
        if any(self.whole.design.objects[target[1]].kind != "wire" for target in targets):
            self.refuse(310)
        if sum(target_size(self.whole.design, target) for target in targets) > 64:
            self.refuse(306)
        self.whole.process([("drive", targets, value)])

    def instances(self, before):
        for count, item in zip(before, self.tree[4:]):
            if item[0] == "instances":
                _, module, overrides, *instances = item
                for _, name, connections in instances:
                    self.whole.unit(module, name, self, overrides, connections, count)

    def connected(self, connections):
        """The outside expression of each port, by its name."""
        names = [name for _, name, _ in self.ports]
        if connections[0] == "by-order":
            if len(connections) - 1 > len(names):
                self.refuse(305)
            return dict(zip(names, connections[1:]))
        pairs = [(name, value) for _, name, value in connections[1:]]
        if len(dict(pairs)) < len(pairs) or set(dict(pairs)) - set(names):
            self.refuse(305)
        return {name: value for name, value in pairs if value != "-"}

    def connect(self, connections, outside, before):
        """The processes of the ports."""
        wired = self.connected(connections)
        for word, name, place in self.ports:
            if name not in wired:
                continue
            if word == "input":
                self.drive([("whole", place)], outside.checked(wired[name], before))
            elif (target := target_of(wired[name])) is None:
                self.refuse(305)
            else:
                self.drive(outside.driven(target, before), Variable(name, place))


def target_of(tree):
    """What an output that is connected to an expression drives (12.3.9); None where it can't be driven."""
    kind, *parts = tree
    if kind == "concatenation":
        targets = [target_of(part) for part in parts]
        return None if None in targets else ("joined", *targets)
    return {"name": ("whole", *parts), "bit": tree, "part": tree}.get(kind)


def target_size(design, target):
    if target[0] == "whole":
        return design.objects[target[1]].length
    return 1 if target[0] == "bit" else abs(target[2] - target[3]) + 1


class Whole:
    """A design as it grows."""

    def __init__(self, modules, top):
        self.modules, self.top = modules, top
        self.design, self.broken, self.events, self.units, self.paths, self.letters, self.size = Design(top=top), set(), 0, {}, [], 0, 0

    def world(self):
        design = self.design
        return World(["x" * length for length in design.lengths], design.signs, 0, design.bounds())

    def process(self, actions):
        self.design.processes.append(actions)

    def unit(self, module, name, outside, overrides, connections, before):
        """The unit of an instance, or of the top, and those inside it."""
        depth = outside.depth + 1 if outside else 0
        if module not in self.modules:
            return self.broken.add(301)
        if depth >= MOST_LEVELS:
            return self.broken.add(308)
        if len(self.units) > MOST_INSTANCES:
            return self.broken.add(309)
        one = Unit(self, self.modules[module], name, f"{outside.path}.{name}" if outside else name, depth)
        self.units.setdefault(one.path, one)
        given = one.overrides(overrides, outside, before) if outside else {}
        first = len(self.design.objects)
        own = one.declare_all(given)
        self.design.scopes.append(Scope(name, one.path, depth, first, len(self.design.objects) - first))
        self.letters += len(one.path) + sum(len(each.name) for each in self.design.objects[first:])
        self.size += size_of(one.tree, len(one.path))
        if len(self.design.objects) > MOST_OBJECTS or self.letters > MOST_LETTERS or self.size > MOST_SIZE:
            return self.broken.add(309)
        if outside:
            one.connect(connections, outside, before)
        one.processes(own)
        one.instances(own)

    def finished(self):
        if not self.broken and has_twice(self.design.driven()):
            self.broken.add(304)
        if len(self.design.processes) > MOST_PROCESSES:
            self.broken.add(309)
        for path in self.paths:
            self.check_path(path)
        if self.broken:
            raise Refused(self.broken)
        return self.design

    def check_path(self, path):
        """18.1.2: a path is to an instance."""
        inside = self.units.get(".".join(path[:-1]))
        if ".".join(path) in self.units:
            return
        meaning = inside.scope.get(path[-1]) if inside else None
        self.broken.add(310 if isinstance(meaning, Named) and meaning.kind == "object" else 303)


def directed_names(items):
    """The names that items declare as ports, each with its direction, in the order of the text."""
    return [(name, item[1]) for item in items if item[0] == "declare" and item[1][0] in ("input", "output") for _, name, _ in item[2:]]


def second_names(items):
    """The names that items declare as nets or as variables but `integer` and `time`."""
    return [(name, item[1]) for item in items if item[0] == "declare" and item[1][0] in ("wire", "reg") for _, name, _ in item[2:]]


def port_kind(net, type):
    """What holds the value of a port (12.3.3, A.2.1.2)."""
    return type[0] if type[0] in LENGTHS else "reg" if net == "reg" else "wire"


def values_nets(tree):
    """A.2.1.2: whether a port has a value that is no variable."""
    ports, items, direction, rows = tree[3], tree[4:], "-", []
    for _, own, _, value in ports[1:] if ports != "-" else ():
        direction = own if own != "-" else direction
        rows.append((direction, value))
    rows += [(item[1], value) for item in items if item[0] == "declare" and item[1][0] in ("input", "output") for _, _, value in item[2:]]
    return any(value != "-" and (direction == "-" or port_kind(*direction[1:]) == "wire") for direction, value in rows)


def has_twice(names):
    return len(set(names)) < len(names)


def port_flaw(tree):
    """12.3.2, 12.3.3: the number of what is wrong with the ports that a module's items declare."""
    ports, items = tree[3], tree[4:]
    rows = ports[1:] if ports != "-" else ()
    listed = [name for _, _, name, _ in rows]
    plain = listed if rows and rows[0][1] == "-" else []
    directed = directed_names(items)
    names, seconds = [name for name, _ in directed], [(name, kind[0]) for name, kind in second_names(items) if name in plain]
    if has_twice(plain):
        return 302
    for name in names:
        if name not in plain:
            return 302 if name in listed else 303
    if has_twice(names):
        return 302
    if set(plain) - set(names):
        return 303
    if has_twice([name for name, (_, net, type) in directed if net != "-" or type[0] in LENGTHS] + [name for name, _ in seconds]):
        return 302
    if {name for name, kind in directed if kind[0] == "input"} & {name for name, word in seconds if word == "reg"}:
        return 310
    return None


def names_of(item):
    """The names that an item declares."""
    if item[0] in ("parameter", "localparam"):
        return [one[1] for one in item[2:]]
    if item[0] == "instances":
        return [one[1] for one in item[3:]]
    return [one[1] for one in item[2:]] if item[0] == "declare" else list(item[1:]) if item[0] == "events" else []


def blocks_in(tree):
    """The names of blocks in the scope of a statement (9.8.3, 4.11)."""
    if not isinstance(tree, tuple) or not tree:
        return []
    if tree[0] == "block" and tree[1] != "-":
        return [tree[1]]
    return [name for part in tree[1:] for name in blocks_in(part)]


def doubles_block(tree):
    """Whether a block has a name that its module has besides."""
    heads, ports, items = tree[2], tree[3], tree[4:]
    named = {head[2][1] for head in heads[1:] if heads != "-"} | {port[2] for port in ports[1:] if ports != "-"}
    named |= {name for item in items for name in names_of(item)}
    blocks = [name for item in items if item[0] in ("initial", "always") for name in blocks_in(item[1])]
    return has_twice(blocks) or not named.isdisjoint(blocks)


def instantiated(tree):
    return {item[1] for item in tree[4:] if item[0] == "instances"}


def top_of(modules, top):
    """The module that was asked for, or the one that no module instantiates (12.1.1)."""
    if top is not None:
        return top if top in modules else None
    used = set().union(*map(instantiated, modules.values()))
    free = [name for name in modules if name not in used]
    return free[0] if len(free) == 1 else None


def unescaped(tree):
    """The tree with its names: of an escaped one the backslash is no part (3.7.1)."""
    return tree.removeprefix("\\") if isinstance(tree, str) else tuple(map(unescaped, tree))


def elaborated(tree, top=None):
    """The design of a tree."""
    tree = unescaped(tree)
    names = [module[1] for module in tree[1:]]
    if len(set(names)) < len(names):
        raise Refused({302})
    for module in tree[1:]:
        if flaw := port_flaw(module):
            raise Refused({flaw})
        if values_nets(module):
            raise Refused({310})
        if doubles_block(module):
            raise Refused({302})
    modules = {module[1]: module for module in tree[1:]}
    found = top_of(modules, top)
    if found is None:
        raise Refused({301})
    whole = Whole(modules, found)
    whole.unit(found, found, None, "-", None, 0)
    return whole.finished()


PRECISIONS = ["s", "ms", "us", "ns", "ps", "fs"]


def shown_power(power):
    """A power of ten of seconds, as a dump tells it."""
    unit = next(place for place in range(6) if -3 * place <= power)
    return f"{10 ** (power + 3 * unit)} {PRECISIONS[unit]}"


def designed(text, top=None):
    """The design of a text; a Fault where the text has no tree, and Refused where it has no design."""
    expander = Expander(text)
    design = elaborated(Reader(cut(*expander.run())).text(), top)
    if expander.scale:
        unit, precision = expander.scale
        design.factor, design.precision = 10 ** (unit - precision), shown_power(precision)
    return design

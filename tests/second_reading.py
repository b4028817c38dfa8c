"""A second reading of docs/SCHEDULING.md and docs/FORMATS.md: the runs of a design (second_design.py), their dumps, printed lines and traces. What
the scripts random-runs, random-reports and examples compare with the program's answers. Letters stand lowest first.

What a run shows are its items: a slot end (time, values), a printed line ("line", text), a monitor that is in force from now on ("monitor",
pieces), a command to the dump ("dumpvars", selection), ("dumpon",), ("dumpoff",) or ("dumpall",).
"""
import re
from copy import copy

from second_design import target_size
from second_values import World, extended, integer, is_known, truth

UNTIL = 40
# a name that a dump has as it is; another has a backslash before it (3.7.1)
SIMPLE = re.compile(r"[A-Za-z_][A-Za-z0-9_$]*")


# ---- runs (clause 11)

class Run:
    """A run: of which grain, until when, whether its departures may hold back, and whether the lines of its slots are looked at."""

    def __init__(self, made, by_process, until=UNTIL, holding=False, lines=False):
        self.made, self.by_process, self.until, self.holding = made, by_process, until, holding
        self.values, self.signs, self.limits = made.start(), made.signs, made.bounds()
        self.rest = [list(p) for p in made.processes]
        self.active = {p for p, rest in enumerate(self.rest) if rest}
        self.inactive, self.activated, self.posted, self.future, self.strobes = set(), [], [], {}, []
        self.waits, self.rung = {}, None
        self.time, self.last, self.beyond, self.finished, self.items = 0, None, False, "", []
        self.held, self.printed, self.bags = set(), "" if lines else None, []
        if not self.active:
            self.items.append((0, list(self.values)))
        self.note("", self.items)

    def copied(self):
        other = copy(self)
        other.values, other.items = list(self.values), list(self.items)
        other.rest, other.waits = [list(actions) for actions in self.rest], dict(self.waits)
        other.active, other.inactive, other.strobes = set(self.active), set(self.inactive), list(self.strobes)
        other.held, other.bags = set(self.held), list(self.bags)
        other.activated, other.posted = list(self.activated), list(self.posted)
        other.future = {time: (set(waiting), list(updates)) for time, (waiting, updates) in self.future.items()}
        return other

    def cause(self):
        """Why the run ended, where it has."""
        return self.finished or ("limit" if self.beyond else "quiet")

    # choices (11.4.1, 11.4.2)

    def order(self):
        """What is active, in order; the processes that are held back come last."""
        if self.last is not None and self.by_process:
            return [self.last]
        first = [] if self.last is None else [self.last]
        others = self.active - set(first)
        return first + sorted(others - self.held) + ["update"] * bool(self.activated) + sorted(others & self.held)

    def choices(self):
        """Each of the order; and where departures may hold back each but the first once more, with all processes before it held back."""
        if self.finished:
            return []
        order = self.order()
        return (order + order[1:] if self.holding else order) or ["advance"] * bool(self.future)

    def held_by(self, index):
        """The processes that the choice of this number holds back."""
        order = self.order()
        return {one for one in order[: index - len(order) + 1] if one != "update"} if index >= len(order) else set()

    def take_number(self, index):
        """Takes the choice of this number. What is held back stays so until nothing else is active, or until it is taken."""
        choice, told = self.choices()[index], len(self.items)
        held = (self.held | self.held_by(index)) - {choice}
        self.take(choice)
        self.held = held if self.active - held or self.activated else set()
        self.note(choice, self.items[told:])

    def note(self, choice, items):
        """Keeps what the slot has printed so far, where lines are looked at, and the lines of each slot that has ended."""
        if self.printed is not None:
            before = "" if choice == "advance" else self.printed
            self.printed = before + "".join(item[1] for item in items if item[0] == "line")
            self.bags += [self.bag() for item in items if is_slot(item)]

    def bag(self):
        """The lines of the last slot, where they are looked at, in the order of their bytes: each with its line feed, but for what none ends."""
        return None if self.printed is None else tuple(sorted(re.findall(r"[^\n]*\n|[^\n]+", self.printed)))

    def world(self):
        return World(self.values, self.signs, self.time // self.made.factor, self.limits)

    # expressions

    def value(self, source, length):
        """What so many bits get of an expression (5.4.1)."""
        world = self.world()
        return source.at(world, max(length, source.size(world)), source.signed(world))[:length]

    def holds(self, condition):
        return truth(condition.own(self.world())) == "1"

    def amount(self, source):
        """How long a delay lasts: 64 bits, unsigned; 0 where a letter is unknown."""
        world = self.world()
        letters = extended(source.own(world), source.signed(world), 64)
        return (integer(letters, False) if is_known(letters) else 0) * self.made.factor

    def turns(self, source):
        world = self.world()
        letters = source.own(world)
        return max(0, integer(letters, source.signed(world))) if is_known(letters) else 0

    # what is written (6.2)

    def size(self, targets):
        return sum(target_size(self.made, target) for target in targets)

    def parts(self, targets, letters):
        """What an assignment of these letters writes: objects, each with its letters by place."""
        world, found, high = self.world(), [], len(letters)
        for target in targets:
            low = high - target_size(self.made, target)
            found.append((target[1], dict(zip(self.places(target, world), letters[low:high]))))
            high = low
        return [(place, {n: letter for n, letter in new.items() if n is not None}) for place, new in found]

    def places(self, target, world):
        """Where the bits of a target stand, lowest first; None where there is no such bit."""
        kind, place, *what = target
        left, right = self.limits[place]
        if kind == "whole":
            return range(len(self.values[place]))
        if kind == "bit":
            own = what[0].own(world)
            numbers = [integer(own, what[0].signed(world)) if is_known(own) else -1]
        else:
            step = 1 if what[0] >= what[1] else -1
            numbers = range(what[1], what[0] + step, step)
        return [abs(n - right) if min(left, right) <= n <= max(left, right) else None for n in numbers]

    def write(self, parts):
        for place, new in parts:
            self.values[place] = "".join(new.get(n, letter) for n, letter in enumerate(self.values[place]))

    # steps

    def take(self, choice):
        self.last, self.rung = None, None
        before = list(self.values)
        if choice == "advance":
            self.time = min(self.future)
            self.active, self.posted = self.future.pop(self.time)
        elif choice == "update":
            self.write(self.activated.pop(0))
        else:
            self.act(choice)
        self.wake(before)
        if not self.finished:
            self.settle()

    def act(self, process):
        rest = self.rest[process]
        kind, *what = rest.pop(0)
        if kind in ("assign", "drive"):
            self.write(self.parts(what[0], self.value(what[1], self.size(what[0]))))
            if kind == "drive":
                rest.insert(0, (kind, *what))
                return self.wait(process, [("", place) for place in what[1].reads()])
        elif kind == "held":
            rest.insert(0, ("write", what[0], self.value(what[1], self.size(what[0]))))
            return self.suspend(process, self.amount(what[2]), [])
        elif kind == "write":
            self.write(self.parts(*what))
        elif kind in ("post", "later"):
            self.post(self.parts(what[0], self.value(what[1], self.size(what[0]))), self.amount(what[2]) if kind == "later" else 0)
        elif kind == "trigger":
            self.rung = what[0]
        elif kind == "delay":
            return self.suspend(process, self.amount(what[0]), what[1])
        elif kind == "on":
            rest[:0] = what[1]
            return self.wait(process, what[0])
        elif kind == "until" and not self.holds(what[0]):
            rest.insert(0, ("until", *what))
            return self.wait(process, [("", place) for place in what[0].reads()])
        elif kind in ("finish", "stop"):
            self.finished = kind
        elif kind in SHOWN:
            self.show(kind, *what)
        else:
            rest[:0] = self.follows(kind, what)
        if rest:
            self.last = process
        else:
            self.active.discard(process)

    def show(self, kind, *what):
        """A system task (clauses 17 and 18)."""
        if kind == "line":
            self.items.append(("line", self.line(what[0])))
        elif kind == "strobe":
            self.strobes.append(what[0])
        elif kind != "nothing":
            self.items.append((kind, *what))

    def line(self, pieces):
        return text_of(pieces, self.world(), self.made.factor)

    def follows(self, kind, what):
        """What comes next of a statement that tests or turns."""
        if kind == "until":
            return what[1]
        if kind == "test":
            return what[1] if self.holds(what[0]) else what[2]
        if kind == "again":
            return what[1] + [(kind, *what)] if self.holds(what[0]) else []
        if kind == "forever":
            return what[0] + [(kind, *what)]
        if kind == "case":
            return self.branch(*what)
        count = self.turns(what[0]) if kind == "repeat" else what[0] - 1
        turn = [("turn", count, what[1])] if count else []
        return turn if kind == "repeat" else what[1] + turn

    def branch(self, kind, value, items, *bodies):
        """What comes next of a `case`: the body of the first item that matches (9.5)."""
        world, every = self.world(), [value, *items]
        size, signed = max(one.size(world) for one in every), all(one.signed(world) for one in every)
        passed = {"case": "", "casez": "z", "casex": "xz"}[kind]
        first, *others = [one.at(world, size, signed) for one in every]
        for other, body in zip(others, bodies):
            if all(a == b or a in passed or b in passed for a, b in zip(first, other)):
                return body
        return bodies[-1]

    # waiting (9.7)

    def wait(self, process, terms):
        self.active.discard(process)
        if self.rest[process]:
            self.waits[process] = terms

    def wake(self, before):
        woken = {process for process, terms in self.waits.items() if any(self.heard(before, *term) for term in terms)}
        for process in woken:
            del self.waits[process]
        self.active |= woken

    def heard(self, before, edge, place):
        """9.7.2, table 9-2: an edge is one of the lowest bit."""
        if edge == "event":
            return place == self.rung
        old, new = before[place], self.values[place]
        if edge == "":
            return old != new
        rank = {"0": 0, "x": 1, "z": 1, "1": 2}
        rise = rank[new[0]] - rank[old[0]]
        return rise > 0 if edge == "posedge" else rise < 0

    def suspend(self, process, amount, body):
        self.rest[process] = body + self.rest[process]
        self.active.discard(process)
        waiting = {process} if self.rest[process] else set()
        if amount == 0:
            self.inactive |= waiting
        elif self.time + amount > self.until:
            self.beyond = True
        else:
            self.future.setdefault(self.time + amount, (set(), []))[0].update(waiting)

    def post(self, parts, amount):
        if amount == 0:
            self.posted.append(parts)
        elif self.time + amount > self.until:
            self.beyond = True
        else:
            self.future.setdefault(self.time + amount, (set(), []))[1].append(parts)

    def settle(self):
        if self.active or self.activated:
            return
        if self.inactive:
            self.active, self.inactive = self.inactive, set()
        elif self.posted:
            self.activated, self.posted = self.posted, []
        else:
            self.items += [("line", self.line(pieces)) for pieces in self.strobes]
            self.items.append((self.time, list(self.values)))
            self.strobes = []


# system tasks that show something, or nothing
SHOWN = {"line", "strobe", "monitor", "dumpvars", "dumpon", "dumpoff", "dumpall", "nothing"}


def is_slot(item):
    return not isinstance(item[0], str)


def fault_or_run(made, by_process, log, steps, until=UNTIL, holding=False):
    """The run under the log, or the number of its fault."""
    run, named, count = Run(made, by_process, until, holding), dict(log), 0
    while choices := run.choices():
        if count == steps:
            return "E403"
        index = named.pop(count, 0)
        if index >= len(choices):
            return "E402"
        run.take_number(index)
        count += 1
    return "E402" if named else run


# ---- printed lines (clause 17)

def unknown_letter(letters):
    return "x" if set(letters) == {"x"} else "z" if set(letters) == {"z"} else "X" if "x" in letters else "Z"


def by_groups(letters, size):
    groups = [letters[n : n + size] for n in range(0, len(letters), size)]
    return "".join(f"{integer(group, False):x}" if is_known(group) else unknown_letter(group) for group in reversed(groups))


def decimal(letters, signed, factor=1):
    return str(integer(letters, signed) * factor) if is_known(letters) else unknown_letter(letters)


def in_bytes(letters):
    """Leftmost first; a bit that isn't known counts as 0."""
    known = "".join("1" if letter == "1" else "0" for letter in letters)
    return bytes(integer(known[n : n + 8], False) for n in range(0, len(known), 8))[::-1]


def digits_in(notation, letters, signed, factor):
    """All digits, or letters, of a value (17.1.1.2)."""
    if notation == "b":
        return letters[::-1]
    if notation in "oh":
        return by_groups(letters, 3 if notation == "o" else 4)
    if notation in "dt":
        return decimal(letters, signed, factor if notation == "t" else 1)
    if notation == "c":
        return chr(in_bytes(letters)[-1])
    return in_bytes(letters).lstrip(b"\0").replace(b"\0", b" ").decode("latin-1")


def places_of(notation, letters, signed):
    """The places that the longest value takes (17.1.1.3)."""
    if notation == "d":
        return len(str(-(1 << len(letters) - 1) if signed else (1 << len(letters)) - 1))
    return {"t": 20, "s": len(in_bytes(letters))}.get(notation, 0)


def formatted(form, letters, signed, factor):
    notation, width = form
    digits = digits_in(notation, letters, signed, factor)
    if width == "":
        return digits.rjust(places_of(notation, letters, signed))
    if width == "0":
        return digits if notation not in "boh" else digits.lstrip("0") or "0"
    if width[0] != "0" or notation in "cs":
        return digits.rjust(int(width), "0" if width[0] == "0" and notation == "c" else " ")
    return digits.zfill(int(width))


def text_of(pieces, world, factor):
    """What these pieces print."""
    shown = [piece if isinstance(piece, str) else formatted(piece[0], piece[2].own(world), piece[2].signed(world), factor) for piece in pieces]
    return "".join(shown)


def lines(run):
    """What a run prints: each line, and the monitor's at the ends of slots."""
    text, monitor, shown, made = "", None, None, run.made
    for item in run.items:
        if item[0] == "line":
            text += item[1]
        elif item[0] == "monitor":
            monitor, shown = item[1], None
        elif is_slot(item) and monitor is not None:
            world = World(item[1], run.signs, item[0] // made.factor, run.limits)
            now = [piece[2].own(world) for piece in monitor if not isinstance(piece, str) and piece[1]]
            if now != shown:
                text += text_of(monitor, world, made.factor)
            shown = now
    return text.encode("latin-1")


# ---- dumps (clause 18)

def code(n):
    text, n = "", n + 1
    while n:
        n, digit = divmod(n - 1, 94)
        text += chr(33 + digit)
    return text


def change(n, letters):
    if len(letters) == 1:
        return letters + code(n)
    shown = letters[::-1]
    while len(shown) > 1 and shown[0] == ("0" if shown[1] == "1" else shown[1]):
        shown = shown[1:]
    return f"b{shown} {code(n)}"


def is_selected(scope, selections):
    """18.1.2: whether one of the selections takes the scope: so many levels from a path on, or with 0 all of them."""
    for levels, path in selections:
        below = (scope.path + ".").startswith(path + ".")
        if below and (levels == 0 or scope.path.count(".") - path.count(".") < levels):
            return True
    return False


def header(made, selections):
    yield from ("$version vrace $end", f"$timescale {made.precision} $end")
    open_scopes = []
    for scope in made.scopes:
        inside = [one for one in made.scopes if (one.path + ".").startswith(scope.path + ".")]
        if not any(is_selected(one, selections) for one in inside):
            continue
        while len(open_scopes) > scope.depth:
            open_scopes.pop()
            yield "$upscope $end"
        open_scopes.append(scope)
        yield f"$scope module {scope.name} $end"
        if is_selected(scope, selections):
            for n in range(scope.first, scope.first + scope.count):
                one = made.objects[n]
                shown = "" if one.bounds is None else f" [{one.bounds[0]}:{one.bounds[1]}]"
                name = one.name.split(".")[-1]
                identifier = name if SIMPLE.fullmatch(name) else f"\\{name}"
                yield f"$var {one.kind} {one.length} {code(n)} {identifier}{shown} $end"
    yield from ["$upscope $end"] * len(open_scopes)
    yield "$enddefinitions $end"


def selected(made, selections):
    """The numbers of the objects that are dumped."""
    scopes = [scope for scope in made.scopes if is_selected(scope, selections)]
    return [n for scope in scopes for n in range(scope.first, scope.first + scope.count)]


def dump(run):
    found, commands, old, last, is_on, chosen = [], [], None, None, False, []
    for item in run.items:
        if not is_slot(item):
            commands.append(item)
            continue
        time, values = item
        body, selections = [], [one for command in commands if command[0] == "dumpvars" for one in command[1]]
        if old is None and not selections:
            commands = []
            continue
        if old is None:
            chosen, is_on = selected(run.made, selections), True
            found += header(run.made, selections)
            body = ["$dumpvars", *(change(n, values[n]) for n in chosen), "$end"]
        elif is_on:
            body = [change(n, values[n]) for n in chosen if values[n] != old[n]]
        for command, *_ in commands:
            if command in ("dumpon", "dumpoff") and is_on != (command == "dumpon") or command == "dumpall" and is_on:
                is_on = command != "dumpoff"
                body += [f"${command}", *(change(n, values[n] if is_on else "x" * len(values[n])) for n in chosen), "$end"]
        if body:
            found += [f"#{time}", *body]
            last = time
        old, commands = values, []
    if last is not None and run.time != last:
        found.append(f"#{run.time}")
    return "".join(line + "\n" for line in found).encode()


# ---- traces

def shown(letters):
    return letters[::-1]


TOLD = {kind: f" {kind}" for kind in ("finish", "stop", "strobe", "monitor", "trigger", "dumpvars", "dumpon", "dumpoff", "dumpall")} | {"on": " wait", "line": " display"}


def places_after(run, parts):
    """The objects that are written, each once, and a run in which they are."""
    after = run.copied()
    after.write(parts)
    return list(dict.fromkeys(place for place, new in parts if new)), after


def posted(run, parts):
    """What a trace tells of an update that is posted: of each object, what it would be if it were written now."""
    places, after = places_after(run, parts)
    return "".join(f" post {run.made.names()[place]} {shown(after.values[place])}" for place in places)


def written(run, parts):
    """What a trace tells of what is written: of each object that is, its value before and after the step."""
    places, after = places_after(run, parts)
    return "".join(f" write {run.made.names()[place]} {shown(run.values[place])} {shown(after.values[place])}" for place in places)


def effect(run, choice):
    """What a choice is going to do, as a trace tells it."""
    if choice == "update":
        return written(run, run.activated[0])
    kind, *what = run.rest[choice][0]
    if kind == "delay":
        return f" delay {run.amount(what[0])}"
    if kind in TOLD:
        return TOLD[kind]
    if kind == "until":
        return "" if run.holds(what[0]) else " wait"
    if kind in ("assign", "drive"):
        return written(run, run.parts(what[0], run.value(what[1], run.size(what[0])))) + " wait" * (kind == "drive")
    if kind in ("post", "later"):
        return posted(run, run.parts(what[0], run.value(what[1], run.size(what[0]))))
    if kind == "held":
        return f" delay {run.amount(what[2])}"
    if kind == "write":
        return written(run, run.parts(*what))
    return ""


def step_line(run, count, index, line_of_process):
    """The line of the step that takes this choice, which it takes."""
    choices, held = run.choices(), sorted(run.held_by(index))
    choice = choices[index]
    front = f"step {count} time {run.time} choice {index} of {len(choices)}" + " holding" * bool(held) + "".join(f" {one}" for one in held)
    if choice == "advance":
        run.take_number(index)
        return f"{front} advance {run.time}"
    who = " update" if choice == "update" else f" process {choice} at 1:{line_of_process(choice)}"
    line = front + who + effect(run, choice)
    run.take_number(index)
    return line


def trace(made, by_process, log, line_of_process, until=UNTIL, holding=False):
    """The trace of a run that ends, under a log of its choices; each process stands on a line of its own."""
    run, named, count, told, found = Run(made, by_process, until, holding), dict(log), 0, 0, []

    def slots():
        return [f"slot {item[0]}" for item in run.items[told:] if is_slot(item)], len(run.items)

    more, told = slots()
    found += more
    while run.choices():
        found.append(step_line(run, count, named.get(count, 0), line_of_process))
        more, told = slots()
        found += more
        count += 1
    found.append(f"end {run.time} {run.cause()}")
    return "".join(line + "\n" for line in found).encode()

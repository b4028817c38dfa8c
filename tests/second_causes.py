"""A second reading of crates/cause/README.md: the visits of a slot in the run under a log and in the run under the same log without its last
member, and the first two that touch and stand in another order. And of crates/race_groups/README.md: which differences one cause explains.
"""
from dataclasses import dataclass

from second_reading import Run


@dataclass
class Visit:
    """A step of a process, or an update: who makes it, which step of its run it is, its action, the variables that this evaluates or waits for,
    what the way back from it asks for, and what it reads and changes."""
    who: tuple
    step: int
    action: int
    named: frozenset
    asked: frozenset
    reads: set
    changes: set


ADVANCE = ("advance",)
END = ("end",)
NOTHING = frozenset()
PRINTS = {"line", "strobe", "monitor"}


def names_in(expression):
    return {("variable", place) for place in expression.reads()}


def index_names(targets):
    return set().union(*(names_in(target[2]) for target in targets if target[0] == "bit"))


def shown_in(pieces):
    return set().union(*(names_in(piece[2]) for piece in pieces if not isinstance(piece, str)))


def name_of(action):
    """A number that an action has alone, wherever it stands; None where that can't be told."""
    kind, *what = action
    part = what[kind in ("repeat", "turn", "case")] if what else 0
    return None if isinstance(part, int) else id(part)


def evaluated(action, counts):
    """The variables that a step of an action evaluates; by the body of a `repeat`, its count."""
    kind, *what = action
    if kind in ("assign", "drive", "post"):
        return names_in(what[1]) | index_names(what[0])
    if kind == "later":
        return names_in(what[1]) | names_in(what[2]) | index_names(what[0])
    if kind == "held":
        return names_in(what[1]) | names_in(what[2])
    if kind == "write":
        return index_names(what[0])
    if kind in ("delay", "until", "test", "again", "repeat"):
        return names_in(what[0])
    if kind == "turn":
        return names_in(counts[id(what[1])])
    if kind == "line":
        return shown_in(what[0])
    if kind == "case":
        return set().union(names_in(what[1]), *(names_in(item) for item in what[2]))
    return set()


# ---- blocks that wait for what they read (9.7.5)

BODIES = {"delay": [1], "until": [1], "test": [1, 2], "again": [1], "repeat": [1], "forever": [0], "on": [1]}


def read_within(actions):
    """What these statements read, with those in them."""
    found = set()
    for kind, *what in actions:
        found |= evaluated((kind, *what), {})
        for body in what[3:] if kind == "case" else [what[place] for place in BODIES.get(kind, [])]:
            found |= read_within(body)
    return found


def heard_by_block(process):
    """What an `always` waits for whose list has no edge and names all that is read behind it; nothing of another process."""
    if len(process) != 1 or process[0][0] != "forever" or len(process[0][1]) != 1 or process[0][1][0][0] != "on":
        return NOTHING
    _, terms, body = process[0][1][0]
    heard = frozenset(("variable", place) for edge, place in terms)
    return heard if all(edge == "" for edge, _ in terms) and read_within(body) <= heard else NOTHING


# ---- runs that keep their visits

class Watched(Run):
    """A run that keeps who takes each step, and what that reads and changes."""

    def __init__(self, *words, **more):
        self.visits, self.posts, self.updates, self.counts, self.posters = [], [], 0, {}, {}
        self.since, self.blocks = {}, []
        super().__init__(*words, **more)
        self.blocks = [heard_by_block(process) for process in self.made.processes]

    def take(self, choice):
        step, before, waits = len(self.visits), list(self.values), dict(self.waits)
        visit, kind = self.visit_of(choice, step)
        self.visits.append(visit)
        super().take(choice)
        self.updates *= choice != "advance"
        visit.changes |= {("variable", place) for place, old in enumerate(before) if old != self.values[place]}
        if visit.changes or kind in PRINTS:
            visit.reads.add(END)
        visit.changes |= self.woken(before, waits)
        if self.finished:
            visit.changes.add(END)
        if kind in ("on", "until") and choice in self.waits:
            self.since[choice] = step
            visit.reads |= {self.waiting(choice, term) for term in self.waits[choice]}

    def visit_of(self, choice, step):
        """The visit that a choice makes, and the kind of its action."""
        if choice == "advance":
            return Visit(ADVANCE, step, None, NOTHING, NOTHING, set(), set()), ""
        if choice == "update":
            due = [poster for time, poster in self.posts if time == self.time]
            self.updates += 1
            return Visit(("update", due[self.updates - 1]), step, due[self.updates - 1], NOTHING, NOTHING, set(), set()), ""
        action = self.rest[choice][0]
        if action[0] == "repeat":
            self.counts[id(action[2])] = action[1]
        if action[0] in ("post", "later"):
            self.posts.append((self.time + (self.amount(action[3]) if action[0] == "later" else 0), name_of(action)))
        reads = evaluated(action, self.counts)
        named = reads | {("variable", place) for edge, place in (action[1] if action[0] == "on" else []) if edge != "event"}
        asked = frozenset(reads) if action[0] == "drive" else self.blocks[choice]
        visit = Visit(("process", choice), step, name_of(action), frozenset(named), asked, set(reads), set())
        self.posters[visit.action] = choice
        return visit, action[0]

    def waiting(self, process, term):
        """That a term comes of the wait at which a process stands."""
        edge, place = term
        return "wait", process, self.since[process], "event" if edge == "event" else "variable", place

    def woken(self, before, waits):
        """What came by the last step, of the waits that it ended."""
        ended = [process for process in waits if process not in self.waits and process in self.since]
        found = {self.waiting(process, term) for process in ended for term in waits[process] if self.heard(before, *term)}
        for process in ended:
            del self.since[process]
        return found


class Slot(dict):
    """The visits of a slot from a step on, by who makes them and how many of his there were; and all of the slot, in a list."""

    def __init__(self):
        super().__init__()
        self.whole = []


def whole_slot(visits, start):
    """Those of a run's visits that are of the slot of a step."""
    begin = max((visit.step + 1 for visit in visits[:start] if visit.who == ADVANCE), default=0)
    end = next((visit.step for visit in visits[start:] if visit.who == ADVANCE), len(visits))
    return visits[begin:end]


def numbered(thing, numbers):
    """A wait by the number of the visit that began it, which may differ in steps in another run; those of before the slot's step by none."""
    return thing if thing[0] != "wait" else (*thing[:2], numbers.get(thing[2]), *thing[3:])


def slot_visits(made, grain, log, start, until, holding):
    """The visits of the slot of a step, in the run under the log."""
    run, named, count = Watched(made, grain == "process", until, holding), dict(log), 0
    while run.choices() and not (count > start and run.visits[-1].who == ADVANCE):
        run.take_number(named.get(count, 0))
        count += 1
    found, counts, numbers = Slot(), {}, {}
    found.whole = whole_slot(run.visits, start)
    for visit in found.whole:
        if visit.step >= start:
            numbers[visit.step] = counts[visit.who] = counts.get(visit.who, -1) + 1
            found[(visit.who, numbers[visit.step])] = visit
    for visit in found.values():
        visit.reads = {numbered(thing, numbers) for thing in visit.reads}
        visit.changes = {numbered(thing, numbers) for thing in visit.changes}
    return found


def shared_by(one, other):
    return one.changes & (other.reads | other.changes) | other.changes & one.reads


def shared(run, parent, first, second):
    """By what two visits touch in the run or in the parent."""
    return set().union(*(shared_by(slot[first], slot[second]) for slot in (run, parent) if first in slot and second in slot))


def behind(visit, slot):
    """The last visit of the slot before it that changed what the way back from it asks for, and so on."""
    while before := [one for one in slot.whole if one.step < visit.step and one.changes & visit.asked]:
        visit = max(before, key=lambda one: one.step)
    return visit


def cause(made, grain, log, until, holding):
    """The step at which the runs part, the names of the two visits, and the visits of both runs by their names; None where there is none."""
    *others, (start, _) = log
    run = slot_visits(made, grain, log, start, until, holding)
    parent = slot_visits(made, grain, others, start, until, holding)
    for name, visit in run.items():
        before = [
            (one.step, other) for other, one in parent.items()
            if other != name and (name not in parent or one.step < parent[name].step)
            and (other not in run or run[other].step > visit.step) and shared(run, parent, name, other)]
        if before:
            return start, name, max(before, key=lambda found: found[0])[1], run, parent
    return None


# ---- differences by their causes

@dataclass
class Group:
    """Differences that one cause explains: the actions behind its two visits, or none where there is no cause; the first of them, and those
    that follow it."""
    actions: tuple
    first: object
    more: list


def blamed(made, grain, log, until, holding):
    """The actions behind the two visits, the one that comes first in the parent first; none where there is no cause."""
    found = log and cause(made, grain, log, until, holding)
    if not found:
        return ()
    _, first, second, run, parent = found
    return behind(parent[second], parent).action, behind(run[first], run).action


def grouped(differences, blamed_by):
    """The groups of these differences, each with the logs of its sides, in the order in which they are found."""
    groups = []
    for name, logs in differences:
        counted = False
        for log in [log for log in logs if log] or [()]:
            actions = blamed_by(log)
            known = next((group for group in groups if set(group.actions) == set(actions)), None)
            if not known:
                groups.append(Group(actions, name, []))
            elif not counted:
                known.more.append(name)
            counted = True
    return groups

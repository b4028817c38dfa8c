"""A second reading of docs/FORMATS.md, Reports: what every run of a module shows, one by one and none merged, reports as texts, and
whether what they say is true. What the scripts random-reports and examples compare with the program's answers.
"""
import re
from dataclasses import dataclass
from itertools import islice

from second_reading import UNTIL, Run, dump, is_slot

MOST_RUNS = 1500
MOST_STEPS = 300


class Endless(Exception):
    """A run that takes more steps than are looked at."""


# ---- what is to be found

def runs(run, departures, log=(), step=0):
    """Each run that goes on from here with so many departures at most: its log, its number of steps, where it ends."""
    while choices := run.choices():
        if step == MOST_STEPS:
            raise Endless
        for index in range(1, len(choices) if departures else 1):
            other = run.copied()
            other.take_number(index)
            yield from runs(other, departures - 1, (*log, (step, index)), step + 1)
        run.take_number(0)
        step += 1
    yield log, step, run


def line_of(values):
    return " ".join(value[::-1] for value in values)


def slots(run):
    return [item for item in run.items if is_slot(item)]


@dataclass
class Found:
    """The ends, the races and the races of lines of all runs, each with the fewest departures; how many runs, and the steps of the longest."""
    ends: dict
    races: dict
    line_races: dict
    count: int
    longest: int


def found_in(made, grain, departures, until=UNTIL, holding=False, lines=False):
    """What the runs of so many departures at most show; None where there are more of them, or longer ones, than are looked at."""
    try:
        return all_found_in(Run(made, grain == "process", until, holding, lines), departures)
    except Endless:
        return None


def all_found_in(start, departures):
    ends, shown, printed, count, longest = {}, {}, {}, 0, 0
    for log, steps, run in islice(runs(start, departures), MOST_RUNS + 1):
        keep(ends, end_of(run), log)
        for time, values in slots(run):
            for variable, value in enumerate(values):
                keep(shown.setdefault((time, variable), {}), value[::-1], log)
        for (time, _), bag in zip(slots(run), run.bags):
            keep(printed.setdefault(time, {}), bag, log)
        count, longest = count + 1, max(longest, steps)
    return Found(ends, raced(shown), raced(printed), count, longest) if count <= MOST_RUNS else None


# ---- what `races` compares (docs/RACES.md, "Slots that only one run has")

@dataclass
class ShownSlot:
    """What a run shows from the end of a slot on, until it goes on to another time; none where it ends there."""
    time: int
    until: int
    values: tuple
    bag: tuple

    def at(self, time):
        """The values and lines that it shows at this time, if it does."""
        if time == self.time:
            return self.values, self.bag
        return (self.values, ()) if self.time < time < self.until else None


def shown_slots(run):
    """What a run that has ended shows, slot by slot."""
    ends = [(time, tuple(values), bag) for (time, values), bag in zip(slots(run), run.bags)]
    later = [time for time, *_ in ends[1:]] + [run.time]
    return [ShownSlot(time, until, values, bag) for (time, values, bag), until in zip(ends, later)]


def shown_at(slots_shown, time):
    return next((shown for slot in slots_shown if (shown := slot.at(time))), None)


def differences_by_rule(made, grain, departures, until=UNTIL, holding=False):
    """The times at which two runs of so many departures at most show other things, each with the place of a variable, or None for lines; None
    where there are more runs, or longer ones, than are looked at."""
    try:
        start = Run(made, grain == "process", until, holding, True)
        each = [shown_slots(run) for *_, run in islice(runs(start, departures), MOST_RUNS + 1)]
    except Endless:
        return None
    if len(each) > MOST_RUNS:
        return None
    found = set()
    for time in {slot.time for slots_shown in each for slot in slots_shown}:
        shown = {one for slots_shown in each if (one := shown_at(slots_shown, time))}
        found |= {(time, None)} if len({bag for _, bag in shown}) > 1 else set()
        for place in range(len(made.start())):
            found |= {(time, place)} if len({values[place] for values, _ in shown}) > 1 else set()
    return found


def end_of(run):
    """An end: its time, its cause, its values, and the lines of its slot where they are looked at."""
    return run.time, run.cause(), line_of(run.values), run.bag()


def keep(least, what, log):
    """Keeps the fewest departures under which this was seen."""
    least[what] = min(least.get(what, 9), len(log))


def raced(shown):
    return {race: least for race, least in shown.items() if len(least) > 1}


# ---- reports, by docs/FORMATS.md

class IllFormed(Exception):
    pass


@dataclass
class Report:
    top: str
    until: int
    depart: int
    steps: int
    grain: str
    departures: str
    looked: str
    state: str
    variables: list
    ends: list
    races: list
    line_races: list


NUMBER, NAME = "(0|[1-9][0-9]*)", "[!-~]+"
LOG = "(-|[0-9:,]+)"


class Lines:
    def __init__(self, text):
        self.text = text

    def take(self, pattern):
        """The parts of the next line, which is to be so."""
        line, end, self.text = self.text.partition(b"\n")
        parts = re.fullmatch(pattern, line.decode("latin-1"), re.ASCII)
        if not end or not parts:
            raise IllFormed
        return parts.groups()

    def number(self, word, least=0, most=2**64 - 1):
        return number_of(*self.take(f"{word} {NUMBER}"), least, most)

    def skip(self, count):
        skipped, self.text = self.text[:count], self.text[count:]
        if len(skipped) < count:
            raise IllFormed
        return skipped


def number_of(text, least=0, most=2**64 - 1):
    if not least <= int(text) <= most:
        raise IllFormed
    return int(text)


def log_of(text):
    """The members of a log; none of `-`."""
    if text == "-":
        return []
    members = [re.fullmatch(f"{NUMBER}:{NUMBER}", member) for member in text.split(",")]
    if not all(members):
        raise IllFormed
    log = [(number_of(member[1], 0, 999_999), number_of(member[2], 1, 2**32 - 1)) for member in members]
    if any(one[0] >= next[0] for one, next in zip(log, log[1:])):
        raise IllFormed
    return log


def is_rising(items):
    return all(one < next for one, next in zip(items, items[1:]))


def read_texts(lines, count):
    """So many printed lines, in the order of their bytes."""
    texts = tuple(lines.skip(lines.number("line")).decode("latin-1") for _ in range(count))
    if list(texts) != sorted(texts):
        raise IllFormed
    return texts


def read_end(lines, variables, looked):
    time, cause, log, count = lines.take(f"end {NUMBER} (finish|stop|quiet|limit) {LOG} {NUMBER}")
    line, = lines.take(f"({' '.join(f'[01xz]{{{width}}}' for _, width in variables)})")
    bag = read_texts(lines, lines.number("lines")) if looked == "lines" else None
    return (number_of(time), cause, line, bag), log_of(log), lines.skip(number_of(count))


def read_race(lines, variables):
    time, name, count = lines.take(f"race {NUMBER} ([^ ]*) {NUMBER}")
    places = {name: (place, width) for place, (name, width) in enumerate(variables)}
    if name not in places:
        raise IllFormed
    place, width = places[name]
    shown = [lines.take(f"([01xz]{{{width}}}) {LOG}") for _ in range(number_of(count, 2))]
    return (number_of(time), place), [(value, log_of(log)) for value, log in shown]


def read_side(lines):
    count, log = lines.take(f"lines {NUMBER} {LOG}")
    return read_texts(lines, number_of(count)), log_of(log)


def read_line_race(lines):
    time, count = lines.take(f"line race {NUMBER} {NUMBER}")
    return number_of(time), [read_side(lines) for _ in range(number_of(count, 2))]


def read_views(lines):
    """Which departures there are, and what is looked at."""
    return *lines.take("departures (taking|holding)"), *lines.take("looked (values|lines)")


def read(text):
    """The report of this text."""
    lines = Lines(text)
    version, = lines.take("vrace report ([123])")
    top, = lines.take(f"top ({NAME})")
    until, depart, steps = lines.number("until", 0, 2**62 - 1), lines.number("depart", 0, 4), lines.number("steps", 1, 10**6)
    grain, = lines.take("grain (process|statement)") if version != "1" else ("process",)
    departures, looked = read_views(lines) if version == "3" else ("taking", "values")
    state, = lines.take("state (exhausted|cut memory|cut entries|cut steps|cut time)")
    if (version == "3") == (departures == "taking" and looked == "values" and state != "cut time"):
        raise IllFormed
    told = [lines.take(f"({NAME}(?:[.]{NAME})*) {NUMBER}") for _ in range(lines.number("vars"))]
    variables = [(name, number_of(width, 1, 64)) for name, width in told]
    ends = [read_end(lines, variables, looked) for _ in range(lines.number("ends"))]
    races = [read_race(lines, variables) for _ in range(lines.number("races"))]
    line_races = [read_line_race(lines) for _ in range(lines.number("line races"))] if looked == "lines" else []
    ordered = [[end for end, _, _ in ends], [race for race, _ in races], [time for time, _ in line_races]]
    ordered += [[value for value, _ in shown] for _, shown in races + line_races]
    if lines.text or len(dict(variables)) < len(variables) or not all(map(is_rising, ordered)):
        raise IllFormed
    return Report(top, until, depart, steps, grain, departures, looked, state, variables, ends, races, line_races)


# ---- whether what a report says is true

def within(made, report, log):
    """Where the run under the log stands after the report's steps, or at its end; None where a step of the log isn't among them."""
    run = Run(made, report.grain == "process", report.until, report.departures == "holding", report.looked == "lines")
    named = dict(log)
    for step in range(report.steps):
        choices, index = run.choices(), named.pop(step, 0)
        if index >= max(len(choices), 1) or not choices:
            return None if index or named else run
        run.take_number(index)
    return None if named else run


def is_end(made, report, end, log, content):
    run = within(made, report, log)
    return run is not None and not run.choices() and end_of(run) == end and dump(run) == content


def is_shown(made, report, race, value, log):
    run = within(made, report, log)
    time, place = race
    return run is not None and any(at == time and values[place][::-1] == value for at, values in slots(run))


def is_printed(made, report, time, bag, log):
    run = within(made, report, log)
    return run is not None and any(at == time and printed == bag for (at, _), printed in zip(slots(run), run.bags))


def verdict(made, text, until=2**62 - 1, steps=1_000_000):
    """What a check of the text answers that allows its head so much."""
    try:
        report = read(text)
    except IllFormed:
        return "vrace: E501"
    if report.until > until or report.steps > steps:
        return "vrace: E404"
    if report.top != made.top:
        return "vrace: E301"
    if report.variables != list(zip(made.names(), made.lengths)):
        return "vrace: E504"
    for place, (end, log, content) in enumerate(report.ends):
        if len(log) > report.depart or not is_end(made, report, end, log, content):
            return f"vrace: E502 at {place}"
    for place, (race, shown) in enumerate(report.races):
        if not all(len(log) <= report.depart and is_shown(made, report, race, value, log) for value, log in shown):
            return f"vrace: E503 at {place}"
    for place, (time, sides) in enumerate(report.line_races, len(report.races)):
        if not all(len(log) <= report.depart and is_printed(made, report, time, bag, log) for bag, log in sides):
            return f"vrace: E503 at {place}"
    return "ok"


def counted(report):
    """What a report lists, each with the departures of its log: ends, races, and races of lines."""
    ends = {end: len(log) for end, log, _ in report.ends}
    races, line_races = ({race: {value: len(log) for value, log in shown} for race, shown in told} for told in (report.races, report.line_races))
    return ends, races, line_races


def is_all(report, found):
    """Whether the report lists what was found, with logs of the fewest departures."""
    return counted(report) == (found.ends, found.races, found.line_races)

#!/usr/bin/env python3
"""Counts what exploring a text costs, of five kinds of texts:

- shared: P processes that share 65 variables of 1 to 64 bits, 20 steps a slot over 10 slots (`text`);
- pipeline: stages that pass four values on by `<=`, all at one clock;
- handshake: pairs of processes with request and acknowledge, which wait for each other;
- updates: processes of one statement, each of which posts one update at time 0;
- holding: one text of each of the first three, and the queue of examples/fifo-two-clocks made 100 cycles long, searched by departures
  that take and by ones that hold back (docs/SCHEDULING.md), with K = 1 and 2.

Usage: benches/races/measure.py [PATH_OF_vrace_program [PART..]]

Entries are counted from outside: a search is cut exactly where it has as many as `--entries` says. Choices met are those of the
entries of the default run, of which a trace tells the widths, and one for each other entry (K = 1). Instructions by callgrind, of
`explore_alone` with all that it calls, so without the reading of the text and the writing of the report; a step's by replays of
twice as many, which take each once, as their dumps are short; bytes by massif at the peak.

Beside the other kinds stands what `vvp` takes, where it is installed. It runs each text in one order, so it is told by the step of
that one run, and of updates by the process, the reading of its compiled text with it.

Status 1 where with 16 processes a choice costs more than 30,000 instructions beside the forced steps of its way, a step more than
6,000, or an entry more than 3 times the 65 * 24 bytes of its values; where with 14 stages a choice costs more than 90,000; where
a choice of 60 updates costs more than 3 times one of 20, as its states are 3 times as large; or where with K = 1 departures that hold
back meet more than 3 times the choices of ones that take.
"""
import subprocess
import sys
import time
from pathlib import Path

sys.path.insert(0, str(Path(__file__).resolve().parents[1]))
from counting import beside_vvp, counted, counted_in, peak_bytes, run_parts

TEXT = Path(__file__).resolve().parent / "text"
QUEUE = Path(__file__).resolve().parents[2] / "examples/fifo-two-clocks/tb.v"
MOST, USUAL = 1_000_000, 100_000
SEARCH = "explore::alone::explore_alone", "statebook::way::walk", "vmachine::machine_state::MachineStatePartialEq::eq"
VALUES = 65 * 24


def module(lines):
    return "\n".join(["module tb;", *lines, "endmodule", ""]).encode()


def pipeline(stages, clocks):
    """A clock, a source that counts, the stages, and a sink that folds what comes; all but the clock have four variables, which they
    write by `<=`. With 14 stages these are 17 processes and 65 variables of 1 to 64 bits."""
    places = [[f"v{4 * place + n}" for n in range(4)] for place in range(stages + 2)]
    lines = ["  reg clock;"] + [f"  reg [{n % 64}:0] v{n};" for n in range(4 * len(places))]
    lines.append(f"  initial begin clock = 0; repeat ({2 * clocks}) #1 clock = ~clock; end")
    for place, own in enumerate(places):
        before = places[place - 1]
        if place == 0:
            taken = [f"{name} + 1" for name in own]
        elif place <= stages:
            taken = before
        else:
            taken = [f"{name} ^ {come}" for name, come in zip(own, before)]
        begins = " ".join(f"{name} = {place};" for name in own)
        posts = " ".join(f"{name} <= {value};" for name, value in zip(own, taken))
        lines.append(f"  initial begin {begins} forever @(posedge clock) begin {posts} end end")
    return module(lines)


def handshakes(pairs, rounds):
    """In each pair one process has a number for the other, and both wait for the other's signal before they take their own back."""
    lines = []
    for n in range(pairs):
        request, acknowledge, data, taken = (f"{name}{n}" for name in ("request", "acknowledge", "data", "taken"))
        lines += [
            f"  reg {request}, {acknowledge};",
            f"  reg [7:0] {data}, {taken};",
            f"  initial begin {request} = 0; {data} = {n}; repeat ({rounds}) begin #1 {data} = {data} + 1; {request} = 1; "
            f"wait ({acknowledge}) {request} = 0; wait (!{acknowledge}) ; end end",
            f"  initial begin {acknowledge} = 0; forever begin wait ({request}) {taken} = {data}; {acknowledge} = 1; "
            f"wait (!{request}) {acknowledge} = 0; end end"]
    return module(lines)


def updates(processes):
    names = [f"v{n}" for n in range(processes)]
    return module([f"  reg {', '.join(names)};"] + [f"  initial {name} <= 1;" for name in names])


def explore(depart, entries=MOST, more=()):
    return ["explore", "--depart", str(depart), "--entries", str(entries), *more]


def is_whole(program, text, depart, entries, more=()):
    written = subprocess.run([program, *explore(depart, entries, more)], input=text, capture_output=True).stdout
    return b"\nstate exhausted\n" in written


def entries_of(program, text, depart, more=(), most=MOST):
    """How many entries the search has: the least limit at which it isn't cut is one more. None where there are too many."""
    low, high = 1, 1024
    while not is_whole(program, text, depart, high, more):
        if high == most:
            return None
        low, high = high, min(2 * high, most)
    while low < high:
        middle = (low + high) // 2
        low, high = (low, middle) if is_whole(program, text, depart, middle, more) else (middle + 1, high)
    return low - 1


def default_run(program, text, more=()):
    """The steps of the default run, its stations, and the choices that they have together."""
    words = [program, "replay", "--trace", "--steps", "1000000", *more]
    lines = subprocess.run(words, input=text, capture_output=True).stdout.decode().splitlines()
    steps, stations, choices, is_mark = 0, 0, 0, True
    for words in (line.split() for line in lines):
        if words[0] == "step":
            width = int(words[7])
            is_station = is_mark or width > 1
            stations, choices, steps = stations + is_station, choices + width * is_station, steps + 1
        is_mark = words[0] == "slot"
    return steps, stations, choices


def step_cost(program):
    """Instructions of a plain step: those of twice as many, less those of as many."""
    def run(count):
        return counted(program, ["replay", "--steps", "1000000"], b"module t; reg [7:0] a, b; initial begin " + b"a = b; " * count + b"end endmodule")[0]
    def read(count):
        return counted(program, ["replay", "--steps", "1"], b"module t; reg [7:0] a, b; initial begin " + b"a = b; " * count + b"end endmodule")[0]
    return ((run(40_000) - run(20_000)) - (read(40_000) - read(20_000))) / 20_000


def searched(program, name, text):
    """What a choice costs, with the forced steps of its way and without them; how many entries there are, and choices met."""
    steps, stations, choices = default_run(program, text)
    entries, first = entries_of(program, text, 1), entries_of(program, text, 0)
    met = choices + entries - first
    search, walked, compared = counted_in(program, explore(1), text, SEARCH)
    print("%s: %d steps, %d stations; %d entries, %d choices met" % (name, steps, stations, entries, met))
    print("  %.0f a choice, of which %.0f for the forced steps of its way, and %.0f for comparing states" % (search / met, walked / met, compared / met), flush=True)
    return search / met, (search - walked) / met, entries, met


def measured_shared(program):
    step = step_cost(program)
    print("a plain step: %.0f instructions (at most 6000)" % step)
    for processes in 4, 8, 16:
        text = subprocess.run([str(TEXT), str(processes)], capture_output=True, check=True).stdout
        _, beside, entries, _ = searched(program, "%d processes" % processes, text)
        bytes_at_peak = peak_bytes(program, explore(1), text)
        room = bytes_at_peak / entries
        print("  %.1f MB at the peak, %.0f bytes an entry" % (bytes_at_peak / 1e6, room))
    print("with 16 processes: %.0f a choice beside the forced steps of its way (at most 30000), %.1f times the bytes of the values (at most 3)" % (beside, room / VALUES))
    return beside <= 30_000 and step <= 6_000 and room <= 3 * VALUES


def tell_vvp(program, text_of):
    """What `vvp` takes for a step of the default run, of a long text and a short one."""
    short, long = text_of(100), text_of(500)
    taken = beside_vvp(short, long, default_run(program, long)[0] - default_run(program, short)[0])
    if taken is not None:
        print("  vvp takes %.0f a step of one run" % taken)


def measured_pipeline(program):
    for stages in 4, 8, 14:
        choice, _, _, _ = searched(program, "a pipeline of %d stages, 4 clocks" % stages, pipeline(stages, 4))
        tell_vvp(program, lambda clocks: pipeline(stages, clocks))
    print("with 14 stages: %.0f a choice (at most 90000)" % choice)
    return choice <= 90_000


def measured_handshake(program):
    for pairs in 4, 8, 16:
        searched(program, "%d handshakes, 4 rounds" % pairs, handshakes(pairs, 4))
        tell_vvp(program, lambda rounds: handshakes(pairs, rounds))
    return True


def measured_updates(program):
    costs = []
    for processes in 20, 40, 60:
        text = updates(processes)
        begun = time.monotonic()
        subprocess.run([program, *explore(1)], input=text, capture_output=True)
        print("%.2f s for the whole program" % (time.monotonic() - begun))
        choice, _, _, _ = searched(program, "%d updates of one time" % processes, text)
        costs.append(choice)
    taken = beside_vvp(updates(20), updates(60), 40)
    if taken is not None:
        print("  vvp takes %.0f a process of one run" % taken)
    print("a choice of 60 updates costs %.1f times one of 20 (at most 3)" % (costs[-1] / costs[0]))
    return costs[-1] <= 3 * costs[0]


def choices_met(program, text, more=()):
    """Choices that a search with K = 1 meets: all of the default run, and one of each other entry."""
    return default_run(program, text, more)[2] + entries_of(program, text, 1, more) - entries_of(program, text, 0, more)


def measured_holding(program):
    shared = subprocess.run([str(TEXT), "16"], capture_output=True, check=True).stdout
    queue = QUEUE.read_bytes().replace(b"#20 $display", b"#1200 $display")
    texts = {"16 processes": shared, "a pipeline of 14 stages, 4 clocks": pipeline(14, 4), "16 handshakes, 4 rounds": handshakes(16, 4),
             "a queue between two clocks, 100 cycles": queue}
    worst = 0
    for name, text in texts.items():
        taking, holding = choices_met(program, text), choices_met(program, text, ["--hold"])
        worst = max(worst, holding / taking)
        print("%s: K = 1: %d choices met, with --hold %d: %.2f times as many (at most 3)" % (name, taking, holding, holding / taking))
        taking, holding = (entries_of(program, text, 2, more, USUAL) or "over %d" % USUAL for more in ([], ["--hold"]))
        print("  K = 2: entries: %s, with --hold %s" % (taking, holding), flush=True)
    return worst <= 3


PARTS = {"shared": measured_shared, "pipeline": measured_pipeline, "handshake": measured_handshake, "updates": measured_updates,
         "holding": measured_holding}


if __name__ == "__main__":
    run_parts("vrace_program", PARTS)

#!/usr/bin/env python3
"""Counts what the program costs: a byte of text read, a design made, a step taken, and a byte of a dump or of lines written.

Usage: benches/replay/measure.py [PATH_OF_vrace_program [PART..]]

The parts, in their order: reading, refusals, steps, shared, clocked, dumps, lines, elaboration, passes.

Reading: ordinary text of many modules, of which the top does nothing, so that text, tokens and tree are all that costs; the
difference between a long text and a short one. The same of modules with constructs of the whole grammar, which the top
doesn't reach, and with a string left open at their end, so that they are cut into tokens alone (E101). Refusals: texts
of one piece repeated, which is as bad as a text can be. Steps: one process of many assignments, blocking or all posted at one time, and
no dump; and 17 processes over 65 variables, each of which waits 1, or 16 of them for a clock, adds and copies, by the steps that a trace
tells. Dumps: one process that waits 1 and changes a bit, and the same without `$dumpvars`; the difference is the dump. Lines: short
ones by `$display` with three arguments. Elaboration: instances with a parameter and a net, and variables with an assignment to each.

Clocked: texts that run by themselves until their clock stops, each in two lengths, whose difference is what more steps take; beside
them what `vvp` takes for the same, where it is installed. 65 processes that post one update each at one clock; a chain of 240
assignments behind a clock; a counter at a clock, alone and beside processes that wait for a signal that never comes; a loop of
arithmetic on 64 bits. Dumps and lines have texts of that kind too: one change a slot among many variables, and one line a step.
Passes: the counter again, cut by `--steps` in mid-run, which is refused when it has been run once and before anything is written.

Status 1 where a byte read costs more than 400 instructions, a byte cut into tokens more than 150, twice the steps, the instances or the
variables more than 2.2 times, a step of the 17 processes more than 6,000 and of the 65 more than 8,000, a byte of dump more than 150, a
byte of a line more than 300, or a byte of text more than 60 bytes of memory at the peak.
"""
import subprocess
import sys
from pathlib import Path

sys.path.insert(0, str(Path(__file__).resolve().parents[1]))
from counting import beside_vvp, counted, peak_bytes, run_parts

UNIT = """module counter_%d;
  reg [7:0] count, next; // a line of comment
  reg clock;
  initial begin count = 8'h00; #5 next <= count; clock = 1'b1; #10 clock = 0; end
endmodule
"""


# A unit with constructs of the whole grammar: read to the end, and not reached from the top.
WHOLE = """module counter_%d #(parameter WIDTH = 8) (input wire clock, input wire reset, output reg [WIDTH - 1:0] count);
  reg [7:0] shadow; // a copy that is one step behind
  wire wraps = count == {WIDTH{1'b1}} && !reset;
  always @(posedge clock or posedge reset)
    if (reset) count <= 0;
    else begin
      shadow <= count;
      case (count[1:0])
        2'b00, 2'b01: count <= count + 1;
        default: count <= (count << 1) ^ (wraps ? 8'h1D : 8'h00);
      endcase
    end
  initial begin
    $dumpvars;
    repeat (10) @(negedge clock) if (shadow > count) $display("at %%d: %%h", $time, count);
    #100 $finish;
  end
endmodule
"""


def of_units(unit, count):
    return ("module tb; endmodule\n" + "".join(unit % i for i in range(count))).encode()


def ordinary(count):
    return of_units(UNIT, count)


def assignments(count, statement):
    return ("module tb; reg a, b; initial begin " + statement * count + "end endmodule").encode()


def changes(count, dumped):
    start = "$dumpvars; " if dumped else "; "
    return ("module tb; reg a; initial begin " + start + "#1 a = 1; #1 a = 0; " * count + "end endmodule").encode()


def shared(head):
    """16 processes, and one that makes a clock, that share 65 variables of 1 to 64 bits: each waits, adds and copies."""
    names = ["clock"] + [f"v{n}" for n in range(1, 65)]
    lines = ["  reg clock;"] + [f"  reg [{n - 1}:0] v{n};" for n in range(1, 65)]
    lines.append("  initial begin clock = 0; forever #1 clock = ~clock; end")
    for p in range(1, 17):
        one, two, three, four = (names[p + 16 * group] for group in range(4))
        lines.append(f"  initial begin {one} = {p}; {two} = 1; {three} = 3; forever begin {head} {one} = {two} + {three}; {four} = {one}; end end")
    return ("module tb;\n" + "\n".join(lines) + "\nendmodule\n").encode()


def printing(count):
    """Lines of 17 bytes, one a step, but for one step more each ten."""
    lines = '$display("at %d: %h, %0d", a, b, c); ' * 10
    return (
        "module tb; reg [15:0] a; reg [7:0] b; reg signed [31:0] c; initial begin a = 1; b = 8'h5x; c = -5; "
        f"repeat ({count // 10}) begin {lines} end end endmodule").encode()


def instances(count):
    return ("module leaf #(parameter P = 1) (); wire n; endmodule\nmodule tb;\n" + "".join(f"  leaf #({n}) u{n} ();\n" for n in range(count)) + "endmodule\n").encode()


def assigned(count):
    return ("module tb;\n" + "".join(f"  reg [7:0] v{n};\n" for n in range(count)) + "initial begin\n" + "".join(f"  v{n} = {n};\n" for n in range(count)) + "end endmodule\n").encode()


def clock(halves, begins=""):
    """A clock that stops by itself, so that the run ends; what else begins is set first."""
    return f"  initial begin clock = 0; {begins}repeat ({halves}) #1 clock = ~clock; end"


def module(lines):
    return "\n".join(["module tb;", *lines, "endmodule", ""]).encode()


def posting(clocks):
    """65 processes at one clock, each of which posts one update of its variable from its neighbour's."""
    names = [f"v{n}" for n in range(65)]
    lines = ["  reg clock;", f"  reg [7:0] {', '.join(names)};", clock(2 * clocks, "".join(f"{name} = 1; " for name in names))]
    return module(lines + [f"  always @(posedge clock) {name} <= {names[n - 1]} + 1;" for n, name in enumerate(names)])


def chain(halves):
    """240 nets, each of which turns over the one before it; the first is driven by a clock."""
    nets = [f"n{n}" for n in range(240)]
    lines = ["  reg clock;", f"  wire {', '.join(nets)};", clock(halves)]
    return module(lines + [f"  assign {net} = ~{before};" for before, net in zip(["clock", *nets], nets)])


def counter(clocks, sleeping=0):
    """A counter at a clock, beside processes that wait for what never comes."""
    lines = ["  reg clock, never;", "  reg [31:0] count, seen;", clock(2 * clocks, "count = 0; "), "  always @(posedge clock) count = count + 1;"]
    return module(lines + ["  always @(posedge never) seen = count;"] * sleeping)


def arithmetic(turns):
    return module([
        "  reg [63:0] a, b, c;", "  integer turn;",
        "  initial begin a = 64'h123456789abcdef; b = 3; c = 0;",
        f"    for (turn = 0; turn < {turns}; turn = turn + 1) begin",
        "      a = a * b + turn; b = (b << 1) ^ (a >> 7); c = c + a / 3 - (b & a);",
        "    end",
        "  end"])


def one_change(slots, variables):
    """The last of many variables that are dumped changes once a slot."""
    names = [f"v{n}" for n in range(variables)]
    begins = " ".join(f"{name} = 0;" for name in names)
    return module([f"  reg {', '.join(names)};", f"  initial begin $dumpvars; {begins} repeat ({slots}) #1 {names[-1]} = ~{names[-1]}; end"])


TOP = ["replay", "--top", "tb"]
STEPS = ["replay", "--steps", "1000000"]
OVER = []


def say(what, value, limit=None, vvp=None):
    """Tells a figure, with its limit and what `vvp` takes for the same where there are such."""
    if limit is not None and value > limit:
        OVER.append(what)
    print(f"{what}: {value:.1f}" + ("" if limit is None else f" (at most {limit})") + ("" if vvp is None else f"; vvp takes {vvp:.1f}"), flush=True)


def per_byte(program, short, long, words):
    return (counted(program, words, long)[0] - counted(program, words, short)[0]) / (len(long) - len(short))


def taken_by(program, text, *words):
    return counted(program, [*STEPS, *words], text)[0]


def steps_of(program, text, *words):
    told = subprocess.run([program, *STEPS, "--trace", *words], input=text, capture_output=True, check=True).stdout
    return sum(line.startswith(b"step ") for line in told.splitlines())


def say_each(program, what, text_of, few, many, limit=None, words=(), of_slots=False):
    """Tells what a step takes, or a slot: of a run of many turns, less that of a few."""
    short, long = text_of(few), text_of(many)
    more = many - few if of_slots else steps_of(program, long) - steps_of(program, short)
    taken = taken_by(program, long, *words) - taken_by(program, short, *words)
    say(f"instructions a {'slot' if of_slots else 'step'} of {what}", taken / more, limit, beside_vvp(short, long, more))


def reading(program):
    say("instructions a byte of ordinary text", per_byte(program, ordinary(500), ordinary(5500), TOP), 400)
    say("instructions a byte of text of the whole grammar", per_byte(program, of_units(WHOLE, 200), of_units(WHOLE, 2200), TOP), 400)
    text = of_units(WHOLE, 2200)
    say("bytes of memory a byte of it", peak_bytes(program, TOP, text) / len(text), 60)
    cut = [of_units(WHOLE, count) + b'"' for count in (200, 2200)]
    say("instructions a byte of it, up to its tokens", per_byte(program, *cut, TOP), 150)
    say("instructions a byte of blanks", per_byte(program, b" " * 100_000, b" " * 2_100_000, TOP), 150)
    text = ordinary(5500)
    say("bytes of memory a byte of text", peak_bytes(program, TOP, text) / len(text), 60)


def refusals(program):
    for name, piece in (("quotes", b'""'), ("line feeds", b"\n"), ("slashes with blanks", b"/ "), ("parentheses", b"(")):
        short, long = (piece * (count // len(piece)) for count in (100_000, 2_100_000))
        say(f"instructions a byte of {name}, refused", per_byte(program, short, long, TOP))


def steps(program):
    for name, statement, each in (("steps", "a = b; ", 1), ("updates of one time", "a <= b; ", 2)):
        taken = [taken_by(program, assignments(count, statement)) for count in (20_000, 40_000)]
        say(f"times the instructions for twice the {name}", taken[1] / taken[0], 2.2)
        say("instructions a step, the reading of its statement with it", (taken[1] - taken[0]) / (20_000 * each))


def of_shared(program):
    for name, head in (("each waits 1", "#1"), ("16 wait for a clock", "@(posedge clock)")):
        text = shared(head)
        taken, more = (of(program, text, "--until", "1200") - of(program, text, "--until", "200") for of in (taken_by, steps_of))
        say(f"instructions a step of 17 processes over 65 variables, {name}", taken / more, 6_000)


def clocked(program):
    say_each(program, "65 processes that post an update each at one clock", posting, 10, 50, 8_000)
    say_each(program, "a chain of 240 assignments", chain, 10, 50)
    say_each(program, "a counter", counter, 200, 900)
    for sleeping in 8, 64, 250:
        say_each(program, f"a counter beside {sleeping} sleeping processes", lambda clocks: counter(clocks, sleeping), 200, 900)
    say_each(program, "a loop of arithmetic on 64 bits", arithmetic, 1_000, 5_000)


def dumps(program):
    dumped, written = counted(program, STEPS, changes(20_000, True))
    plain, nothing = counted(program, STEPS, changes(20_000, False))
    say("instructions a byte of dump", (dumped - plain) / (len(written) - len(nothing)), 150)
    for variables in 10, 100, 1_000:
        say_each(program, f"one change among {variables} variables that are dumped", lambda slots: one_change(slots, variables), 1_000, 3_000, of_slots=True)


def lines(program):
    few, short = counted(program, STEPS + ["--lines"], printing(5_000))
    many, long = counted(program, STEPS + ["--lines"], printing(25_000))
    say("instructions a byte of printed lines", (many - few) / (len(long) - len(short)), 300)
    say_each(program, "a text that prints a line a step", printing, 5_000, 25_000, words=["--lines"])


def elaboration(program):
    for name, text in (("instances", instances), ("variables", assigned)):
        costs = [counted(program, TOP, text(count))[0] for count in (250, 500, 1000)]
        say(f"times the instructions for twice the {name}", (costs[2] - costs[1]) / (costs[1] - costs[0]), 2.2)
        say("instructions for one of them", (costs[2] - costs[1]) / 500)


def taken_by_cut(program, text, steps):
    words = ["replay", "--steps", str(steps)]
    if subprocess.run([program, *words], input=text, capture_output=True).returncode != 2:
        raise SystemExit(f"a run of less than {steps} steps isn't cut")
    return counted(program, words, text)[0]


def passes(program):
    """A replay without a dump, and what one pass over the same steps takes: `--steps` cuts it, and nothing is written then."""
    text, few, many = counter(2_000), 4_000, 14_000
    once = (taken_by_cut(program, text, many) - taken_by_cut(program, text, few)) / (many - few)
    short, long = counter(400), counter(1_400)
    whole = (taken_by(program, long) - taken_by(program, short)) / (steps_of(program, long) - steps_of(program, short))
    say("instructions a step of one pass over a counter, without a dump", once)
    say("instructions a step of its replay", whole)
    say("times those of one pass", whole / once)


PARTS = {"reading": reading, "refusals": refusals, "steps": steps, "shared": of_shared, "clocked": clocked, "dumps": dumps, "lines": lines,
         "elaboration": elaboration, "passes": passes}


def kept_by(part):
    """The part as one that answers whether nothing that it tells is over its limit."""
    def run(program):
        OVER.clear()
        part(program)
        return not OVER
    return run


if __name__ == "__main__":
    run_parts("vrace_program", {name: kept_by(part) for name, part in PARTS.items()})

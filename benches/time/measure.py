#!/usr/bin/env python3
"""Measures searches that go by time (`explore --memory`, and `races`): how long they take, and how much memory, as runs get longer.

- pipeline: the clocked pipeline of 14 stages of benches/races, 17 processes and 65 variables, over 100, 1,000 and 5,900 cycles, K = 1,
  which are as many as 1,000,000 steps have; and one of 4 stages over 100 and 10,000;
- races: the same by `races`, which holds back and looks at lines, over 100 and 1,000 cycles;
- queue: the queue of examples/fifo-two-clocks, into which words are pushed one after another, over 100, 1,000 and 10,000 words, K = 1,
  by departures that take and by ones that hold back;
- choices: instructions of a choice met, against those of the search by departures alone, on the texts of benches/races, by callgrind.

Usage: benches/time/measure.py [PATH_OF_vrace_program [PART..]]

Status 1 where the pipeline over 1,000 cycles takes more than 60 s of a processor or 100 MB, or isn't exhausted; where a longer run takes
more than 1.2 times the memory of the shortest; or where a choice takes more than 1.1 times as many instructions.
"""
import importlib.util
import os
import subprocess
import sys
import time
from pathlib import Path

sys.path.insert(0, str(Path(__file__).resolve().parents[1]))
from counting import counted, run_parts

TOP = Path(__file__).resolve().parents[1]
QUEUE = TOP.parent / "examples/fifo-two-clocks/tb.v"
MOST = "1000000"
MEMORY = "2000"


def races():
    """The texts of benches/races."""
    spec = importlib.util.spec_from_file_location("races", TOP / "races/measure.py")
    module = importlib.util.module_from_spec(spec)
    spec.loader.exec_module(module)
    return module


def queue(words):
    """The queue with a testbench that pushes so many words, one at each edge of the writing clock, where there is room."""
    module = QUEUE.read_text().split("module tb;")[0]
    return (module + f"""module tb;
  reg write_clock = 0, read_clock = 0, push = 1, pop = 1;
  reg [3:0] in = 0;
  wire [3:0] out;
  wire empty;
  fifo #(.WIDTH(4)) dut(write_clock, read_clock, push, pop, in, out, empty);
  always #6 write_clock = ~write_clock;
  always #4 read_clock = ~read_clock;
  always @(posedge write_clock) in <= in + 1;
  initial #{12 * words + 1} $finish;
endmodule
""").encode()


def words(command="explore", more=()):
    return [command, "--memory", MEMORY, "--steps", MOST, *more]


def measured(program, name, text, command="explore", more=()):
    """Processor seconds and megabytes at the peak of one search, and whether it was exhausted."""
    read, write = os.pipe()
    begun = time.monotonic()
    child = os.fork()
    if child == 0:
        os.dup2(os.open("/dev/null", os.O_WRONLY), 2)
        os.dup2(write, 1)
        run = os.memfd_create("text")
        os.write(run, text)
        os.lseek(run, 0, os.SEEK_SET)
        os.dup2(run, 0)
        os.closerange(3, 64)
        os.execv(program, [program, *words(command, more)])
    os.close(write)
    with os.fdopen(read, "rb") as told:
        report = told.read()
    _, _, used = os.wait4(child, 0)
    lines = report.decode(errors="replace").splitlines()
    state = next((line for line in lines if line.startswith(("state ", "No race"))), "no report")
    seconds, megabytes = used.ru_utime + used.ru_stime, used.ru_maxrss / 1024
    print("%s: %s, %.1f s of a processor, %.1f s in all, %.1f MB" % (name, state, seconds, time.monotonic() - begun, megabytes), flush=True)
    return seconds, megabytes, state == "state exhausted" or "Nothing was missed" in state


def measured_pipeline(program):
    text = races().pipeline
    kept = True
    for stages, lengths in (14, (100, 1_000, 5_900)), (4, (100, 10_000)):
        rows = [measured(program, "a pipeline of %d stages, %d cycles" % (stages, cycles), text(stages, cycles)) for cycles in lengths]
        kept = kept and all(row[2] and row[1] <= 1.2 * rows[0][1] for row in rows)
        kept = kept and (stages != 14 or rows[1][0] <= 60 and rows[1][1] <= 100)
    return kept


def measured_races(program):
    text = races().pipeline
    rows = [measured(program, "races of a pipeline of 14 stages, %d cycles" % cycles, text(14, cycles), "races") for cycles in (100, 1_000)]
    return all(row[2] and row[1] <= 1.2 * rows[0][1] for row in rows)


def measured_queue(program):
    kept = True
    for more in [], ["--hold"]:
        rows = [measured(program, " ".join(["a queue, %d words" % count, *more]), queue(count), more=more) for count in (100, 1_000, 10_000)]
        kept = kept and rows[-1][1] <= 1.2 * rows[0][1]
    return kept


def measured_choices(program):
    kept, module = True, races()
    shared = [subprocess.run([str(module.TEXT), str(count)], capture_output=True, check=True).stdout for count in (4, 8, 16)]
    texts = dict(zip(("4 processes", "8 processes", "16 processes"), shared), **{"a pipeline of 14 stages": module.pipeline(14, 4)})
    for name, text in texts.items():
        by_time, alone = (counted(program, ["explore", "--entries", MOST, *more], text)[0] for more in (["--memory", MEMORY], []))
        print("%s: by time %.2f times the instructions (at most 1.1)" % (name, by_time / alone), flush=True)
        kept = kept and by_time <= 1.1 * alone
    return kept


PARTS = {"pipeline": measured_pipeline, "races": measured_races, "queue": measured_queue, "choices": measured_choices}


if __name__ == "__main__":
    run_parts("vrace_program", PARTS)

#!/usr/bin/env python3
"""Measures what workers gain, and what they cost, on boards of n by 4 (the program explore_bench).

Usage: benches/workers/measure.py [PATH_OF_explore_bench]

- Wall time and processor time of 1, 2 and 4 workers on a board of 25,000 by 4 with 4 departures, the best of 5 runs each, as other work
  may run beside them: its ways have some 312 million forced steps, which workers walk each to its end.
- Instructions of one worker against those of `explore_alone`, by callgrind, on a board of 25,000 by 4 with 3 departures, where no way is
  long, so that what counts is the book.
- Bytes an entry at the peak there, by massif, beside its state (8 bytes) and its log (a list of its own, of up to 3 members of 8 bytes).

Status 1 where 4 workers are less than 3.0 times as fast as one, or 2 less than 1.7 times, where there are as many processors; where one
worker takes more than 1.3 times the instructions of `explore_alone`; or an entry more than 250 bytes.
"""
import os
import resource
import subprocess
import sys
import time
from pathlib import Path

sys.path.insert(0, str(Path(__file__).resolve().parents[1]))
from counting import counted, peak_bytes, program_of

RIGHT = 25_000
RUNS = 5
STATE, LOG = 8, 24


def words_of(depart, workers):
    return [str(RIGHT), str(depart), "4", "1000000", "1000000", str(workers)]


def is_answered(answer, depart):
    if answer != b"%d marks, exhausted\n" % (depart + 2):
        raise SystemExit("unexpected answer: " + answer.decode())


def timed(program, workers):
    """The least wall time of the runs, and the least processor time."""
    walls, spent = [], []
    for _ in range(RUNS):
        before, start = resource.getrusage(resource.RUSAGE_CHILDREN), time.monotonic()
        done = subprocess.run([program, *words_of(4, workers)], capture_output=True, check=True)
        after = resource.getrusage(resource.RUSAGE_CHILDREN)
        is_answered(done.stdout, 4)
        walls.append(time.monotonic() - start)
        spent.append(after.ru_utime + after.ru_stime - before.ru_utime - before.ru_stime)
    return min(walls), min(spent)


def instructions(program, workers):
    count, answer = counted(program, words_of(3, workers))
    is_answered(answer, 3)
    return count


def main():
    program = program_of("explore_bench")
    one, _ = timed(program, 1)
    kept = True
    for workers, wanted in (1, 1.0), (2, 1.7), (4, 3.0):
        wall, spent = timed(program, workers)
        enough = len(os.sched_getaffinity(0)) >= workers
        print("%d workers: %.2f s, %.2f s of processors, %.2f times as fast as one (at least %.1f)%s"
              % (workers, wall, spent, one / wall, wanted, "" if enough else ", too few processors to tell"))
        kept = kept and (workers == 1 or not enough or one / wall >= wanted)
    alone, worker = instructions(program, 0), instructions(program, 1)
    print("one worker: %d instructions, %.2f times those of explore_alone, %d (at most 1.3)" % (worker, worker / alone, alone))
    per_entry = peak_bytes(program, words_of(3, 1)) / (4 * RIGHT + 1) - STATE - LOG
    print("at the peak %.0f bytes an entry beside state and log (at most 250)" % per_entry)
    return 0 if kept and worker <= 1.3 * alone and per_entry <= 250 else 1


if __name__ == "__main__":
    sys.exit(main())

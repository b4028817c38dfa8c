#!/usr/bin/env python3
"""Counts what `explore_alone` costs on boards of 2,500 and 25,000 by 4.

Usage: benches/explore/measure.py [PATH_OF_explore_bench]

With 4 departures a board of n by 4 has 4n + 2 entries, and 8n + 1 choices are met. Each square (x, 3) also leads to (x, 4) and
from there by n - x forced steps to (n, 4): about n * n / 2 steps, if each way were walked to its end. With 3 departures no way
is long, and 7n choices are met. Instructions are counted by callgrind, bytes by massif at the peak. Status 1 where a choice
costs more than 3,000 instructions, the larger board more than 11 times those of the smaller, or an entry more than 200 bytes
beside its state (8 bytes) and its log (a list of its own, of up to 4 members of 8 bytes).
"""
import sys
from pathlib import Path

sys.path.insert(0, str(Path(__file__).resolve().parents[1]))
from counting import counted, peak_bytes, program_of

SMALL, LARGE = 2_500, 25_000
STATE, LOG = 8, 32


def instructions(program, right, depart):
    count, answer = counted(program, [str(right), str(depart)])
    if answer != b"%d marks, exhausted\n" % (depart + 2):
        raise SystemExit("unexpected answer: " + answer.decode())
    return count


def main():
    program = program_of("explore_bench")
    kept = True
    for depart, choices in (3, lambda n: 7 * n), (4, lambda n: 8 * n + 1):
        small, large = instructions(program, SMALL, depart), instructions(program, LARGE, depart)
        per_choice, growth = large / choices(LARGE), large / small
        print("%d by 4, %d departures: %d instructions, %.0f a choice" % (SMALL, depart, small, small / choices(SMALL)))
        print("%d by 4, %d departures: %d instructions, %.0f a choice (at most 3000)" % (LARGE, depart, large, per_choice))
        print("growth: %.2f times (at most 11)" % growth)
        kept = kept and per_choice <= 3000 and growth <= 11
    per_entry = peak_bytes(program, [str(LARGE), "4"]) / (4 * LARGE + 2) - STATE - LOG
    print("at the peak %.0f bytes an entry beside state and log (at most 200)" % per_entry)
    return 0 if kept and per_entry <= 200 else 1


if __name__ == "__main__":
    sys.exit(main())

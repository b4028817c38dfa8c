#!/usr/bin/env python3
"""What waivers cost: a testbench in which COUNT variables differ by one race, and files of COUNT waivers of four kinds:

- lines: each by two lines, none of which are those of the race;
- names: each by the name of a variable;
- patterns: each a pattern of its own with two stars, which matches one of the names or some;
- digits: each by the digits of its number between stars, which match many names.

Usage: benches/waivers/measure.py PATH_OF_vrace_program [COUNT]

COUNT is 1,000 where it isn't said. Seconds are those of the processor that `races` takes with the file beside those of `races --all` without
one, the least of three calls each: both keep the names of all variables that differ. Status 1 where a file takes more than 2 seconds.
"""
import resource
import subprocess
import sys
import tempfile
from pathlib import Path

KINDS = ("lines", "names", "patterns", "digits")


def name_of(count, place):
    return f"b{place}_{place * 7919 % count}"


def text(count):
    """A process that writes a variable, and one that reads it into COUNT others."""
    lines = ["module tb;", "  reg a = 0;", "  initial #5 a = 1;", "  initial begin", "    #5 ;"]
    lines += [f"    {name_of(count, place)} = a;" for place in range(count)]
    names = [f"  reg {name_of(count, place)};" for place in range(count)]
    return "\n".join([lines[0], *names, *lines[1:], "  end", "  initial #9 $finish;", "endmodule", ""])


def waiver(kind, count, place):
    """The waiver of a kind at this place of a file."""
    if kind == "lines":
        return f"tb.v:{place + 1} tb.v:{count + place}"
    if kind == "names":
        return f"variable tb.{name_of(count, place)}"
    if kind == "patterns":
        return f"variable *{place}_{place * 7919 % count // 10}*"
    return "variable *" + "".join(f"{digit}*" for digit in str(place))


def spent():
    """The seconds of the processor that calls took so far."""
    used = resource.getrusage(resource.RUSAGE_CHILDREN)
    return used.ru_utime + used.ru_stime


def seconds(words, folder):
    """The least of three calls, and what the last one said."""
    least = None
    for _ in range(3):
        begun = spent()
        done = subprocess.run(words, cwd=folder, capture_output=True, text=True)
        took = spent() - begun
        least = took if least is None else min(least, took)
    return least, done


def main():
    program, count = str(Path(sys.argv[1]).resolve()), int(sys.argv[2]) if len(sys.argv) > 2 else 1000
    failed = False
    with tempfile.TemporaryDirectory() as name:
        folder = Path(name)
        (folder / "tb.v").write_text(text(count))
        for kind in KINDS:
            (folder / kind).write_text("".join(f"{waiver(kind, count, place)} # known\n" for place in range(count)))
        without, done = seconds([program, "races", "--all", "tb.v"], folder)
        print(f"{count} names, without waivers: {without:.2f} s; {done.stdout.splitlines()[-1]}", flush=True)
        for kind in KINDS:
            took, done = seconds([program, "races", "--waive", kind, "tb.v"], folder)
            print(f"{count} waivers by {kind}: {took - without:.2f} s more, status {done.returncode}", flush=True)
            failed |= took - without > 2
    sys.exit(failed)


main()

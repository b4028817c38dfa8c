#!/usr/bin/env python3
"""What the words of refusals cost: `vrace races` on texts of COUNT pieces and of twice as many, of these kinds:

- modules: instances of as many modules that aren't there, in one line;
- names: assignments to half as many names that aren't declared, in one line;
- words: as many assignments without a fault, and a word too many at the end;
- macros: a macro of 2^17 words, and behind it, for each hundred of COUNT, a macro that isn't there.

Usage: benches/refusals/measure.py PATH_OF_vrace_program [COUNT]

COUNT is 10,000 where it isn't said. Seconds are those of the processor, the least of three calls. Status 1 where a kind takes more than three
times as long for twice as many.
"""
import resource
import subprocess
import sys
import tempfile
from pathlib import Path


def modules(count):
    return "module tb;\n" + " ".join(f"m{n} u{n}();" for n in range(count)) + "\nendmodule\n"


def names(count):
    return "module tb;\ninitial begin " + " ".join(f"a{n} = 1;" for n in range(count // 2)) + " end\nendmodule\n"


def words(count):
    return "module tb; reg a;\ninitial begin\n" + "a = 1; // nothing\n" * count + "end\nendmodule x\n"


def macros(count):
    doubles = "".join(f"`define M{n} `M{n - 1} `M{n - 1}\n" for n in range(1, 18))
    return f"`define M0 ;\n{doubles}module tb; initial begin `M17 end\n" + "".join(f"`X{n}\n" for n in range(count // 100)) + "endmodule\n"


def spent():
    used = resource.getrusage(resource.RUSAGE_CHILDREN)
    return used.ru_utime + used.ru_stime


def seconds(program, folder, text):
    """The least of three calls."""
    (Path(folder) / "tb.v").write_text(text)
    least = None
    for _ in range(3):
        begun = spent()
        done = subprocess.run([program, "races", "tb.v"], cwd=folder, capture_output=True)
        if done.returncode != 2:
            sys.exit(f"the text isn't refused: status {done.returncode}")
        took = spent() - begun
        least = took if least is None else min(least, took)
    return least, len(done.stderr)


def main():
    if len(sys.argv) not in (2, 3):
        sys.exit(__doc__)
    program = str(Path(sys.argv[1]).resolve())
    count = int(sys.argv[2]) if len(sys.argv) > 2 else 10_000
    is_square = False
    with tempfile.TemporaryDirectory() as folder:
        for kind, of in (("modules", modules), ("names", names), ("words", words), ("macros", macros)):
            one, more = (seconds(program, folder, of(n * count)) for n in (1, 2))
            is_square |= more[0] > 3 * one[0]
            print(f"{kind}: {one[0]:.2f} s, {more[0]:.2f} s for twice as many, {more[1]} bytes are told")
    sys.exit(is_square)


main()

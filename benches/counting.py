"""What the measures of this folder share: where the program is, and what it costs."""
import re
import shutil
import subprocess
import sys
import tempfile
from pathlib import Path


def program_of(crate):
    """The program that the first word names, or the one that the crate built. Ends the measure where there is no valgrind."""
    if shutil.which("valgrind") is None:
        print("benches: skipped, valgrind is not installed")
        sys.exit(0)
    if len(sys.argv) > 1:
        return sys.argv[1]
    return str(Path(__file__).resolve().parents[1] / "crates" / crate / "out" / crate)


def run_parts(crate, parts):
    """Runs the parts that the words after the program's path name, or all of them, each of which answers whether its limits hold. Ends
    the measure: with status 0 where all hold."""
    program = program_of(crate)
    named = sys.argv[2:] or list(parts)
    unknown = [name for name in named if name not in parts]
    if unknown:
        sys.exit(f"no part is named {', '.join(unknown)}; there are {', '.join(parts)}")
    kept = [parts[name](program) for name in named]
    sys.exit(0 if all(kept) else 1)


def counted(program, words, text=b"", at=None):
    """Instructions by callgrind, and standard output; of a run in the folder `at`, where one is given."""
    with tempfile.TemporaryDirectory() as folder:
        run = subprocess.run(
            ["valgrind", "--tool=callgrind", f"--callgrind-out-file={folder}/out", program, *words],
            input=text, capture_output=True, check=False, cwd=at)
    return int(re.search(rb"Collected : (\d+)", run.stderr).group(1)), run.stdout


def counted_by_vvp(text):
    """Instructions by callgrind that the `vvp` of Icarus Verilog takes to run a text; None where it isn't installed."""
    if shutil.which("iverilog") is None or shutil.which("vvp") is None:
        return None
    with tempfile.TemporaryDirectory() as folder:
        Path(folder, "tb.v").write_bytes(text)
        subprocess.run(["iverilog", "-g2005", "-s", "tb", "-o", "tb", "tb.v"], cwd=folder, capture_output=True, check=True)
        return counted("vvp", ["-n", "tb"], at=folder)[0]


def beside_vvp(short, long, more):
    """What `vvp` takes for each of the `more` steps that the run of one text has more than that of another; None where it isn't installed."""
    few = counted_by_vvp(short)
    return None if few is None else (counted_by_vvp(long) - few) / more


def counted_in(program, words, text, names):
    """Instructions by callgrind of these functions of the program, with all that they call; 0 of one that isn't called."""
    with tempfile.TemporaryDirectory() as folder:
        subprocess.run(
            ["valgrind", "--tool=callgrind", f"--callgrind-out-file={folder}/out", program, *words],
            input=text, capture_output=True, check=False)
        told = subprocess.run(
            ["callgrind_annotate", "--inclusive=yes", "--threshold=100", f"{folder}/out"], capture_output=True, text=True, check=True).stdout
    rows = re.findall(r"^ *([\d,]+) .*\?\?\?:(\S+)", told, re.MULTILINE)
    return [sum(int(count.replace(",", "")) for count, row in rows if row.startswith(name)) for name in names]


def peak_bytes(program, words, text=b""):
    """Bytes of the heap at the peak, by massif."""
    with tempfile.TemporaryDirectory() as folder:
        subprocess.run(
            ["valgrind", "--tool=massif", f"--massif-out-file={folder}/out", program, *words],
            input=text, capture_output=True, check=False)
        told = Path(folder, "out").read_text()
    return max(int(heap) for heap in re.findall(r"mem_heap_B=(\d+)", told))

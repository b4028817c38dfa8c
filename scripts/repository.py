"""What the scripts know of this repository: its crates, and how to copy it."""
import shutil
import subprocess
from pathlib import Path

ROOT = Path(__file__).resolve().parents[1]


def listed():
    """Each crate's name, in the order of crates.txt, with all libraries that it lists there."""
    lines = (line.split("#")[0].split(":") for line in (ROOT / "crates.txt").read_text().splitlines())
    return {words[0].split()[0]: words[1].split() for words in lines if len(words) == 2}


def crates():
    """Each crate's name, lowest first, with the crates of this repository that it uses."""
    uses = listed()
    order = []

    def put(name):
        if name in uses and name not in order:
            for below in uses[name]:
                put(below)
            order.append(name)

    for name in uses:
        put(name)
    return {name: [below for below in uses[name] if below in uses] for name in order}


def needed(named, uses):
    """The crates that are named and all that they stand on, lowest first."""
    found = set(named)
    for name in reversed(uses):
        if name in found:
            found.update(uses[name])
    return [name for name in uses if name in found]


def edits():
    """Each wrong body: the crate whose body it is, and its file. Those of the gate come first."""
    for place, part in (("crates/*/must-fail/*.edit", 1), ("tests/planted/*/*.edit", 2)):
        for edit in sorted(ROOT.glob(place)):
            yield edit.relative_to(ROOT).parts[part], edit


def copied(room):
    """Copies the repository's files into the folder, and nothing that checks kept."""
    told = subprocess.run(["git", "ls-files", "-coz", "--exclude-standard"], cwd=ROOT, check=True, capture_output=True, text=True)
    for name in filter(None, told.stdout.split("\0")):
        if (ROOT / name).is_file():
            (room / name).parent.mkdir(parents=True, exist_ok=True)
            shutil.copy2(ROOT / name, room / name)

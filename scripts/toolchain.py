"""The command `rt` as a module, for scripts that ask it about crates; and what was proved on this machine, by the sums of sources."""
import hashlib
import importlib.machinery
import importlib.util
import os
import shutil
import subprocess
import sys
from pathlib import Path

KEPT = Path(os.environ.get("XDG_CACHE_HOME") or Path.home() / ".cache") / "vrace-proved"


def loaded():
    """The command `rt` as a module."""
    sys.dont_write_bytecode = True
    loader = importlib.machinery.SourceFileLoader("rt_command", shutil.which("rt"))
    module = importlib.util.module_from_spec(importlib.util.spec_from_loader("rt_command", loader))
    loader.exec_module(module)
    return module


def sum_once(rt):
    """Has `rt` work out each crate's sum once. By itself it does so anew for each way from a crate to one below it, and these are too many."""
    sums, library = {}, rt.rtlib

    def stamp(crate):
        if crate.folder not in sums:
            made = hashlib.sha256(repr((crate.said, crate.has_c)).encode())
            made.update(Path(library.KIT, "WHAT").read_bytes())
            for file in library.files_of(crate.folder):
                made.update(repr((file.replace(crate.folder, ""), Path(file).read_bytes())).encode())
            made.update(repr([stamp(below) for below in crate.deps]).encode())
            sums[crate.folder] = made.hexdigest()
        return sums[crate.folder]

    library.Crate.stamp = stamp
    rt.Crate.stamp = stamp
    return sums


def crates_as_gate(rt, root):
    """The crates as `rt ci` proves them, each over the statements of those below it, lowest first."""
    rt.rtlib.guarded()
    rt.Crate.cuts_libraries = True
    rt.Crate.allowed = rt.handles_of(root)
    rt.rtlib.Crate = rt.Crate
    made = rt.Crate.__init__

    def make(self, *given, **named):
        made(self, *given, **named)
        rt.read_files(self)

    rt.Crate.__init__ = make
    return sorted(rt.rtlib.crates_below(root), key=lambda crate: len(crate.below()))


def copied(source, target):
    """A copy by links: what a check makes anew it writes to files of its own."""
    shutil.rmtree(target, ignore_errors=True)
    subprocess.run(["cp", "-al", source, target], check=True)


def keep(crate, programs):
    """Keeps what a check of the crate made, under the sum of its sources. What was kept before stays."""
    place = KEPT / crate.stamp()
    if place.is_dir():
        return
    room = Path(f"{place}.{os.getpid()}")
    shutil.rmtree(room, ignore_errors=True)
    room.mkdir(parents=True)
    if crate.makes_rlib():
        copied(crate.rlib, room / "rlib")
    for name in programs:
        if Path(crate.folder, "out", name).is_file():
            shutil.copy2(f"{crate.folder}/out/{name}", room / name)
    try:
        room.rename(place)
    except OSError:
        shutil.rmtree(room, ignore_errors=True)


def lay(crate):
    """Lays what is kept of the crate into its folder `out`, where `rt` finds it. Answers whether something is kept."""
    place, out = KEPT / crate.stamp(), Path(crate.folder, "out")
    if not place.is_dir():
        return False
    out.mkdir(exist_ok=True)
    if not crate.makes_rlib():
        for file in place.iterdir():
            shutil.copy2(file, out / file.name)
        return True
    stamp = out / "rlib" / "stamp"
    if not (Path(crate.rlib).is_dir() and stamp.is_file() and stamp.read_text() == crate.stamp()):
        shutil.rmtree(out / "rlib", ignore_errors=True)
        (out / "rlib").mkdir()
        copied(place / "rlib", crate.rlib)
        stamp.write_text(crate.stamp())
    return True

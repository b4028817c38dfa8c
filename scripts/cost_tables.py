"""What the gate cost: the tables that `scripts/costs run` writes, and the longest chain of crates by one of them."""
from repository import ROOT

TABLES = ROOT / "benches" / "gate"
KINDS = ("proof", "edits", "compiling", "script")


def read(table):
    """The lines above a table, and its rows."""
    lines = (TABLES / f"{table}.tsv").read_text().splitlines()
    head = [line.removeprefix("# ") for line in lines if line.startswith("#")]
    rows = [line.split("\t") for line in lines if not line.startswith("#")][1:]
    return head, {row[0]: dict(zip(KINDS, map(float, row[1:]))) for row in rows}


def newest():
    tables = sorted(TABLES.glob("*.tsv"), key=lambda file: (file.read_text().splitlines()[:1], file.stat().st_mtime))
    return tables[-1].stem if tables else None


def chain(uses, rows):
    """The crates of the longest chain by the seconds of their proofs, lowest first, with its length."""
    best = {}
    for name in uses:
        own = rows.get(name, {}).get("proof", 0)
        before = max((best[below] for below in uses[name]), default=(0, []))
        best[name] = (before[0] + own, [*before[1], name])
    return max(best.values(), default=(0, []))

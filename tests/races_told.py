"""The text of `vrace races` (docs/RACES.md, "The races of a testbench"), as far as it tells the groups of differences."""
import re
from dataclasses import dataclass

NAME = r"(\S+) is .* at (\w+)|prints .* at (\w+)"


@dataclass
class Told:
    """A race: its first difference, as it is named where it follows; the places of the two statements, and of the two steps that touch one
    thing, which a connection or an `assign` may be; and what else is named."""
    first: str
    statements: list
    steps: list
    more: list


def name_of(head):
    """The name of a difference of a variable or of lines; none of ends."""
    found = re.fullmatch(NAME, head)
    if not found or re.search(r" ends the run at \w+$", head):
        return None
    variable, time, line_time = found.groups()
    return f"lines at {line_time}" if line_time else f"{variable} at {time}"


def rows_in(lines):
    """The lines that show a statement, without that of one that ends the run."""
    return [line for line in lines if re.match(r"    (\S+:\d+:\d+|-) ", line) and not line.endswith("ends the run")]


def statements_in(rows):
    """The places of the two statements, without that of a connection or an `assign` that one drives."""
    return [row.split()[0] for before, row in zip(["", *rows], rows) if not before.endswith("drives:")]


def steps_in(rows):
    """The places of what touches one thing, without that of a statement that drives it."""
    return [row.split()[0] for row in rows if not row.endswith("drives:")]


def races_told(text):
    """The races of the text."""
    for part in re.split(r"^race \d+: ", text, flags=re.M)[1:]:
        head, *lines = part.splitlines()
        rows = rows_in(lines)
        yield Told(name_of(head), statements_in(rows), steps_in(rows), [line.strip() for line in lines if line.startswith(" " * 8)])

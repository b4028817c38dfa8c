#!/usr/bin/env python3
"""Counts the instructions of each operator of `vbits` by callgrind, over the program crate vbits_bench.

Usage: benches/vbits/measure.py [PATH_OF_vbits_bench]

The cost of an operator is the difference between many turns and few, less that of a turn that only copies
its operand, divided by the turns. It is an average over lengths 1, 4, 8, 31, 32, 33, 63, 64, half of the
operands signed. Status 1 where one is over its limit.
"""
import sys
from pathlib import Path

sys.path.insert(0, str(Path(__file__).resolve().parents[1]))
from counting import counted, program_of

FEW, MANY = 800, 8800
LIMITS = {name: 60 for name in (
    "add sub neg and or xor xnor not join eq ne case_eq case_ne lt le gt ge reduce_and reduce_or reduce_xor truth "
    "shl shr ashr select put concat resize to_u64").split()}
LIMITS.update({"mul": 150, "div": 150, "rem": 150})


def per_turn(program, operator):
    many, few = (counted(program, ["repeat", operator, str(turns)])[0] for turns in (MANY, FEW))
    return (many - few) / (MANY - FEW)


def main():
    program = program_of("vbits_bench")
    copies = {}
    over = 0
    for operator, limit in LIMITS.items():
        base = "copy_free" if operator in ("shl", "shr", "ashr", "put", "concat") else "copy"
        if base not in copies:
            copies[base] = per_turn(program, base)
        cost = per_turn(program, operator) - copies[base]
        mark = "" if cost <= limit else "  over"
        over += cost > limit
        print("%-10s %6.1f of %d%s" % (operator, cost, limit, mark))
    return 1 if over else 0


if __name__ == "__main__":
    sys.exit(main())

#!/usr/bin/env python3
"""Writes a thin script of some 16 MB with 400,000 commands, as a benchmark:

    python3 examples/large.py > large.smt2 && time ./fmf solve large.smt2
"""

SORTS = 200
CONSTANTS = 199_600
EQUATIONS = 199_600

for s in range(SORTS):
    print(f"(declare-sort a-sort-with-a-long-name-{s:06} 0)")
for c in range(CONSTANTS):
    print(f"(declare-const c{c:06} a-sort-with-a-long-name-{c % SORTS:06})")
for c in range(EQUATIONS):
    print(f"(assert (= c{c:06} c{(c + SORTS) % CONSTANTS if c + SORTS < CONSTANTS else c:06}))")
print("(check-sat)")

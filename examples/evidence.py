#!/usr/bin/env python3
"""Writes a script and a certificate for it, with which checking is measured: evidence.py SCRIPT CERT [LINES].

A thousand constants are equal in a row. The certificate has so many lines `e`, each by congruence, and as many resolutions of
these with the equations, and ends with no answer."""
import sys

script, cert = sys.argv[1:3]
lines = int(sys.argv[3]) if len(sys.argv) > 3 else 100_000
count = 1000
with open(script, "w") as out:
    out.write("(declare-sort U 0)\n")
    for i in range(count):
        out.write(f"(declare-const c{i} U)\n")
    out.write("(declare-fun f (U) U)\n")
    for i in range(count - 1):
        out.write(f"(assert (= c{i} c{i + 1}))\n")
    out.write("(check-sat)\n")
with open(cert, "w") as out:
    out.write("fmfcert 1\nb 0\n")
    for i in range(count):
        out.write(f"t {i}\n")
    for i in range(count):
        out.write(f"t {count} {i}\n")
    for i in range(count - 1):
        out.write(f"i {i}\n")
    for k in range(lines):
        i = k % (count - 1)
        out.write(f"e -E{i},{i + 1} +E{count + i},{count + i + 1} /\n")
    for k in range(lines):
        i = k % (count - 1)
        out.write(f"r {count - 1 + k} -E{i},{i + 1} {i}\n")
    out.write("q unknown 0 0\n")

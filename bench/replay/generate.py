#!/usr/bin/env python3
"""Writes a generated build: a manifest, a trace that plans it, starts and finishes each edge, and scripts.

    generate.py EDGES HEADERS PREFIX

Each edge has 20 inputs; with HEADERS above 0 each finish lists so many headers. PREFIX.read reads and runs nothing,
PREFIX.run runs the trace, PREFIX.ask runs it and lists marks, stamps and logs.
"""
import sys

edges, headers, prefix = int(sys.argv[1]), int(sys.argv[2]), sys.argv[3]
with open(f"{prefix}.ninja", "w") as manifest:
    manifest.write("rule cc\n  command = cc $in -o $out\n" + ("  deps = gcc\n" if headers else ""))
    for edge in range(edges):
        shared = " ".join(f"h{(edge * 7 + k) % 1000}" for k in range(19))
        manifest.write(f"build o{edge}: cc s{edge} {shared}\n")
with open(f"{prefix}.trace", "w") as trace:
    trace.write("rebug-trace 1\njobs 4\n")
    for k in range(1000):
        trace.write(f"stamp h{k} 5\n")
    for edge in range(edges):
        trace.write(f"stamp s{edge} 5\n")
    for k in range(headers):
        trace.write(f"stamp inc/d{k} 5\n")
    trace.write("lane 0\nplan\n")
    listing = " list " + " ".join(f"inc/d{k}" for k in range(headers)) if headers else ""
    for edge in range(edges):
        trace.write(f"start o{edge} {edge % 4}\nfinish o{edge} {10 + edge}{listing}\n")
for ending, words in (("read", ""), ("run", "run\n"), ("ask", "run\nmarks\nstamps\nlogs\n")):
    with open(f"{prefix}.{ending}", "w") as script:
        script.write(words)

#!/usr/bin/env python3
"""Draws who ran what: trace_picture.py TRACE GRAPH >PICTURE.dot

TRACE has a line `worker K F F ..` for each worker, with the frames that it ran in its order. GRAPH is what
`osview graph PROGRAM INPUT --activations A..B` writes. The picture has a row for each worker, with the boxes of the activations
that it ran, in its order; boxes that no worker ran, and those outside of A..B, stand where Graphviz puts them."""
import re
import sys


def rows_of(trace):
    """The frames of each worker, in its order."""
    rows = []
    for number, line in enumerate(trace.splitlines(), 1):
        words = line.split()
        if len(words) < 2 or words[0] != "worker" or not all(word.isdigit() for word in words[1:]):
            sys.exit(f"line {number} of the trace isn't a worker's")
        rows.append((int(words[1]), [int(word) for word in words[2:]]))
    return rows


def picture(trace, graph):
    """The graph, with a row for each worker behind its own lines."""
    lines = graph.splitlines()
    if not lines or lines[0] != "digraph activations {" or lines[-1] != "}":
        sys.exit("the graph isn't one of activations")
    boxes = {int(found.group(1)) for line in lines if (found := re.match(r"  a(\d+) \[label=", line))}
    told = [lines[0], "  newrank=true;"] + lines[1:-1]
    for worker, frames in rows_of(trace):
        shown = [frame for frame in frames if frame in boxes]
        names = [f"worker{worker}"] + [f"a{frame}" for frame in shown]
        told.append(f'  worker{worker} [shape=plaintext, label="worker {worker}"];')
        told.append("  { rank=same; " + " ".join(f"{name};" for name in names) + " }")
        if len(names) > 1:
            told.append("  " + " -> ".join(names) + " [style=invis, constraint=true];")
    return "\n".join(told + ["}", ""])


def main():
    if len(sys.argv) != 3:
        sys.exit("usage: trace_picture.py TRACE GRAPH >PICTURE.dot")
    with open(sys.argv[1], encoding="ascii") as trace, open(sys.argv[2], encoding="utf-8") as graph:
        sys.stdout.write(picture(trace.read(), graph.read()))


main()

#!/usr/bin/env python3
"""Draws the automaton of a pattern: reads what `cep explain` prints and writes it in Graphviz's language.

cep explain PATTERN | tools/draw.py | dot -Tsvg >automaton.svg
"""
import re
import sys

LOOKS = {"none": "bold", "other": "solid", "all": "dashed"}
STATE = re.compile(r"state (\d+) (\S+#\d+\+?)( full)?")
WAIT = re.compile(r"  proceed take (\S+#\d+\+?) ignore (none|other|all)( chain)?(.*)")
CLOSE = re.compile(r"  proceed close(.*)")


def quoted(text):
    return '"' + text.replace("\\", "\\\\").replace('"', '\\"') + '"'


def main():
    lines = sys.stdin.read().splitlines()
    if len(lines) < 2 or not lines[0].startswith("states ") or lines[1] != "start":
        sys.exit("draw.py: this is not what `cep explain` prints")
    print("digraph automaton {\n  rankdir=LR;\n  node [shape=circle];\n  start [shape=point];")
    state = "start"
    for line in lines[2:]:
        if found := STATE.fullmatch(line):
            state = quoted(found[2])
            print(f"  {state}{' [shape=doublecircle]' if found[3] else ''};")
        elif found := WAIT.fullmatch(line):
            label = "ignore " + found[2] + (found[3] or "") + found[4].replace(" not", "\nnot")
            print(f"  {state} -> {quoted(found[1])} [style={LOOKS[found[2]]}, label={quoted(label)}];".replace("\n", "\\n"))
        elif found := CLOSE.fullmatch(line):
            # the end has no name of a state, since none is `close` without a count
            label = "at the limit" + found[1].replace(" not", "\nnot")
            print("  close [shape=doublecircle];")
            print(f"  {state} -> close [style=dashed, label={quoted(label)}];".replace("\n", "\\n"))
        else:
            sys.exit(f"draw.py: this is not what `cep explain` prints: {line}")
    print("}")


if __name__ == "__main__":
    main()

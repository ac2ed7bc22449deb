#!/usr/bin/env python3
"""Runs a command over a file and prints its seconds, processor seconds, greatest memory in MB and the number of lines that it printed.

usage: measured.py INPUT COMMAND [WORD ..]
"""
import resource
import subprocess
import sys
import time


def main():
    with open(sys.argv[1], "rb") as rows:
        start = time.monotonic()
        run = subprocess.Popen(sys.argv[2:], stdin=rows, stdout=subprocess.PIPE)
        lines = sum(piece.count(b"\n") for piece in iter(lambda: run.stdout.read(1 << 16), b""))
        status = run.wait()
    seconds = time.monotonic() - start
    used = resource.getrusage(resource.RUSAGE_CHILDREN)
    print(f"{seconds:.2f} s, {used.ru_utime + used.ru_stime:.2f} processor s, {used.ru_maxrss // 1024} MB, {lines} lines" + (f", status {status}" if status else ""))


if __name__ == "__main__":
    main()

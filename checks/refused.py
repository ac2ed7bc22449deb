#!/usr/bin/env python3
"""Refuses memory, reads and writes of the built program call by call, over the examples, and looks at how it ends.

A small library (refuse.c), loaded before the program, answers no memory at one allocation or from one on, and lets one read of the
input or of the pattern, or one write of the output or of the fault line, fail; reads and writes are short besides. Each run must end
with the status, the fault line and the output, or a front of it, that docs/FORMATS.md has.
usage: refused.py PROGRAM [MOST [SEED]]    tries at most so many calls of a kind in a run, 40 where it isn't said; 0 tries all
"""
import os
import random
import shutil
import subprocess
import sys
import tempfile

HERE = os.path.dirname(os.path.abspath(__file__))
EXAMPLES = os.path.join(os.path.dirname(HERE), "examples")
KINDS = ["allocations", "inputs", "files", "outputs", "notes"]
NO_MEMORY, PATTERN_FAULT, READ_FAULT, WRITE_FAULT = 1, 3, 7, 8
FAULTS = {
    NO_MEMORY: b"cep: no memory\n",
    PATTERN_FAULT: b"cep: cannot read the pattern\n",
    READ_FAULT: b"cep: cannot read the input\n",
    WRITE_FAULT: b"cep: cannot write the output\n",
}


class Wrong(Exception):
    """An end that no page allows."""


class Case:
    def __init__(self, program, library, folder, name, words, rows):
        self.program, self.library, self.counts = program, library, os.path.join(folder, "counts")
        self.name, self.words, self.rows = name, words, rows

    def run(self, **told):
        """The status, the output and the fault line, with these calls refused, and how many calls there were."""
        if os.path.exists(self.counts):
            os.remove(self.counts)
        given = dict(os.environ, LD_PRELOAD=self.library, REFUSE_COUNTS=self.counts, **{key: str(value) for key, value in told.items()})
        done = subprocess.run([self.program] + self.words, input=self.rows, capture_output=True, env=given, timeout=60)
        calls = dict(zip(KINDS, map(int, open(self.counts).read().split()))) if os.path.exists(self.counts) else {}
        return done, calls

    def must(self, holds, told, done):
        if not holds:
            raise Wrong(f"{self.name}, {told}: status {done.returncode}, {done.stdout[-200:]!r}, {done.stderr!r}")

    def ends(self, statuses, told, whole):
        """The run is done as a whole, or ends in one of the statuses with a front of the output and the whole fault line."""
        done, _ = self.run(**told)
        if done.returncode == 0:
            self.must(done.stdout == whole and not done.stderr, told, done)
        else:
            self.must(done.returncode in statuses and done.stderr == FAULTS[done.returncode] and whole.startswith(done.stdout), told, done)
        return done


def chosen(count, most, dice):
    """Call numbers from 1 on: all, or as many of them as are tried, with the first and the last."""
    if not most or count <= most:
        return range(1, count + 1)
    return sorted({1, count} | set(dice.sample(range(1, count + 1), most - 2)))


def sweep(case, most, dice, seen):
    done, calls = case.run()
    case.must(done.returncode == 0 and not done.stderr and calls, "nothing refused", done)
    whole = done.stdout

    def ends(told, *statuses):
        done = case.ends(statuses, told, whole)
        seen[done.returncode] = seen.get(done.returncode, 0) + 1
        return done

    for number in chosen(calls["allocations"], most, dice):
        ends({"REFUSE_ALLOCATION": number}, NO_MEMORY)
        done = ends({"REFUSE_FROM": number}, NO_MEMORY)
        case.must(done.returncode == NO_MEMORY, f"no memory from {number} on", done)
    for number in chosen(calls["inputs"], most, dice):
        done = ends({"FAIL_INPUT": number}, READ_FAULT)
        case.must(done.returncode == READ_FAULT, f"input {number} failed", done)
    for number in chosen(calls["files"], most, dice):
        done = ends({"FAIL_FILE": number}, PATTERN_FAULT)
        case.must(done.returncode == PATTERN_FAULT and not done.stdout, f"pattern {number} failed", done)
    for number in chosen(calls["outputs"], most, dice):
        done = ends({"FAIL_OUTPUT": number}, WRITE_FAULT)
        case.must(done.returncode == WRITE_FAULT, f"output {number} failed", done)
    for told in ({"SHORT_READS": 1}, {"SHORT_WRITES": 1}, {"SHORT_READS": 1, "SHORT_WRITES": 1}):
        done = ends(told)
        case.must(done.returncode == 0, told, done)
    # the fault line that can't be written changes nothing of the status
    done, _ = case.run(REFUSE_ALLOCATION=1, FAIL_NOTE=1)
    case.must(done.returncode == NO_MEMORY and not done.stderr, "a note that failed", done)
    return calls["allocations"]


def cases(program, library, folder):
    for file in sorted(os.listdir(EXAMPLES)):
        name, ending = os.path.splitext(file)
        if ending == ".cep":
            pattern, rows = os.path.join(EXAMPLES, file), open(os.path.join(EXAMPLES, name + ".csv"), "rb").read()
            yield Case(program, library, folder, f"run {name}", ["run", pattern], rows)
            yield Case(program, library, folder, f"run {name} --lag 1", ["run", pattern, "--lag", "1"], rows)
            yield Case(program, library, folder, f"check {name}", ["check", pattern], b"")
            yield Case(program, library, folder, f"explain {name}", ["explain", pattern], b"")
    yield Case(program, library, folder, "load three", ["load", os.path.join(EXAMPLES, "three.cep"), "--count", "50"], b"")


def main():
    program, most = os.path.abspath(sys.argv[1]), int(sys.argv[2]) if len(sys.argv) > 2 else 40
    dice, seen, calls, tried = random.Random(int(sys.argv[3]) if len(sys.argv) > 3 else 1), {}, 0, 0
    compiler = shutil.which("cc") or shutil.which("gcc") or shutil.which("clang")
    if not compiler:
        print("passed over: there is no C compiler")
        return 0
    with tempfile.TemporaryDirectory() as folder:
        library = os.path.join(folder, "refuse.so")
        subprocess.run([compiler, "-shared", "-fPIC", "-O1", "-o", library, os.path.join(HERE, "refuse.c")], check=True)
        try:
            for case in cases(program, library, folder):
                calls += sweep(case, most, dice, seen)
                tried += 1
        except Wrong as wrong:
            print(wrong)
            return 1
    ended = ", ".join(f"{count} with status {status}" for status, count in sorted(seen.items()))
    print(f"{tried} cases with {calls} allocations: {sum(seen.values())} runs, {ended}")
    return 0


if __name__ == "__main__":
    sys.exit(main())

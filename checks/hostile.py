#!/usr/bin/env python3
"""Uses the built program as somebody who wants it to fail: broken patterns, broken rows, little memory, ends that refuse.

Each status and each byte of output must be among those that docs/FORMATS.md allows. Rows are read once more here, by an independent
reading of that page, and what is due comes from the brute force of meaning.py: nothing is shared with the program.
usage: hostile.py PROGRAM [CASES [SEED]]
"""
import os
import random
import re
import resource
import subprocess
import sys
import tempfile
import time

sys.dont_write_bytecode = True
sys.set_int_max_str_digits(0)  # a number in a row may have as many digits as the row has room for
import meaning  # noqa: E402

HERE = os.path.dirname(os.path.abspath(__file__))
EXAMPLES = os.path.join(os.path.dirname(HERE), "examples")
LONGEST = 65536
SMALLEST, GREATEST = -(2**63), 2**63 - 1
NUMBER = re.compile(rb"[+-]?[0-9]+\Z")
REFUSED = re.compile(rb"cep: pattern refused: code ([0-9]+) at byte ([0-9]+)\n\Z")
CODES = set(range(1, 9)) | set(range(10, 31))
NO_MEMORY, BAD_ROW, TOO_MANY_ROWS, READ_FAULT, WRITE_FAULT = 1, 5, 6, 7, 8
FAULTS = {NO_MEMORY: b"cep: no memory\n", TOO_MANY_ROWS: b"cep: more rows than allowed\n", READ_FAULT: b"cep: cannot read the input\n"}
FAULTS[WRITE_FAULT] = b"cep: cannot write the output\n"
SECONDS = 60  # for one run: the slowest takes a tenth of it


class Wrong(Exception):
    """What the program did and no page allows."""


def run(program, words, given=b"", **more):
    return subprocess.run([program] + words, input=given, capture_output=True, timeout=SECONDS, **more)


def must(holds, what, *seen):
    if not holds:
        raise Wrong(what + "".join(f"\n{thing!r}" for thing in seen))


# ---- rows, as docs/FORMATS.md has them


class Refused(Exception):
    def __init__(self, row, cause, field=None):
        self.row, self.cause, self.field = row, cause, field

    def told(self):
        behind = f" in field {self.field}" if self.field else ""
        return f"cep: row {self.row} refused: cause {self.cause}{behind}\n".encode()


def number_of(field):
    if not NUMBER.match(field):
        return None
    value = int(field)
    return value if SMALLEST <= value <= GREATEST else None


def fields_of(line):
    """The fields as the csv crate reads them by default."""
    fields, field, place, quoted, at_start = [], bytearray(), 0, False, True
    while place < len(line):
        byte = line[place : place + 1]
        if quoted:
            if byte != b'"':
                field += byte
            elif line[place + 1 : place + 2] == b'"':
                field += b'"'
                place += 1
            else:
                quoted = False
        elif byte == b",":
            fields.append(bytes(field))
            field, at_start = bytearray(), True
            place += 1
            continue
        elif byte == b'"' and at_start:
            quoted = True
        else:
            field += byte
        at_start = False
        place += 1
    return fields + [bytes(field)]


def record_of(row, line, types):
    """The event or the mark of a line, None where it is blank; `types` has the kinds of each type's fields."""
    if len(line) > LONGEST:
        raise Refused(row, 1)
    bare = line[3:] if row == 1 and line.startswith(b"\xef\xbb\xbf") else line
    bare = bare[:-1] if bare.endswith(b"\r") else bare
    if not bare:
        return None
    try:
        bare.decode()
    except UnicodeDecodeError:
        raise Refused(row, 2)
    if b"\r" in bare or bare.startswith(b"\xef\xbb\xbf"):
        raise Refused(row, 2)
    if bare.count(b'"') % 2:
        raise Refused(row, 3)
    fields = fields_of(bare)
    kinds = types.get(fields[0].decode())
    if fields[0] != b"@" and kinds is None:
        raise Refused(row, 4)
    if len(fields) != (2 if fields[0] == b"@" else 2 + len(kinds)):
        raise Refused(row, 5)
    when = number_of(fields[1])
    if when is None:
        raise Refused(row, 6)
    if fields[0] == b"@":
        return when
    values = []
    for place, (kind, field) in enumerate(zip(kinds, fields[2:])):
        value = number_of(field) if kind == "int" else field.decode()
        if value is None:
            raise Refused(row, 7, place + 1)
        values.append(value)
    return meaning.Event(row, when, fields[0].decode(), values[0] if values else None)


def records_of(rows, types):
    """The records up to the end or the first refused row, and that refusal."""
    lines = rows.split(b"\n")
    records = []
    for row, line in enumerate(lines if lines[-1] else lines[:-1], 1):
        try:
            records.append(record_of(row, line, types))
        except Refused as refused:
            return records, refused
    return records, None


def due(pattern, records, refused, lag):
    """The output of the lines so far, and of the end where no row is refused."""
    kept = [record for record in records if record is not None]
    if refused is None:
        return meaning.expected(pattern, kept, lag).encode()
    late, events, ticks, after = meaning.ticks_of(kept, lag)
    ticks = ticks[: after[-1]] if after else []
    events = events[: sum(1 for _, is_event in ticks if is_event)]
    told = meaning.rows_of(pattern, late, events, ticks, kept, after)
    return told.encode()


# ---- the cases


def mutants(dice, text, most):
    """The text with one byte changed, left out, doubled, or cut there; and some random bytes."""
    places = list(range(len(text)))
    for place in places if len(places) * 4 <= most else dice.sample(places, most // 4):
        changed = bytes([dice.choice([dice.randrange(256), dice.choice(b'"\\(),.;@\r\n0- ')])])
        yield text[:place] + changed + text[place + 1 :]
        yield text[:place] + text[place + 1 :]
        yield text[: place + 1] + text[place:]
        yield text[:place]


def judge_pattern(program, text):
    """`check` either prints a form that it prints again, or refuses with a code and a place; `run` says the same."""
    with tempfile.NamedTemporaryFile(suffix=".cep") as file, tempfile.NamedTemporaryFile(suffix=".cep") as again:
        file.write(text)
        file.flush()
        checked = run(program, ["check", file.name])
        ran = run(program, ["run", file.name])
        must(ran.stdout == b"", "rows out of no rows", text, ran.stdout)
        if checked.returncode == 0:
            must(checked.stderr == b"" and checked.stdout.endswith(b";\n"), "a check that ended well", text, checked)
            must(ran.returncode == 0 and ran.stderr == b"", "a pattern that passes doesn't run", text, ran)
            again.write(checked.stdout)
            again.flush()
            must(run(program, ["check", again.name]).stdout == checked.stdout, "the form isn't printed as it is", text, checked)
            return "passed"
        told = REFUSED.match(checked.stderr)
        must(checked.returncode == 4 and checked.stdout == b"" and told, "neither passed nor refused", text, checked)
        must(int(told[1]) in CODES and int(told[2]) <= min(len(text), LONGEST), "a code or a place that can't be", text, checked)
        must(ran.returncode == 4 and ran.stderr == checked.stderr, "run and check differ", text, ran, checked)
        return "refused"


def broken_patterns(program, dice, most):
    seen = {"passed": 0, "refused": 0}
    for size in [0, 1, 2, 10, 100, 1000, 65536, 65537, 100000]:
        seen[judge_pattern(program, dice.randbytes(size))] += 1
    names = sorted(name for name in os.listdir(EXAMPLES) if name.endswith(".cep"))
    for name in names:
        with open(os.path.join(EXAMPLES, name), "rb") as file:
            text = file.read()
        for mutant in mutants(dice, text, most // len(names)):
            seen[judge_pattern(program, mutant)] += 1
    return seen


def judge_rows(program, path, types, pattern, rows, lag=None):
    records, refused = records_of(rows, types)
    done = run(program, ["run", path] + ([] if lag is None else ["--lag", str(lag)]), rows)
    wanted = due(pattern, records, refused, lag)
    status, told = (BAD_ROW, refused.told()) if refused else (0, b"")
    must((done.returncode, done.stdout, done.stderr) == (status, wanted, told), "rows", rows, (status, wanted, told), done)
    return "refused" if refused else "read"


def broken_rows(program, dice, most):
    """Random patterns over random rows with a byte changed: the exact output, from the brute force of meaning.py."""
    seen = {"read": 0, "refused": 0}
    types = {name: ["int"] if has else [] for name, has in meaning.TYPES.items()}
    while sum(seen.values()) < most:
        pattern, text = meaning.random_pattern(dice)
        records, lag = meaning.random_records(dice), dice.choice([None, None, 0, 2])
        rows = "".join(meaning.line_of(record, dice) + "\n" for record in records).encode()
        with tempfile.NamedTemporaryFile("w", suffix=".cep") as file:
            file.write(text)
            file.flush()
            for mutant in mutants(dice, rows, 16):
                seen[judge_rows(program, file.name, types, pattern, mutant, lag)] += 1
    return seen


def broken_examples(program, dice, most):
    """Each example's rows with a byte changed: the status and the fault line exactly, the output a front of what the rows before owe."""
    seen = {"read": 0, "refused": 0}
    names = sorted(name[:-4] for name in os.listdir(EXAMPLES) if name.endswith(".csv"))
    for name in names:
        path = os.path.join(EXAMPLES, name)
        with open(path + ".cep", encoding="utf-8") as file:
            declared = re.findall(r"event (\w+)\(([^)]*)\);", file.read())
        types = {kind: [field.split()[1] for field in fields.split(",") if field] for kind, fields in declared}
        with open(path + ".csv", "rb") as file:
            rows = file.read()
        for mutant in mutants(dice, rows, most // len(names)):
            _, refused = records_of(mutant, types)
            done = run(program, ["run", path + ".cep"], mutant)
            status, told = (BAD_ROW, refused.told()) if refused else (0, b"")
            must((done.returncode, done.stderr) == (status, told), "rows of an example", name, mutant, (status, told), done)
            if refused:
                before = b"\n".join(mutant.split(b"\n")[: refused.row - 1] + [b""])
                whole = run(program, ["run", path + ".cep"], before)
                must(whole.returncode == 0 and whole.stdout.startswith(done.stdout), "output at a refused row", name, mutant, done, whole)
            seen["refused" if refused else "read"] += 1
    return seen


def random_input(program, dice, most):
    """Random bytes as input, also with many line feeds and quotes."""
    types, pattern = {"A": [], "B": []}, simple_pattern()
    path = os.path.join(EXAMPLES, "ab.cep")
    seen = {"read": 0, "refused": 0}
    for case in range(most):
        size = dice.choice([0, 1, 5, 50, 500, 5000])
        rows = dice.randbytes(size) if case % 2 else bytes(dice.choice(b'AB@,"\r\n0123-+\xef\xbb\xbf') for _ in range(size))
        seen[judge_rows(program, path, types, pattern, rows)] += 1
    return seen


def simple_pattern():
    """The pattern of examples/ab.cep: A and directly behind it B."""
    pattern = meaning.Pattern()
    for name, kind in (("a", "A"), ("b", "B")):
        stage = meaning.Stage(name)
        stage.of, stage.first = kind, meaning.STRICT
        pattern.stages.append(stage)
    return pattern


def limits(program):
    """Lines at the limit of length, and the most of what a pattern may have."""
    path, pattern = os.path.join(EXAMPLES, "ab.cep"), simple_pattern()
    types, cases = {"A": [], "B": []}, 0
    for width in (LONGEST - 1, LONGEST, LONGEST + 1, 3 * LONGEST):
        for end in (b"\n", b"\r\n", b""):
            rows = b"A,1\nB,2\nA," + b"0" * (width - 3 - len(end.rstrip(b"\n"))) + b"3" + end + b"B,4\n"
            judge_rows(program, path, types, pattern, rows)
            cases += 1
    for text, passes in limit_patterns():
        told = judge_pattern(program, text.encode())
        must(told == ("passed" if passes else "refused"), "a pattern at a limit", text[:200], told)
        cases += 1
    fields = ", ".join(f"f{number} int" for number in range(5700))
    with tempfile.NamedTemporaryFile("w", suffix=".cep") as file:
        file.write(f'event A({fields}); pattern begin("a").of(A);')
        file.flush()
        for row, status in ((b"A,1" + b",7" * 5700, 0), (b"A,1" + b",7" * 5699, BAD_ROW), (b"A" + b"," * 65535, BAD_ROW)):
            done = run(program, ["run", file.name], row + b"\n")
            must(done.returncode == status and done.stdout == (b"" if status else b"match,a=1\n"), "a row of many fields", status, done)
            cases += 1
    return {"cases": cases}


def limit_patterns():
    """Each with whether it passes: stages, states and parentheses at their limits, and one above."""
    for count in (64, 65):
        yield 'pattern begin("s0")' + "".join(f'.next("s{number}")' for number in range(1, count)) + ";", count <= 64
    for last in (256, 257):
        yield "pattern begin(\"a\").times(256)" + "".join(f'.next("{name}").times({256 if name != "d" else last})' for name in "bcd") + ";", last <= 256
    yield "pattern begin(\"a\").times(256)" + "".join(f'.next("{name}").times(256)' for name in "bcd") + '.next("e");', False
    for deep in (32, 33):
        yield 'event A(v int); pattern begin("a").of(A).where(' + "(" * (deep - 1) + "v" + ")" * (deep - 1) + " > 0);", deep <= 32


def little_memory(program):
    """The address space limited in steps: each run ends well, or tells NoMemory behind a front of its output."""
    path = os.path.join(EXAMPLES, "refunds.cep")
    rows = b"".join(b"Order,%d,%d\nRefund,%d,%d,5\n" % (row, row % 50, row, row % 50) for row in range(1, 1500))
    rows += b"".join(b"Order,%d,77\n" % row for row in range(1500, 40000))
    whole = run(program, ["run", path], rows).stdout
    seen, size, begun = {"done": 0, "no memory": 0}, 2 << 20, False
    while seen["done"] < 2:
        done = run(program, ["run", path], rows, preexec_fn=lambda: resource.setrlimit(resource.RLIMIT_AS, (size, size)))
        if done.returncode == 0:
            must(done.stdout == whole and done.stderr == b"", "a run in little memory", size, done.stderr)
            seen["done"] += 1
        elif done.returncode == NO_MEMORY:
            begun = True
            must(whole.startswith(done.stdout) and done.stderr == FAULTS[NO_MEMORY], "a run without memory", size, done.stdout[-200:], done.stderr)
            seen["no memory"] += 1
        else:  # below what the loader wants to begin the program at all
            must(not begun and done.stdout == b"", "a run that didn't end", size, done.returncode, done.stderr)
        size += size // 24
    must(seen["no memory"] > 3, "no run was without memory", seen)
    return seen


def refusing_ends(program):
    """A full device, a pipe that nobody reads, a directory as input, an absent pattern, a closed input."""
    path, rows = os.path.join(EXAMPLES, "ab.cep"), b"A,1\nB,2\n@,3\n"
    with open("/dev/full", "wb") as full:
        done = subprocess.run([program, "run", path], input=rows, stdout=full, stderr=subprocess.PIPE, timeout=SECONDS)
        must((done.returncode, done.stderr) == (WRITE_FAULT, FAULTS[WRITE_FAULT]), "a full device", done)
        done = subprocess.run([program, "run", path], input=b"A,1\n", stdout=full, stderr=subprocess.PIPE, timeout=SECONDS)
        must((done.returncode, done.stderr) == (0, b""), "a full device that nothing is written to", done)
        done = subprocess.run([program, "run", path], input=b"A,x\n", stdout=subprocess.PIPE, stderr=full, timeout=SECONDS)
        must((done.returncode, done.stdout) == (BAD_ROW, b""), "a fault line on a full device", done)
    reader, writer = os.pipe()
    os.close(reader)
    done = subprocess.run([program, "run", path], input=rows, stdout=writer, stderr=subprocess.PIPE, timeout=SECONDS)
    os.close(writer)
    must((done.returncode, done.stderr) == (WRITE_FAULT, FAULTS[WRITE_FAULT]), "a pipe that nobody reads", done)
    with tempfile.TemporaryDirectory() as folder:
        place = os.open(folder, os.O_RDONLY)
        done = subprocess.run([program, "run", path], stdin=place, capture_output=True, timeout=SECONDS)
        os.close(place)
        must((done.returncode, done.stdout, done.stderr) == (READ_FAULT, b"", FAULTS[READ_FAULT]), "a directory as input", done)
        for absent in (folder, os.path.join(folder, "absent")):
            done = run(program, ["run", absent])
            must((done.returncode, done.stdout, done.stderr) == (3, b"", b"cep: cannot read the pattern\n"), "no pattern", done)
    done = run(program, ["run", path, "--rows", "2"], rows)
    must((done.returncode, done.stdout, done.stderr) == (TOO_MANY_ROWS, b"", FAULTS[TOO_MANY_ROWS]), "too many rows", done)
    return {"cases": 8}


def processor_seconds(program, text, rows):
    with tempfile.NamedTemporaryFile("w", suffix=".cep") as file:
        file.write(text)
        file.flush()
        before = resource.getrusage(resource.RUSAGE_CHILDREN)
        done = run(program, ["run", file.name], rows)
        after = resource.getrusage(resource.RUSAGE_CHILDREN)
    must(done.returncode == 0, "a slow pattern", text[:200], done.stderr)
    return after.ru_utime + after.ru_stime - before.ru_utime - before.ru_stime


def slow_patterns(program):
    """Patterns made to be slow, over the same rows as a plain one: how many times as long they take, which has a bound."""
    rows = b"".join(b"A,%d,%d\n" % (row, row % 100) for row in range(1, 100001))
    declared = "event A(v int); event B(); pattern "
    plain = max(processor_seconds(program, declared + 'begin("a").of(B).next("b").of(A);', rows), 0.01)
    optional = "".join(f'.followedBy("s{number}").of(A).where(v == 101).optional()' for number in range(62))
    deep = "(" * 31 + "v == 101" + ")" * 31
    wide = " || ".join(["v == 101"] * 4000)
    slow = {
        "optional stages": (declared + f'begin("a").of(A).where(v == 101).optional(){optional}.followedBy("z").of(B);', 400),
        "nested conditions": (declared + f'begin("a").of(A).where({deep}).next("b").of(B);', 60),
        "long conditions": (declared + f'begin("a").of(A).where({wide}).next("b").of(B);', 4000),
    }
    told = {}
    for name, (text, bound) in slow.items():
        ratio = processor_seconds(program, text, rows) / plain
        must(ratio < bound, f"{name}: {ratio:.0f} times a plain pattern, where at most {bound} is allowed")
        told[name] = f"{ratio:.0f} times"
    return told


def main():
    program, cases = os.path.abspath(sys.argv[1]), int(sys.argv[2]) if len(sys.argv) > 2 else 2000
    dice = random.Random(int(sys.argv[3]) if len(sys.argv) > 3 else 1)
    steps = [
        ("broken patterns", lambda: broken_patterns(program, dice, cases)),
        ("broken rows of random patterns", lambda: broken_rows(program, dice, cases)),
        ("broken rows of the examples", lambda: broken_examples(program, dice, cases)),
        ("random input", lambda: random_input(program, dice, cases // 4)),
        ("limits", lambda: limits(program)),
        ("little memory", lambda: little_memory(program)),
        ("ends that refuse", lambda: refusing_ends(program)),
        ("slow patterns", lambda: slow_patterns(program)),
    ]
    for name, step in steps:
        began = time.monotonic()
        try:
            told = step()
        except (Wrong, subprocess.TimeoutExpired) as wrong:
            print(f"{name}: {wrong}")
            return 1
        print(f"{name}: {', '.join(f'{count} {what}' for what, count in told.items())} ({time.monotonic() - began:.0f} s)")
    return 0


if __name__ == "__main__":
    sys.exit(main())

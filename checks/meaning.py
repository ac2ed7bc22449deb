#!/usr/bin/env python3
"""Runs random patterns over random rows and compares what the program prints with what docs/MEANING.md says.

Each list of events is judged as a whole, by brute force: nothing here is shared with the program. Some fields of the rows stand in
quotes. Before that come a few large patterns whose matches are counted out by hand.
usage: meaning.py PROGRAM [CASES [SEED]]
"""
import itertools
import random
import subprocess
import sys
import tempfile

STRICT, RELAXED, ANY = "strict", "relaxed", "any"
OPENINGS = {STRICT: "next", RELAXED: "followedBy", ANY: "followedByAny"}
TYPES = {"A": True, "B": True, "C": True, "D": False}  # whether the type has the field v
MISSING = None
END = float("inf")


class Condition:
    """A condition as text, and as a test of an event with the entries taken before it."""

    def __init__(self, text, test):
        self.text, self.test = text, test


class Stage:
    def __init__(self, name):
        self.name, self.of, self.conditions = name, None, []
        self.least, self.most, self.optional = 1, 1, False
        self.first, self.inner, self.until = ANY, RELAXED, None
        self.modifiers = ""


class Negation:
    def __init__(self, name, after, next_only):
        self.name, self.after, self.next_only, self.of, self.conditions = name, after, next_only, None, []


class Event:
    def __init__(self, row, time, kind, value):
        self.row, self.time, self.kind, self.value = row, time, kind, value


class Pattern:
    def __init__(self):
        self.stages, self.negations, self.within, self.within_gap, self.skip = [], [], None, None, ("none", None)


# ---- the meaning of a pattern


def holds(conditions, event, taken):
    """The parts are joined from the left."""
    so_far = True
    for place, (join, condition) in enumerate(conditions):
        value = condition.test(event, taken)
        so_far = value if place == 0 else (so_far and value) if join == "where" else (so_far or value)
    return so_far


class Meaning:
    """Lists are tuples of (position, stage)."""

    def __init__(self, pattern, events):
        self.pattern, self.events = pattern, events

    def taken(self, entries):
        return [(stage, self.events[position]) for position, stage in entries]

    def count(self, entries, stage):
        return sum(1 for _, s in entries if s == stage)

    def is_closing(self):
        """A negation stands behind the last stage. Lists then wait for an end stage, which is numbered behind the last one."""
        return any(n.after == len(self.pattern.stages) - 1 for n in self.pattern.negations)

    def may_follow(self, entries, stage):
        stages = self.pattern.stages
        if stage == len(stages):
            last = len(stages) - 1
            return self.is_closing() and bool(entries) and entries[-1][1] == last and self.count(entries, last) >= stages[last].least
        if not entries:
            return all(s.optional for s in stages[:stage])
        last = entries[-1][1]
        if stage == last:
            return stages[last].most is None or self.count(entries, last) < stages[last].most
        return stage > last and self.count(entries, last) >= stages[last].least and all(s.optional for s in stages[last + 1 : stage])

    def is_full(self, entries):
        stages, last = self.pattern.stages, entries[-1][1]
        return not self.is_closing() and self.count(entries, last) >= stages[last].least and all(s.optional for s in stages[last + 1 :])

    def is_open_for(self, entries, stage, position):
        """The list waits for the stage, which may be the end stage, up to the position."""
        return self.may_follow(entries, stage) and self.gap_holds(entries, stage, position)

    def is_candidate(self, entries, stage, position):
        if stage == len(self.pattern.stages):
            return False
        declared, event, taken = self.pattern.stages[stage], self.events[position], self.taken(entries)
        of = declared.of is None or declared.of == event.kind
        return of and holds(declared.conditions, event, taken) and not (declared.until and declared.until.test(event, taken))

    def satisfies(self, negation, entries, position):
        event = self.events[position]
        return (negation.of is None or negation.of == event.kind) and holds(negation.conditions, event, self.taken(entries))

    def between(self, entries, stage, next_only):
        return [n for n in self.pattern.negations if n.next_only == next_only and n.after == entries[-1][1] < stage]

    def fits(self, entries, stage, position):
        if not self.is_candidate(entries, stage, position):
            return False
        if entries and entries[-1][0] + 1 == position:
            return not any(self.satisfies(n, entries, position) for n in self.between(entries, stage, True))
        return True

    def gap_holds(self, entries, stage, position):
        if not entries:
            return True
        last_position, last = entries[-1]
        declared, taken = self.pattern.stages[min(stage, len(self.pattern.stages) - 1)], self.taken(entries)
        mode = ANY if stage == len(self.pattern.stages) else declared.inner if stage == last else declared.first
        for place in range(last_position + 1, position):
            if mode == STRICT or (mode == RELAXED and self.is_candidate(entries, stage, place)):
                return False
            if stage == last:
                if declared.until and declared.until.test(self.events[place], taken):
                    return False
            else:
                if any(self.satisfies(n, entries, place) for n in self.between(entries, stage, False)):
                    return False
                if place == last_position + 1 and any(self.satisfies(n, entries, place) for n in self.between(entries, stage, True)):
                    return False
        return True

    def limit(self, entries):
        """The time at which the list's limit is reached, if it has one."""
        whole, gap, limit = self.pattern.within, self.pattern.within_gap, END
        if whole is not None:
            limit = min(limit, self.events[entries[0][0]].time + whole)
        if gap is not None:
            limit = min(limit, self.events[entries[-1][0]].time + gap)
        return limit

    def in_time(self, entries, position):
        return not entries or self.events[position].time < self.limit(entries)

    def partial_lists(self):
        """All partial matches among the events."""
        found, waiting = [], [()]
        while waiting:
            entries = waiting.pop()
            for position in range(entries[-1][0] + 1 if entries else 0, len(self.events)):
                if not self.in_time(entries, position):
                    continue
                for stage in range(len(self.pattern.stages)):
                    if self.may_follow(entries, stage) and self.fits(entries, stage, position) and self.gap_holds(entries, stage, position):
                        found.append(entries + ((position, stage),))
                        waiting.append(found[-1])
        return found

    def is_live(self, entries, came):
        return entries[-1][0] < came and any(self.is_open_for(entries, stage, came) for stage in range(len(self.pattern.stages) + 1))

    def items(self, ticks):
        """The items of the ticks, in order, each with the number of its tick."""
        partial, end, came, before, told = self.partial_lists(), len(self.pattern.stages), 0, None, []
        limited = self.pattern.within is not None or self.pattern.within_gap is not None
        for number, (time, is_event) in enumerate(ticks):
            if before is not None and limited:
                due = [entries for entries in partial if before < self.limit(entries) <= time and self.is_live(entries, came) and not self.is_full(entries)]
                closing = [entries for entries in due if self.is_open_for(entries, end, came)]
                told += [(number, "timeout", entries) for entries in sorted(set(due) - set(closing))]
                told += [(number, "match", entries) for entries in sorted(closing)]
            if is_event:
                told += [(number, "match", entries) for entries in sorted(partial) if entries[-1][0] == came and self.is_full(entries)]
                came += 1
            before = time
        return told

    def kills(self, match, entries):
        how, stage = self.pattern.skip
        start, first, last = entries[0][0], match[0][0], match[-1][0]
        positions = [position for position, s in match if s == stage]
        if how == "to_next":
            return start == first
        if how == "past_last":
            return first <= start <= last
        if how in ("to_first", "to_last") and positions:
            return first <= start < (positions[0] if how == "to_first" else positions[-1])
        return False

    def kept(self, ticks):
        kept = []
        for item in self.items(ticks):
            if not any(kind == "match" and self.kills(entries, item[2]) for _, kind, entries in kept):
                kept.append(item)
        return kept


# ---- the meaning of rows


def ticks_of(records, lag):
    """The late rows, the time-ordered events, and for each line, and the end, how many ticks there are after it."""
    late, events, ticks, after, came, greatest, mark = [], [], [], [], [], None, None

    def rise(to):
        nonlocal mark
        if mark is None or to > mark:
            ready = sorted((e for e in came if (mark is None or e.time > mark) and e.time <= to), key=lambda e: (e.time, e.row))
            events.extend(ready)
            ticks.extend((e.time, True) for e in ready)
            ticks.append((to, False))
            mark = to

    for record in records:
        if isinstance(record, Event):
            if mark is not None and record.time <= mark:
                late.append(record.row)
            else:
                came.append(record)
            greatest = record.time if greatest is None else max(greatest, record.time)
            if lag is not None:
                rise(greatest - lag - 1)
        else:
            rise(record)
        after.append(len(ticks))
    rise(END)
    return late, events, ticks, after


def rows_of(pattern, late, events, ticks, records, after):
    """What the records print, in the order in which they come; `after` has for each how many ticks there are behind it."""
    kept, lines, told = Meaning(pattern, events).kept(ticks), [], 0

    def row(kind, entries):
        fields = [kind]
        for number, stage in enumerate(pattern.stages):
            rows = [str(events[position].row) for position, s in entries if s == number]
            if rows:
                fields.append(f"{stage.name}=" + " ".join(rows))
        return ",".join(fields)

    for record, count in zip(records, after):
        if isinstance(record, Event) and record.row in late:
            lines.append(f"late,{record.row}")
        while told < len(kept) and kept[told][0] < count:
            lines.append(row(*kept[told][1:]))
            told += 1
    return "".join(line + "\n" for line in lines)


def expected(pattern, records, lag):
    late, events, ticks, after = ticks_of(records, lag)
    return rows_of(pattern, late, events, ticks, records + [END], after + [len(ticks)])


# ---- random patterns and rows


def value_of(event):
    return event.value if event is not None and TYPES[event.kind] else MISSING


def compared(sign, left, right):
    if left is MISSING or right is MISSING:
        return False
    return {"<": left < right, ">": left > right, "==": left == right, "!=": left != right}[sign]


def aggregate(how, stage, taken):
    values = [value_of(event) for s, event in taken if s == stage]
    if how == "count":
        return len(values)
    if how in ("first", "last"):
        return values[0 if how == "first" else -1] if values else MISSING
    values = [value for value in values if value is not MISSING]
    return sum(values) if how == "sum" else (min if how == "min" else max)(values) if values else MISSING


def condition(dice, has_value, stages, scale):
    """A condition on the event's field and on the stages named, given as (number, name, whether it may be asked for v)."""
    choices = []
    if has_value:
        sign, bound = dice.choice(["<", ">", "==", "!="]), scale * dice.randrange(5)
        choices.append(Condition(f"v {sign} {bound}", lambda e, taken, s=sign, b=bound: compared(s, value_of(e), b)))
    for number, name, asked in stages:
        most = dice.randrange(1, 3)
        choices.append(Condition(f'count("{name}") < {most}', lambda e, taken, n=number, m=most: aggregate("count", n, taken) < m))
        if asked:
            how, sign, bound = dice.choice(["first", "last", "sum", "min", "max"]), dice.choice(["<", ">", "=="]), scale * dice.randrange(6)
            text = f'{how}("{name}").v' if how in ("first", "last") else f'{how}("{name}".v)'
            choices.append(Condition(f"{text} {sign} {bound}", lambda e, taken, h=how, n=number, s=sign, b=bound: compared(s, aggregate(h, n, taken), b)))
            if has_value:
                choices.append(Condition(f"v {sign} {text}", lambda e, taken, h=how, n=number, s=sign: compared(s, value_of(e), aggregate(h, n, taken))))
    if not choices:
        return Condition("true", lambda e, taken: True)
    chosen = dice.choice(choices)
    if dice.random() < 0.15:
        return Condition(f"!({chosen.text})", lambda e, taken, c=chosen: not c.test(e, taken))
    return chosen


def conditions(dice, of, stages, scale):
    parts = [("where", condition(dice, of is None or TYPES[of], stages, scale)) for _ in range(dice.choice([0, 0, 1, 1, 2]))]
    return [(join if place == 0 else dice.choice(["where", "or"]), part) for place, (join, part) in enumerate(parts)]


def random_pattern(dice, scale=1):
    """A pattern and its text. The values of events are asked for numbers from 0 to 4 or 5, times the scale."""
    pattern, text = Pattern(), ""
    for number in range(dice.choice([1, 2, 2, 3, 3, 4])):
        stage = Stage(f"s{number}")
        if number:
            text += negated(dice, pattern, dice.choice([0, 0, 0, 1, 2]), scale)
            stage.first = dice.choice([STRICT, RELAXED, RELAXED, ANY])
        stage.of = dice.choice([None, "A", "A", "B", "B", "C", "D"])
        named = [(n, s.name, s.of is None or TYPES[s.of]) for n, s in enumerate(pattern.stages + [stage])]
        stage.conditions = conditions(dice, stage.of, named, scale)
        quantity(dice, stage, named, scale)
        pattern.stages.append(stage)
        text += f'.{OPENINGS[stage.first] if number else "begin"}("{stage.name}")' + modifiers(stage) + stage.modifiers
    if dice.random() < 0.4:
        pattern.within = dice.randrange(1, 9)
    if dice.random() < 0.3:
        pattern.within_gap = dice.randrange(1, 5)
    if (pattern.within or pattern.within_gap) and dice.random() < 0.4 and not pattern.stages[-1].optional:
        text += negated(dice, pattern, dice.choice([1, 1, 2]), scale)
        if pattern.negations[-1].next_only:
            text += negated(dice, pattern, 1, scale, False)
    if pattern.within:
        text += f".within({pattern.within})"
    if pattern.within_gap:
        text += f".withinGap({pattern.within_gap})"
    text = "pattern " + text[1:] + ";"
    how = dice.choice(["none", "none", "to_next", "past_last", "to_first", "to_last"])
    named = dice.randrange(len(pattern.stages))
    pattern.skip = (how, named)
    if how in ("to_first", "to_last"):
        text += f' skip {how}("s{named}");'
    elif how != "none" or dice.random() < 0.5:
        text += f" skip {how};"
    declared = " ".join(f"event {name}({'v int' if has else ''});" for name, has in TYPES.items())
    return pattern, f"{declared} {text}\n"


def negated(dice, pattern, count, scale, next_only=None):
    """The text of so many negations behind the last stage so far, unless that is optional."""
    text, number = "", len(pattern.stages)
    for _ in range(0 if pattern.stages[-1].optional else count):
        negation = Negation(f"n{len(pattern.negations)}", number - 1, dice.random() < 0.5 if next_only is None else next_only)
        negation.of = dice.choice([None, "A", "B", "C", "D"])
        named = [(n, s.name, s.of is None or TYPES[s.of]) for n, s in enumerate(pattern.stages)]
        negation.conditions = conditions(dice, negation.of, named, scale)
        pattern.negations.append(negation)
        text += f'.{"notNext" if negation.next_only else "notFollowedBy"}("{negation.name}")' + modifiers(negation)
    return text


def modifiers(stage):
    of = f".of({stage.of})" if stage.of else ""
    return of + "".join(f".{join}({part.text})" for join, part in stage.conditions)


def quantity(dice, stage, named, scale):
    how = dice.choice(["one", "one", "one", "times", "range", "oneOrMore", "timesOrMore"])
    least = dice.randrange(1, 4)
    if how == "times":
        stage.least = stage.most = least
        stage.modifiers += f".times({least})"
    elif how == "range":
        stage.least, stage.most = least, least + dice.randrange(0, 3)
        stage.modifiers += f".times({least},{stage.most})"
    elif how == "oneOrMore":
        stage.most = None
        stage.modifiers += ".oneOrMore()"
    elif how == "timesOrMore":
        stage.least, stage.most = least, None
        stage.modifiers += f".timesOrMore({least})"
    if how != "one":
        stage.inner = dice.choice([STRICT, RELAXED, RELAXED, ANY])
        stage.modifiers += {STRICT: ".consecutive()", RELAXED: "", ANY: ".allowCombinations()"}[stage.inner]
    if stage.most is None and dice.random() < 0.4:
        stage.until = condition(dice, True, named, scale)
        stage.modifiers += f".until({stage.until.text})"
    if dice.random() < 0.25:
        stage.optional = True
        stage.modifiers += ".optional()"


def random_records(dice):
    records, time = [], dice.randrange(-3, 3)
    for row in range(1, dice.randrange(1, 10) + 1):
        time += dice.choice([0, 1, 1, 2, 3])
        if dice.random() < 0.12:
            records.append(time - dice.randrange(0, 4))
        else:
            records.append(Event(row, time - dice.choice([0, 0, 0, 0, 1, 3]), dice.choice("AAABBBCCD"), dice.randrange(5)))
    return records


def line_of(record, dice):
    if isinstance(record, Event):
        fields = [record.kind, record.time] + ([record.value] if TYPES[record.kind] else [])
    else:
        fields = ["@", record]
    return ",".join(f'"{field}"' if dice.random() < 0.1 else str(field) for field in fields)


# ---- large patterns


def large_cases():
    """Each with its text, its rows and what is printed, counted out by hand."""
    rows = [f"A,{time}\n" for time in range(1, 13)]
    lists = sorted(taken for size in range(1, 13) for taken in itertools.combinations(range(1, 13), size))
    yield (
        "each combination of twelve events",
        'event A(); pattern begin("a").of(A).oneOrMore().allowCombinations();',
        rows,
        [f"match,a={' '.join(map(str, taken))}" for last in range(1, 13) for taken in lists if taken[-1] == last],
    )
    yield (
        "any two behind the first of twelve events",
        'event A(); pattern begin("a").of(A).followedByAny("b").of(A).followedByAny("c").of(A);',
        rows,
        [f"match,a={a},b={b},c={c}" for c in range(1, 13) for a in range(1, c) for b in range(a + 1, c)],
    )
    stages = "".join(f'.next("s{number}").of(A)' for number in range(1, 64))
    yield (
        "64 stages",
        f'event A(); pattern begin("s0").of(A){stages};',
        [f"A,{time}\n" for time in range(1, 67)],
        ["match," + ",".join(f"s{number}={start + number}" for number in range(64)) for start in range(1, 4)],
    )
    once = 'where(v == 0 || count("a") > 0)'
    yield (
        "256 events of a stage",
        f'event A(v int); pattern begin("a").of(A).{once}.times(256);',
        [f"A,{time},{0 if time == 1 else 1}\n" for time in range(1, 300)],
        ["match,a=" + " ".join(map(str, range(1, 257)))],
    )
    names = "abcd"
    parts = "".join(f'.next("{name}").of(A).times(256).consecutive()' for name in names[1:])
    yield (
        "1,024 states",
        f'event A(v int); pattern begin("a").of(A).{once}.times(256).consecutive(){parts};',
        [f"A,{time},{0 if time == 1 else 1}\n" for time in range(1, 1100)],
        ["match," + ",".join(f"{name}=" + " ".join(map(str, range(1 + 256 * place, 257 + 256 * place))) for place, name in enumerate(names))],
    )


def printed(program, text, rows, words, mode="run"):
    with tempfile.NamedTemporaryFile("w", suffix=".cep") as file:
        file.write(text)
        file.flush()
        return subprocess.run([program, mode, file.name] + words, input=rows, capture_output=True, text=True)


def differs(name, done, text, rows, wanted):
    """Whether anything but what is wanted was printed, which is then told."""
    if done.returncode == 0 and done.stdout == wanted and not done.stderr:
        return False
    print(f"{name}, status {done.returncode}\n{text}{rows}wanted:\n{wanted}printed:\n{done.stdout}{done.stderr}")
    return True


def main():
    program, cases = sys.argv[1], int(sys.argv[2]) if len(sys.argv) > 2 else 300
    dice = random.Random(int(sys.argv[3]) if len(sys.argv) > 3 else 1)
    for name, text, rows, lines in large_cases():
        if differs(name, printed(program, text, "".join(rows), []), text, "".join(rows), "".join(line + "\n" for line in lines)):
            return 1
    told = {"match": 0, "timeout": 0, "late": 0}
    for case in range(cases):
        pattern, text = random_pattern(dice)
        records, lag = random_records(dice), dice.choice([None, None, 0, 1, 3])
        rows = "".join(line_of(record, dice) + "\n" for record in records)
        wanted = expected(pattern, records, lag)
        done = printed(program, text, rows, [] if lag is None else ["--lag", str(lag)])
        if differs(f"case {case}, lag {lag}", done, text, rows, wanted):
            return 1
        for line in wanted.splitlines():
            told[line.split(",")[0]] += 1
    print(f"{cases} patterns: {told['match']} matches, {told['timeout']} timeouts, {told['late']} late rows")
    return 0


if __name__ == "__main__":
    sys.exit(main())

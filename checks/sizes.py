#!/usr/bin/env python3
"""Counts how many events, nodes and edges the buffer holds after each tick, from what docs/MEANING.md says, by brute force.

A list is living where it is live, no kept match kills it and it has time left. There is one event for each position of a living list,
one edge for each front of a living list, and one node for each state and last position of such a front. Nothing here is shared with
the program.
usage: sizes.py                            counts a small example, whose sizes are known
       sizes.py PROGRAM [CASES [SEED]]     compares what `load` prints of random patterns with what is counted
       sizes.py --rows CASES [SEED]        prints random patterns, their input and the sizes one after another, as rows of a test
"""
import random
import sys

sys.dont_write_bytecode = True
import meaning  # noqa: E402
from meaning import ANY, RELAXED, Condition, Event, Meaning, Pattern, Stage


def state_of(pattern, entries):
    """The last stage, and how many events it has. Past the greatest number, or the least where there is none, it stays."""
    last = entries[-1][1]
    stage, count = pattern.stages[last], sum(1 for _, s in entries if s == last)
    return last, min(count, stage.least if stage.most is None else stage.most)


def sizes_of(pattern, events, ticks):
    """After each tick how many events, nodes and edges are held."""
    meant, came, sizes = Meaning(pattern, events), 0, []
    partial, kept = meant.partial_lists(), meant.kept(ticks)
    for number, (time, is_event) in enumerate(ticks):
        came += is_event
        matches = [entries for when, kind, entries in kept if kind == "match" and when <= number]

        def is_living(entries):
            return meant.limit(entries) > time and meant.is_live(entries, came) and not any(meant.kills(match, entries) for match in matches)

        living = [entries for entries in partial if is_living(entries)]
        stand = {entries[: size + 1] for entries in living for size in range(len(entries))}
        places = {(state_of(pattern, entries), entries[-1][0]) for entries in stand}
        reach = {position for entries in living for position, _ in entries}
        sizes.append((len(reach), len(places), len(stand)))
    return sizes


def shown_sizes(pattern, records, lag):
    """The sizes after each tick but that of the end."""
    late, events, ticks, _ = meaning.ticks_of(records, lag)
    return sizes_of(pattern, events, ticks)[:-1]


# ---- the rows of `load`


def generated(seed, count):
    """The records that `load` makes of the seed."""
    names, records, state = list(meaning.TYPES), [], seed

    def draw():
        nonlocal state
        state = (state * 6364136223846793005 + 1442695040888963407) % 2**64
        return state >> 33

    for row in range(1, count + 1):
        name = names[draw() % len(names)]
        records.append(Event(row, row, name, draw() % 1000 if meaning.TYPES[name] else None))
    return records


def summary(pattern, records, lag):
    late, events, ticks, _ = meaning.ticks_of(records, lag)
    kinds = [kind for _, kind, _ in Meaning(pattern, events).kept(ticks)]
    greatest = max((size[0] for size in sizes_of(pattern, events, ticks)[:-1]), default=0)
    counts = [("rows", len(records)), ("late", len(late)), ("matches", kinds.count("match")), ("timeouts", kinds.count("timeout"))]
    return "".join(f"{name} {number}\n" for name, number in counts + [("greatest held", greatest)]), greatest


def compares(program, cases, dice):
    most = 0
    for case in range(cases):
        pattern, text = meaning.random_pattern(dice, 200)
        count, seed, lag = dice.randrange(1, 12), dice.randrange(2**32), dice.choice([None, None, 0, 1, 3])
        wanted, greatest = summary(pattern, generated(seed, count), lag)
        words = ["--count", str(count), "--seed", str(seed)] + ([] if lag is None else ["--lag", str(lag)])
        done = meaning.printed(program, text, "", words, "load")
        if meaning.differs(f"case {case}, {' '.join(words)}", done, text, "", wanted):
            return 1
        most = max(most, greatest)
    print(f"{cases} patterns: at most {most} events held")
    return 0


# ---- rows of a test


def bytes_of(text):
    """A literal, whose lines are broken where a pattern's parts begin."""
    lines = [""]
    for part in text.replace("\\", "\\\\").replace('"', '\\"').replace("\n", "\\n").replace(").", ")\n.").split("\n"):
        if lines[-1] and len(lines[-1]) + len(part) > 120:
            lines.append("")
        lines[-1] += part
    return 'b"' + "\n".join(lines) + '"'


def rows(cases, dice):
    """Patterns of which something is held."""
    while cases:
        pattern, text = meaning.random_pattern(dice)
        records, lag = meaning.random_records(dice), dice.choice([None, None, 0, 1, 3])
        lines = "".join(meaning.line_of(record, dice) + "\n" for record in records)
        sizes = shown_sizes(pattern, records, lag)
        if not any(events for events, _, _ in sizes):
            continue
        cases -= 1
        print(f"    Row {{\n        lag: {'None' if lag is None else f'Some({lag})'},\n        file: {bytes_of(text)},\n        input: {bytes_of(lines)},")
        print(f"        sizes: &[{', '.join(str(number) for size in sizes for number in size)}],\n    }},")
    return 0


# ---- an example


def trades():
    """Rising trades of one symbol behind a first one, and then a fall below it, within a minute, with skip past_last."""
    first = lambda taken: next(event.value for stage, event in taken if stage == 0)
    pattern = Pattern()
    for number, (name, test) in enumerate(
        [
            ("a", lambda e, taken: e.value[1] > 10),
            ("b", lambda e, taken: e.value[0] == first(taken)[0] and e.value[1] > first(taken)[1]),
            ("c", lambda e, taken: e.value[0] == first(taken)[0] and e.value[1] < first(taken)[1]),
        ]
    ):
        stage = Stage(name)
        stage.of, stage.first, stage.conditions = "Trade", RELAXED if number else ANY, [("where", Condition("", test))]
        pattern.stages.append(stage)
    pattern.stages[1].most, pattern.within, pattern.skip = None, 60000, ("past_last", None)
    told = [(1000, "IBM", 20), (2000, "HP", 5), (3000, "IBM", 25), (4000, "IBM", 30), (5000, "IBM", 15)]
    return pattern, [Event(row + 2, time, "Trade", (symbol, price)) for row, (time, symbol, price) in enumerate(told)]


def example():
    pattern, records = trades()
    wanted, counted = [(1, 1, 1), (1, 1, 1), (2, 3, 3), (3, 5, 6), (0, 0, 0)], shown_sizes(pattern, records, None)
    print("trades:", *counted)
    return 0 if counted == wanted else 1


def main():
    words = sys.argv[1:]
    if not words:
        return example()
    cases = int(words[1]) if len(words) > 1 else 300
    dice = random.Random(int(words[2]) if len(words) > 2 else 1)
    return rows(cases, dice) if words[0] == "--rows" else compares(words[0], cases, dice)


if __name__ == "__main__":
    sys.exit(main())

#!/usr/bin/env bash
# Times runs in which much is held or much is printed: processor seconds and the greatest memory.
# It wants the program at crates/cep/out/cep (see README.md) and python3. usage: bench/large.sh [SECONDS]
# A run that takes longer than so many seconds (120 where none is told) is ended, and its status is 124.
set -eu
cd "$(dirname "$0")/.."
limit=${1:-120}
cep=crates/cep/out/cep
folder=$(mktemp -d)
trap 'rm -rf "$folder"' EXIT

# Rows by a line of Python, to FILE. usage: made FILE CODE
made() {
    python3 -c "$2" >"$folder/$1"
}

# The pattern NAME over the rows of FILE, with further words.
pattern() {
    local name=$1 input=$2 text=$3
    shift 3
    printf '%s\n' "event A(v int); event B(); event C(); event Tick(v int);" "$text" >"$folder/p.cep"
    echo "$name: $(python3 bench/measured.py "$folder/$input" timeout "$limit" "$cep" run "$folder/p.cep" "$@")"
}

made ticks.csv 'for i in range(1000000): print(f"Tick,{i},{i % 7}")'
pattern "a million rows that wait" ticks.csv 'pattern begin("a").of(B);'
pattern "the same, with a loop's matches" ticks.csv 'pattern begin("a").of(Tick).where(v == 0).followedBy("b").of(Tick).where(v < 6).oneOrMore().consecutive().followedBy("c").of(Tick).where(v == 6).within(1000); skip past_last;'
pattern "the same, each match of a loop of thirty" ticks.csv 'pattern begin("a").of(Tick).where(v == 0).followedBy("b").of(Tick).oneOrMore().consecutive().within(30); skip to_next;'
for count in 40000 400000; do
    made many.csv "for i in range($count): print(f'A,{i},0')
print('B,$count')"
    pattern "$count matches at one event" many.csv 'pattern begin("a").of(A).followedByAny("b").of(B);' --lag 0
done
made one.csv 'print("A,0,0")
for i in range(1, 10001): print(f"B,{i}")'
pattern "a loop of 10,000 events, each of its matches printed" one.csv 'pattern begin("a").of(A).followedBy("b").of(B).oneOrMore();' --lag 0
pattern "the same, printed by its count alone" one.csv 'pattern begin("a").of(A).followedBy("b").of(B).oneOrMore(); select count("b");' --lag 0
made prefix.csv 'for i in range(100): print(f"A,{i},0")
for i in range(100, 100100): print(f"B,{i}")'
pattern "100,000 partial matches that share a prefix of 100 events" prefix.csv 'pattern begin("a").of(A).times(100).consecutive().followedByAny("b").of(B).followedBy("c").of(C);' --lag 0
for count in 10 1000; do
    made loops.csv "for i in range(1000000): print(f'A,{i},{i % $count}')"
    pattern "a condition on last, sum and max over loops of $count events" loops.csv 'pattern begin("a").of(A).where(v == 0 && count("a") == 0 || v > last("a").v && sum("a".v) >= 0 && v > max("a".v)).oneOrMore().consecutive().next("b").of(B);' --lag 0
done

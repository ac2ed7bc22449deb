#!/usr/bin/env bash
# Times patterns with many partial matches alive, beside a plain program that only splits and parses the same rows.
# It wants the program at crates/cep/out/cep (see README.md), rustc and python3. usage: bench/engine.sh [ROWS]
set -eu
cd "$(dirname "$0")/.."
rows=${1:-1000000}
. bench/common.sh

trades "$folder/trades.csv"
python3 - "$rows" >"$folder/mixed.csv" <<'PYTHON'
import sys
n = int(sys.argv[1])
for i in range(n):
    print(f"Open,{i},{i}" if i < 10000 else f"Other,{i}")
PYTHON
python3 - "$rows" >"$folder/silence.csv" <<'PYTHON'
import sys
n = min(int(sys.argv[1]), 100000)
for i in range(n):
    print(f"Open,{i},{i}")
print(f"Other,{10 * n}")
PYTHON
python3 - "$rows" >"$folder/ticks.csv" <<'PYTHON'
import sys
for i in range(int(sys.argv[1])):
    print(f"Tick,{i},{i % 7}")
PYTHON

# The pattern NAME over the rows of FILE, with further words.
pattern() {
    local name=$1 input=$2 text=$3
    shift 3
    printf '%s\n' "event Trade(sym text, price int); event Open(id int); event Close(id int); event Other(); event Tick(v int);" "$text" >"$folder/p.cep"
    echo "$name: $(measured "$folder/$input" $cep run "$folder/p.cep" "$@")"
}

echo "rows: $rows"
echo "plain split of the trades: $(measured "$folder/trades.csv" "$folder/split")"
pattern "two relaxed stages within a limit" trades.csv 'pattern begin("a").of(Trade).where(price > 990).followedBy("b").of(Trade).where(price < 10 && sym == last("a").sym).within(1000);' --lag 0
pattern "the same with a limit between neighbours" trades.csv 'pattern begin("a").of(Trade).where(price > 990).followedBy("b").of(Trade).where(price < 10 && sym == last("a").sym).withinGap(1000);' --lag 0
pattern "the same, ended by what doesn't come" trades.csv 'pattern begin("a").of(Trade).where(price > 990).notFollowedBy("b").of(Trade).where(price < 10 && sym == last("a").sym).within(1000);' --lag 0
pattern "two relaxed stages, one row in a hundred begins" trades.csv 'pattern begin("a").of(Trade).where(price >= 990).followedBy("b").of(Trade).where(price < 1 && sym == last("a").sym);' --lag 0
pattern "10,000 partial matches that see other types" mixed.csv 'pattern begin("a").of(Open).followedByAny("b").of(Close).where(id == last("a").id);' --lag 0
pattern "100,000 starts that are due at once" silence.csv 'pattern begin("a").of(Open).followedBy("b").of(Close).within(500000);' --lag 0
pattern "a loop that skips past its last event" ticks.csv 'pattern begin("a").of(Tick).where(v == 0).followedBy("b").of(Tick).where(v < 6).oneOrMore().consecutive().followedBy("c").of(Tick).where(v == 6).within(1000); skip past_last;' --lag 0

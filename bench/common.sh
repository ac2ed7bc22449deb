# What the measurements share: a folder that goes at the end, the built program, and the plain program that splits and
# parses rows. Sourced at the top of the repository, with the number of rows in $rows.
folder=$(mktemp -d)
trap 'rm -rf "$folder"' EXIT
cep=crates/cep/out/cep
rustc -O -o "$folder/split" bench/split.rs

# Rows of trades in order, each time up to so many ms too low, to FILE. usage: trades FILE [JITTER]
trades() {
    python3 - "$rows" "${2:-0}" >"$1" <<'PYTHON'
import random, sys
random.seed(7)
jitter = int(sys.argv[2])
for i in range(int(sys.argv[1])):
    print(f"Trade,{i - (random.randrange(jitter) if jitter else 0)},S{random.randrange(8)},{random.randrange(1000)}")
PYTHON
}

# Two strict stages with conditions over trades, to FILE.
two_strict_stages() {
    cat >"$1" <<'PATTERN'
event Trade(sym text, price int);
pattern begin("a").of(Trade).where(price > 990).next("b").of(Trade).where(sym == last("a").sym && price > last("a").price);
PATTERN
}

# The seconds, memory and lines of a command over the rows of FILE. usage: measured FILE COMMAND [WORD ..]
measured() {
    python3 bench/measured.py "$@"
}

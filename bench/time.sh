#!/usr/bin/env bash
# Times event time: rows in order and rows with jitter, with a lag, beside a plain program that only splits and parses the same
# rows. It wants the program at crates/cep/out/cep (see README.md), rustc and python3. usage: bench/time.sh [ROWS]
set -eu
cd "$(dirname "$0")/.."
rows=${1:-10000000}
. bench/common.sh

two_strict_stages "$folder/p.cep"
for jitter in 0 50 500; do
    trades "$folder/$jitter.csv" $jitter
done

echo "rows: $rows"
echo "plain split: $(measured "$folder/0.csv" "$folder/split")"
for jitter in 0 50 500; do
    echo "cep run --lag 1000, jitter of $jitter ms: $(measured "$folder/$jitter.csv" $cep run "$folder/p.cep" --lag 1000)"
done

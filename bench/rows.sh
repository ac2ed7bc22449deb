#!/usr/bin/env bash
# Times a run of two strict stages with conditions over a million rows: plain, with a field in quotes each, and with a doubled
# quote each, beside a plain program that only splits and parses the plain rows. It wants the program at crates/cep/out/cep (see README.md), rustc and
# python3. usage: bench/rows.sh [ROWS]
set -eu
cd "$(dirname "$0")/.."
rows=${1:-1000000}
. bench/common.sh

two_strict_stages "$folder/p.cep"
trades "$folder/rows.csv"
sed 's/,S\([0-9]\),/,"S\1",/' "$folder/rows.csv" >"$folder/quoted.csv"
sed 's/,S\([0-9]\),/,"S""\1",/' "$folder/rows.csv" >"$folder/doubled.csv"

echo "rows: $rows"
echo "plain split: $(measured "$folder/rows.csv" "$folder/split")"
echo "cep run: $(measured "$folder/rows.csv" $cep run "$folder/p.cep")"
echo "cep run, each row with a quoted field: $(measured "$folder/quoted.csv" $cep run "$folder/p.cep")"
echo "cep run, each row with a doubled quote: $(measured "$folder/doubled.csv" $cep run "$folder/p.cep")"

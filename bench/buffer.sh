#!/bin/sh
# Measures the shared buffer: a chain of a million edges that is put and released, a million edges that come and go in an
# empty buffer, and as many beside a chain of a million. Each step's sizes (events, nodes, edges) and time are printed.
# The time of a put includes the test of its conditions, which the program makes before it.
set -e
cd "$(dirname "$0")/../crates/buffer_bench"
for words in "999999 0" "0 1000000" "999999 1000000"; do
    echo "== chain and pairs: $words"
    # shellcheck disable=SC2086
    rt run -- $words timed 2>&1 | grep -E '^(chain|beside|released):'
done

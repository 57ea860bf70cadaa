#!/usr/bin/env bash
# Turns a second of the book with 1, 2, 4, 16 and 64 passes, beside a std mutex round the same machine.
# TURNS, the first word, is the number of turns of each measurement.
cd "$(dirname "$0")/../crates/bench_parts" || exit 1
exec rt run -- book "${1:-400000}"

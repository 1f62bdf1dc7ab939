#!/usr/bin/env bash
# How many instructions a byte the lines of a text take to be read, by a whole process that does nothing else; valgrind
# counts them. What a process takes that reads one short text is told first.
set -euo pipefail
cd "$(dirname "$0")/.."
if ! command -v valgrind > /dev/null; then
    echo "there is no valgrind, which counts the instructions" >&2
    exit 1
fi
program=$(scripts/bench_program.py bench_reading)
folder=$(mktemp -d)
trap 'rm -rf "$folder"' EXIT

# The instructions of a process that reads a text.
instructions() { # NAME [WORD]
    valgrind --tool=callgrind --callgrind-out-file=/dev/null "$program" ${2:-} < "$folder/$1" 2>&1 > "$folder/rows" |
        sed -n 's/.*Collected : //p'
}

measured() { # NAME [WORD]
    local count bytes
    count=$(instructions "$@")
    bytes=$(stat -c %s "$folder/$1")
    awk -v name="$1" -v count="$count" -v bytes="$bytes" -v rows="$(cat "$folder/rows")" \
        'BEGIN { printf "%-14s %8d bytes %10d instructions, %6.1f a byte: %s\n", name, bytes, count, count / bytes, rows }'
}

cp bench/programs/bench_reading/stdin "$folder/short"
measured short
for shape in $(bench/make_problems.py); do
    bench/make_problems.py "$shape" > "$folder/$shape"
    measured "$shape"
done
for kind in commands waves; do
    bench/make_scripts.py "$kind" > "$folder/$kind"
    measured "$kind" play
done

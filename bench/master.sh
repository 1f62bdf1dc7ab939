#!/usr/bin/env bash
# Times the calls of a master of 1,024 splits of 8 holders, 256 workers of 16 slots and 64 parts:
# nanoseconds a call, the least of five masters, once where nothing has happened before, and once after
# 54,000 events. `problem` and `commit` stand beside `certify` alone. Then the peak resident set of a process
# that makes such a master, and of one that leads it through 65,536 events, 16,384 sweeps among them.
set -euo pipefail
cd "$(dirname "$0")/.."
if ! [ -x /usr/bin/time ]; then
    echo "there is no /usr/bin/time, which measures the memory (Debian's package time)" >&2
    exit 1
fi
program=$(scripts/bench_program.py bench_master)
folder=$(mktemp -d)
trap 'rm -rf "$folder"' EXIT
"$program" time | awk -F '\t' '
  BEGIN { printf "%-20s %6s %12s %19s\n", "ns a call", "calls", "new", "after 54,000 events" }
  { printf "%-20s %6d %12d %19d\n", $1, $2, $3, $4; new[$1] = $3 }
  END {
    both = new["problem"] + new["commit"]
    printf "problem and commit take %.2f times as long as certify\n", both / new["certify"]
  }'
for end in made full; do
    /usr/bin/time -f "%M" -o "$folder/memory" "$program" "$end" > "$folder/told"
    awk -v told="$(< "$folder/told")" '{ printf "%s: %.1f MiB\n", told, $1 / 1024 }' "$folder/memory"
done

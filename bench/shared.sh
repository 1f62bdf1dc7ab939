#!/usr/bin/env bash
# Times a master of 1,024 splits of 8 holders, 256 workers of 16 slots and 64 parts that threads share: 32,768 calls
# that lose or add a replica, by one, two and four threads with a hand each; beside them the same calls on the same
# master under a mutex, without hands, and on a plain master in Rust under std's mutex. Then `settle` of 65,520 events
# in 4,095 hands; `plan_wave`, beside the problem and the commit that it makes under the lock, with all workers and
# with 32 of them; and of waves that start 32 splits each, after one that started all, `start_best` beside `plan_wave`,
# alone and while three threads lose and add replicas. All are the least of five masters. It needs rustc.
set -euo pipefail
cd "$(dirname "$0")/.."
if ! command -v rustc > /dev/null; then
    echo "rustc is missing, which builds the program to compare with" >&2
    exit 1
fi
program=$(scripts/bench_program.py bench_shared)
folder=$(mktemp -d)
trap 'rm -rf "$folder"' EXIT
rustc -O --edition 2021 -o "$folder/mutex" bench/shared_rust/mutex.rs
{ "$program" time; "$folder/mutex"; } | awk -F '\t' '
  { told[$1] = $2; nanos[$1] = $3 }
  function speed(name) { return told[name] / nanos[name] * 1000 }
  function calls(threads) {
    printf "%-22s %9.2f %9.2f %9.2f\n", threads, speed(threads ", hands"), speed(threads ", mutex"), speed(threads ", Rust")
  }
  function wave(workers,   held) {
    held = nanos[workers ", problem and commit"]
    printf "%s: plan_wave takes %.2f ms for %d starts, its problem and commit %.2f ms: %.2f of it\n", workers, \
      nanos[workers ", plan_wave"] / 1e6, told[workers ", plan_wave"], held / 1e6, held / nanos[workers ", plan_wave"]
  }
  function of_32(name) { return nanos[name] / told[name] * 32 / 1e6 }
  function starts(when) {
    printf "32 starts %s: start_best takes %.3f ms, plan_wave %.3f ms\n", when, \
      of_32("32 starts " when ", start_best"), of_32("32 starts " when ", plan_wave")
  }
  END {
    printf "%-22s %9s %9s %9s\n", "million calls a second", "hands", "mutex", "Rust"
    calls("1 thread"); calls("2 threads"); calls("4 threads")
    printf "settle: %.1f ms for %d events in 4,095 hands\n", nanos["settle"] / 1e6, told["settle"]
    wave("256 workers"); wave("32 workers")
    starts("alone"); starts("while three threads call")
  }'

#!/usr/bin/env bash
# Times `mrjob run` as a whole process, by 1, 2, 4 and 32 workers, beside `mrjob play` of the same documents and a plain
# Rust program over as many threads (bench/run_rust), on the same texts and in one run, and prints a table in seconds:
# the least of five runs each, with the processor time of that run, and run's time of play's. Then the processor time
# of a run whose one map, of 15 MB, is all that is done: what is above one processor's is the calling thread's. It
# needs rustc and /usr/bin/time.
# usage: run.sh [FILE]      (one document a line)
set -euo pipefail
cd "$(dirname "$0")/.."
words=${1:-${XDG_CACHE_HOME:-$HOME/.cache}/mrjob-bench/words.txt}
program=${MRJOB:-bin/mrjob}
if ! [ -e "$words" ]; then
    echo "there is no $words: bench/make_words.py $words makes one of packages that it downloads" >&2
    exit 1
fi
for tool in rustc /usr/bin/time; do
    if ! command -v "$tool" > /dev/null; then echo "$tool is missing" >&2; exit 1; fi
done
folder=$(mktemp -d)
trap 'rm -rf "$folder"' EXIT
rustc -O --edition 2021 -o "$folder/threads" bench/run_rust/threads.rs

# The least time of five runs, with the processor time of that run and its memory.
least() { # INPUT COMMAND..
    local input=$1 run
    shift
    for run in 1 2 3 4 5; do
        /usr/bin/time -f "%e %U %S %M" -a -o "$folder/times" "$@" < "$input" > "$folder/output"
    done
    sort -n "$folder/times" | head -n 1 | awk '{ printf "%s %.2f %.0f\n", $1, $2 + $3, $4 / 1024 }'
    rm "$folder/times"
}

bench/make_scripts.py job "$words" > "$folder/script"
read -r play play_cpu play_memory < <(least "$folder/script" "$program" play)
echo "play: $play s, $play_cpu s of a processor, $play_memory MB"
printf '%-8s %7s %7s %7s %7s %9s %7s\n' workers run cpu MB /play rust cpu
for workers in 1 2 4 32; do
    bench/make_scripts.py run "$words" "$workers" > "$folder/job"
    read -r ours cpu memory < <(least "$folder/job" "$program" run)
    cp "$folder/output" "$folder/ours"
    read -r rust rust_cpu _ < <(least "$folder/job" "$folder/threads" "$workers")
    cmp "$folder/ours" "$folder/output"
    awk -v w="$workers" -v a="$ours" -v b="$cpu" -v m="$memory" -v p="$play" -v c="$rust" -v d="$rust_cpu" \
        'BEGIN { printf "%-8d %7.2f %7.2f %7d %7.2f %9.2f %7.2f\n", w, a, b, m, a / p, c, d }'
done

{
    printf 'job 1\nrack r\nworker w r 1\nsplit s 1 w\nsilence 1000\n'
    awk '{ print "doc d" NR " s " $0 }' "$words"
    echo end
} > "$folder/one"
read -r wall cpu _ < <(least "$folder/one" "$program" run)
echo "one map: $wall s, $cpu s of a processor"

#!/usr/bin/env bash
# Times `mrjob play` as a whole process, the least of five runs: on 65,536 commands without a wave, on 1,000 waves that
# start one split each, and on a job of the documents of a file, one a line, with the greatest memory that it had.
# usage: play.sh [FILE]
set -euo pipefail
cd "$(dirname "$0")/.."
words=${1:-${XDG_CACHE_HOME:-$HOME/.cache}/mrjob-bench/words.txt}
program=${MRJOB:-bin/mrjob}
if ! [ -x /usr/bin/time ]; then
    echo "there is no /usr/bin/time, which measures the memory (Debian's package time)" >&2
    exit 1
fi
folder=$(mktemp -d)
trap 'rm -rf "$folder"' EXIT

# The least time of five runs of a script.
timed() { # NAME
    local run status
    for run in 1 2 3 4 5; do
        status=0
        /usr/bin/time -f "%e %M" -o "$folder/time$run" "$program" play < "$folder/$1" > "$folder/report" || status=$?
        # (without a status of its own: a script that ends stuck has status 1)
        if [ "$status" -gt 1 ]; then echo "$1: status $status" >&2; exit 1; fi
    done
    printf '%-9s %9d bytes %7d lines of report, ' "$1" "$(stat -c %s "$folder/$1")" "$(wc -l < "$folder/report")"
    grep -h '^[0-9.]* [0-9]*$' "$folder"/time* | sort -n | head -n 1 | awk '{ printf "%.2f s, %.0f MB\n", $1, $2 / 1024 }'
}

for kind in commands waves; do
    bench/make_scripts.py "$kind" > "$folder/$kind"
    timed "$kind"
done
if [ -e "$words" ]; then
    bench/make_scripts.py job "$words" > "$folder/job"
    timed job
else
    echo "there is no $words: bench/make_words.py $words makes one of packages that it downloads" >&2
fi

#!/usr/bin/env bash
# What the built programs do outside the examples: usage and help, faults of reading and writing, long texts.
# usage: statuses.sh PROGRAM..
set -euo pipefail
cd "$(dirname "$0")/.."
room=$(mktemp -d)
trap 'rm -rf "$room"' EXIT
text=examples/swap.txt
passed=0 failed=0

# One case: `nothing` and `words` say what a stream must be; any other word is the stream's one line.
expect() { # NAME STATUS WANTED-STATUS WANTED-OUT WANTED-ERR
    local is_well=1 stream wanted
    [ "$2" = "$3" ] || is_well=0
    for stream in out err; do
        wanted=$4
        if [ $stream = err ]; then wanted=$5; fi
        case "$wanted" in
            nothing) [ ! -s "$room/$stream" ] || is_well=0 ;;
            words) [ -s "$room/$stream" ] || is_well=0 ;;
            *) [ "$(head -c 1000 "$room/$stream")" = "$wanted" ] || is_well=0 ;;
        esac
    done
    if [ $is_well = 1 ]; then
        passed=$((passed + 1))
        echo "$program: $1: ok"
    else
        failed=$((failed + 1))
        echo "$program: $1: FAILED, with status $2 and this output:"
        head -c 1000 "$room/out"
        head -c 1000 "$room/err"
    fi
}

# Runs the program with these words and an output that nobody reads, and tells the status.
left() { # WORDS..
    python3 -c '
import os, subprocess, sys
reader, writer = os.pipe()
os.close(reader)
print(subprocess.run(sys.argv[1:], stdout=writer).returncode)' "$program" "$@" 2> "$room/err"
}

# Runs the program with these words on standard input, and tells the status.
given() { # WORDS..
    local status=0
    "$program" "$@" > "$room/out" 2> "$room/err" || status=$?
    echo $status
}

for program in "$@"; do
    expect "no command" "$(given < "$text")" 64 nothing words
    expect "an unknown command" "$(given fly < "$text")" 64 nothing words
    expect "a word too many" "$(given check swap < "$text")" 64 nothing words
    expect "a word that is no text" "$(given $'\xff' < "$text")" 64 nothing words
    expect "help" "$(given --help < "$text")" 0 words nothing
    expect "help on a command" "$(given check --help < "$text")" 0 words nothing
    expect "help on planning" "$(given plan --help < "$text")" 0 words nothing
    expect "help on playing" "$(given play --help < "$text")" 0 words nothing
    expect "help on serving" "$(given serve --help < "$text")" 0 words nothing
    expect "help on running" "$(given run --help < "$text")" 0 words nothing
    expect "help on explaining" "$(given explain --help < "$text")" 0 words nothing
    expect "an explanation" "$(given explain C6 < "$text")" 0 \
        "condition C6: the two prices and the cost of each started pair come to K" nothing
    expect "an explanation of nothing" "$(given explain C9 < "$text")" 64 nothing words
    expect "a refusal that is explained" "$(given check --explain < examples/nearest_first.txt)" 1 "refused C6 s a" \
        "condition C6: the two prices and the cost of each started pair come to K"
    expect "an unknown option" "$(given plan --price < "$text")" 64 nothing words
    expect "an unknown network" "$(given plan --network ring < "$text")" 64 nothing words
    expect "a direct network for prices of places" "$(given plan --network direct < examples/plan_places.txt)" 64 nothing \
        "mrjob: no direct network for so many splits or workers, or for prices of places"
    expect "a network for a check" "$(given check --network racks < "$text")" 64 nothing words
    expect "a plan in a text to plan from" "$(given plan < "$text")" 2 "line 7: fault 7" nothing
    expect "a problem in place of a script" "$(given play < "$text")" 2 "line 1: fault 7" nothing
    expect "an option for playing" "$(given play --prices < "$text")" 64 nothing words
    expect "an option for serving" "$(given serve --quiet < "$text")" 64 nothing words
    expect "a script that is stuck" "$(given play < examples/play_no_commands.txt)" 1 "stuck 0" nothing
    expect "a script that is done" "$(given play < examples/play_first.txt)" 0 "$(cat examples/play_first.out)" nothing
    expect "a problem in place of a job" "$(given run < "$text")" 2 "line 1: fault 7" nothing
    expect "an option for running" "$(given run --prices < "$text")" 64 nothing words
    expect "a job that is stuck" "$(given run < examples/run_stuck.txt)" 1 "$(cat examples/run_stuck.out)" nothing
    expect "a job in 64 MB of address space" "$(ulimit -v 64000; given run < examples/run_words.txt)" 0 \
        "$(cat examples/run_words.out)" nothing
    expect "a job in a stack of 96 KiB" "$(ulimit -s 96; given run < examples/run_words.txt)" 0 \
        "$(cat examples/run_words.out)" nothing
    expect "a job that is done" "$(given run < examples/run_words.txt)" 0 "$(cat examples/run_words.out)" nothing
    expect "more starts than the most attempts" \
        "$(scripts/make_texts.py full 1 | given play)" 5 nothing "mrjob: history full"
    expect "a text that is too long" "$(head -c 16777217 /dev/zero | given check)" 2 "line 0: fault 11" nothing
    expect "a text that is far too long" "$(head -c 100000000 /dev/zero | given check)" 2 "line 0: fault 11" nothing
    for network in direct racks; do
        status=0
        bench/make_problems.py one_host | "$program" plan --network $network > "$room/lines" 2> "$room/err" || status=$?
        head -n 1 "$room/lines" > "$room/out"
        expect "a thousand splits far from their one host, $network" "$status" 0 "wave 1024 274877906944" nothing
    done
    expect "an input that cannot be read" "$(given check < /)" 4 nothing "mrjob: read fault"
    expect "a script that cannot be read" "$(given play < /)" 4 nothing "mrjob: read fault"
    expect "a job that cannot be read" "$(given run < /)" 4 nothing "mrjob: read fault"
    expect "a session that cannot be read" "$(given serve < /)" 4 nothing "mrjob: read fault"
    status=0
    : > "$room/out"
    expect "a check without a reader" "$(left check < "$text")" 141 nothing nothing
    expect "a plan without a reader" "$(left plan < examples/plan_swap.txt)" 141 nothing nothing
    expect "a report without a reader" "$(left play < examples/play_first.txt)" 141 nothing nothing
    expect "a session without a reader" "$(left serve < examples/serve_session.txt)" 141 nothing nothing
    expect "an index without a reader" "$(left run < examples/run_words.txt)" 141 nothing nothing
    expect "explanations without a reader" "$(left explain)" 141 nothing nothing
    "$program" check < "$text" > /dev/full 2> "$room/err" || status=$?
    : > "$room/out"
    expect "an output that takes nothing" "$status" 4 nothing "mrjob: write fault"
    status=0
    "$program" run < examples/run_words.txt > /dev/full 2> "$room/err" || status=$?
    expect "an output that takes no index" "$status" 4 nothing "mrjob: write fault"
    status=0
    "$program" explain > /dev/full 2> "$room/err" || status=$?
    : > "$room/out"
    expect "explanations to an output that takes nothing" "$status" 4 nothing "mrjob: write fault"
    status=0
    "$program" --help > /dev/full 2> "$room/err" || status=$?
    : > "$room/out"
    expect "help to an output that takes nothing" "$status" 4 nothing "mrjob: write fault"
done
echo "$passed passed, $failed failed"
[ "$failed" = 0 ] && [ "$passed" != 0 ]

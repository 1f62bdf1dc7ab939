#!/usr/bin/env bash
# The gate. `rt ci` proves every crate from nothing and runs the tests. Beside it, with the processor time that it
# leaves, edits.py tries the edits of each crate that it has proved. Then, side by side, the C library is built over the
# libraries that it left and tried, and the scripts try the programs that it built; at last a MooseFS and jobs on a Dask
# cluster, where these are installed, and what is handed out. What failed is told once more at the end; the last line
# sums up what all of them counted.
set -uo pipefail
cd "$(dirname "$0")/.." || exit 1
command -v rt > /dev/null || exec scripts/build.py  # (which says where to get it)
room=$(mktemp -d)
edits=
trap 'kill $edits 2> /dev/null; rm -rf "$room"' EXIT
passed=0 failed=0 failures=

# Adds up what a command counted, in the last line of its output of the form 'N passed, M failed'. A library that the
# command stands on may print warnings after it, when the interpreter ends; the command's status tells whether it failed.
add_up() { # COMMAND STATUS LOG
    local bad=1
    if [[ $(grep -E '^[0-9]+ passed, [0-9]+ failed$' "$3" | tail -n 1) =~ ^([0-9]+)\ passed,\ ([0-9]+)\ failed$ ]]; then
        passed=$((passed + BASH_REMATCH[1]))
        bad=${BASH_REMATCH[2]}
        if [ "$2" != 0 ] && [ "$bad" = 0 ]; then bad=1; fi
    else
        echo "$1 ended with status $2 and counted nothing"
    fi
    failed=$((failed + bad))
    if [ "$bad" != 0 ]; then
        failures+="== $1: $bad failed"$'\n'"$(grep -v ': refused' "$3" | grep -A 4 -E 'FAIL|REFUSED|panicked|(^|[^a-z0-9])failed|error' | tail -n 40)"$'\n'
    fi
}

commands=() logs=() started=()

# Starts a command, whose words are shown when it is counted.
start() { # COMMAND..
    local log="$room/${#commands[@]}"
    "$@" > "$log" 2>&1 &
    commands+=("$*") logs+=("$log") started+=($!)
}

# Shows and counts all that were started, in their order.
count_all() {
    local at status
    for at in "${!commands[@]}"; do
        status=0
        wait "${started[at]}" || status=$?
        echo "== ${commands[at]}"
        cat "${logs[at]}"
        add_up "${commands[at]}" "$status" "${logs[at]}"
    done
    commands=() logs=() started=()
}

nice -n 19 scripts/edits.py --beside "$room/ci" > "$room/edits" 2>&1 &
edits=$!
echo "== rt ci"
rt ci | tee "$room/ci"
add_up "rt ci" "${PIPESTATUS[0]}" "$room/ci"
# the program as LLVM builds it and, where it can, as Rattle's own compiler does
programs=()
for program in crates/mrjob/out/mrjob crates/mrjob/out/mrjob.by-rattle; do
    if [ -x "$program" ]; then programs+=("$program"); fi
done
if [ ${#programs[@]} = 0 ]; then
    # (why, stands in the last lines)
    grep -E '^rt: .*(NOT PROVED|FAILED)|run rt fmt|rt: .*(warning|note: bad)' "$room/ci" | tail -n 20
    echo "no program was built, so nothing else is tried"
    echo "$passed passed, $((failed + 1)) failed"
    exit 1
fi
mkdir -p bin
install -m 755 "${programs[0]}" bin/mrjob
start scripts/examples.sh "${programs[@]}"
start scripts/statuses.sh "${programs[@]}"
start scripts/explained.py "${programs[@]}"
start scripts/progress.py "${programs[@]}"
start scripts/served.py "${programs[@]}"
start scripts/refused_calls.sh "${programs[@]}"
start scripts/differential.py "${programs[@]}"
start scripts/hostile.py "${programs[@]}"
start scripts/long_report.py "${programs[@]}"
start scripts/live_master.py "${programs[@]}"
start scripts/contrib.py "${programs[0]}"
start scripts/page.py "${programs[0]}"
start scripts/c_library.sh "${programs[0]}"
start scripts/soak.py --short bin/mrjob
start scripts/hdfs.py "${programs[@]}"
start scripts/another_ledger.py
start scripts/place_prices.py "${programs[@]}"
commands+=(scripts/edits.py) logs+=("$room/edits") started+=("$edits")
count_all
# (servers and workers are processes of their own, which want processors)
start scripts/moosefs.py "${programs[@]}"
count_all
start scripts/dask.py "${programs[@]}"
# (of the program and the library that the gate built)
start scripts/try_release.py
count_all
printf '%s' "$failures"
echo "$passed passed, $failed failed"
[ "$failed" = 0 ]

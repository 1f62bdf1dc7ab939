#!/usr/bin/env bash
# Runs each example through the built programs, and compares output and status with the files beside it.
# An example is run as `check`, or with the words of NAME.args where that file stands. A plan whose words name no network
# is made over each too, and its output is that of NAME.NETWORK.out where that file stands.
# usage: examples.sh PROGRAM..
set -euo pipefail
cd "$(dirname "$0")/.."
room=$(mktemp -d)
trap 'rm -rf "$room"' EXIT
passed=0 failed=0

# Runs an example with these words, which have this output.
try() { # PROGRAM NAME OUTPUT WORDS..
    local program=$1 name=$2 output=$3 status=0
    shift 3
    "$program" "$@" < "$name.txt" > "$room/out" 2> "$room/err" || status=$?
    if cmp -s "$room/out" "$output" && [ "$status" = "$(cat "$name.status")" ] && [ ! -s "$room/err" ]; then
        passed=$((passed + 1))
        echo "$program $*: $name.txt: ok"
    else
        failed=$((failed + 1))
        echo "$program $*: $name.txt: FAILED, with status $status and this output:"
        cat "$room/out" "$room/err"
    fi
}

for program in "$@"; do
    for text in examples/*.txt; do
        name=${text%.txt}
        words=(check)
        if [ -f "$name.args" ]; then mapfile -t words < "$name.args"; fi
        try "$program" "$name" "$name.out" "${words[@]}"
        if [ "${words[0]}" = plan ] && [[ " ${words[*]} " != *" --network "* ]]; then
            for network in direct racks; do
                output=$name.$network.out
                [ -f "$output" ] || output=$name.out
                try "$program" "$name" "$output" "${words[@]}" --network "$network"
            done
        fi
    done
done
echo "$passed passed, $failed failed"
[ "$failed" = 0 ] && [ "$passed" != 0 ]

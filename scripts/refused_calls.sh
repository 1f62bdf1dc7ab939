#!/usr/bin/env bash
# Refuses the built programs one call in turn, on examples, until a run meets none: each allocation, each read and
# each write of the output, and each thread. It also interrupts each transfer, once or for ever, has them all move one
# byte, and has the output take each front of the answer and no more. Last, it refuses each allocation of built tests
# that hold whichever is refused.
# usage: refused_calls.sh PROGRAM..
set -euo pipefail
cd "$(dirname "$0")/.."
room=$(mktemp -d)
trap 'rm -rf "$room"' EXIT
kit=$(dirname "$(rt doc)")
# (by the compiler that the kit brings)
"$kit/toolchain/bin/clang" -O2 -fPIC -shared -nostdlib -fuse-ld=lld -o "$room/refuse.so" scripts/refuse_call.c
: > "$room/nothing"
passed=0 failed=0

# The example that is run, the words of its command, and its status.
example=examples/swap
words=(check)
wanted=0

# Takes an example with its words and its status.
take() { # EXAMPLE
    example=examples/$1
    words=(check)
    if [ -e "$example.args" ]; then mapfile -t words < "$example.args"; fi
    wanted=$(< "$example.status")
}

# Makes a job whose index is so long that threads make its lines, and takes it.
take_long_index() {
    example=$room/long_index words=(run) wanted=0
    local word words_of_doc
    words_of_doc=$(printf ' %s' {a..z}{a..t}{a..j})
    printf 'job 1\nsilence 1000\nrack r\nworker a r 1\nsplit s 3 a\ndoc d s%s\nend\n' "$words_of_doc" > "$example.txt"
    {
        echo "index 5200"
        for word in $words_of_doc; do echo "word $word d"; done
    } > "$example.out"
}

# Runs the program with one call refused; the words that it says and its status are in $said, and in $met what met it.
# (A run that does not end is stopped after a time that none comes near.)
run() { # PROGRAM KIND NTH
    local status=0
    timeout 300 env -i LD_PRELOAD="$room/refuse.so" REFUSE="$2" NTH="$3" "$1" "${words[@]}" \
        < "$example.txt" > "$room/out" 2> "$room/err" 9> "$room/met" || status=$?
    said="$(cat "$room/err") ($status)"
    met=$(cat "$room/met")
}

# Whether the last run gave the whole answer: std asks for an amortized growth first, and where that is refused for
# just as much as is needed, so a run may go on after a refusal.
is_whole() {
    [ "$said" = " ($wanted)" ] && cmp -s "$room/out" "$example.out"
}

# Counts a sweep, and shows what it came to.
count() { # PROGRAM KIND SUM WRONG
    echo "$1 ${words[*]}: $2: $3, $4 wrong"
    if [ "$4" = 0 ]; then passed=$((passed + 1)); else failed=$((failed + 1)); fi
}

show() { # PROGRAM KIND NTH
    echo "$1 ${words[*]}: $2 $3: it says: $said"
}

sweep() { # PROGRAM KIND WORDS-AND-STATUS OUTPUT
    local wrong=0 calls=0 told=0 nth
    for ((nth = 1; nth <= 10000; nth++)); do
        run "$1" "$2" "$nth"
        [[ $met == x* ]] || break
        calls=$nth
        if [ "$said" = "$3" ] && cmp -s "$room/out" "$4"; then
            told=$((told + 1))
        elif [ "$2" != alloc ] || ! is_whole; then
            wrong=$((wrong + 1))
            show "$1" "$2" "$nth"
        fi
    done
    # the run that met no refusal, and at least one that did
    if ! is_whole || [ "$told" = 0 ] || [ "$nth" -gt 10000 ]; then
        wrong=$((wrong + 1))
        show "$1" "$2" "after $calls"
    fi
    count "$1" "$2" "$calls calls, one refused in each run: $told told, $((calls - told - wrong)) done without" "$wrong"
}

# The output takes one byte a call, up to each front of the answer, and then no more.
sweep_fronts() { # PROGRAM KIND
    local wrong=0 nth size
    size=$(stat -c %s "$example.out")
    for ((nth = 1; nth <= size; nth++)); do
        run "$1" "$2" "$nth"
        head -c $((nth - 1)) "$example.out" > "$room/front"
        if [ "$said" != "mrjob: write fault (4)" ] || ! cmp -s "$room/out" "$room/front"; then
            wrong=$((wrong + 1))
            show "$1" "$2" "$nth"
        fi
    done
    run "$1" "$2" "$nth"
    if ! is_whole; then wrong=$((wrong + 1)); show "$1" "$2" "$nth"; fi
    count "$1" "$2" "$size fronts of the answer" "$wrong"
}

# Refuses each thread. The program says so where it can't do without it; all that were started have ended by then.
sweep_threads() { # PROGRAM WORDS-AND-STATUS
    local wrong=0 threads=0 told=0 nth
    for ((nth = 1; nth <= 1000; nth++)); do
        run "$1" thread "$nth"
        [[ $met == x* ]] || break
        threads=$nth
        if [ "$said" = "$2" ] && [ ! -s "$room/out" ] && [ "$met" = x0 ]; then
            told=$((told + 1))
        elif ! is_whole || [ "$met" != x0 ]; then
            wrong=$((wrong + 1))
            show "$1" thread "$nth, after which $met ran"
        fi
    done
    if ! is_whole || [ "$met" != 0 ] || [ "$told" = 0 ]; then
        wrong=$((wrong + 1))
        show "$1" thread "after $threads"
    fi
    count "$1" thread "$threads threads, one refused in each run: $told told, $((threads - told - wrong)) done without" \
        "$wrong"
}

# Refuses each allocation of a job on threads. Which one is met in which run depends on the threads, and a worker that
# finds no memory fails its attempt alone: a run ends with want of memory, without a thread, stuck, or with the index.
sweep_job() { # PROGRAM
    local wrong=0 calls=0 told=0 nth
    for ((nth = 1; nth <= 10000; nth++)); do
        run "$1" alloc "$nth"
        [[ $met == x* ]] || break
        calls=$nth
        case "$said" in
            "mrjob: no memory (3)" | "mrjob: no thread (6)") [ ! -s "$room/out" ] && told=$((told + 1)) && continue ;;
            " (1)") [[ $(head -n 1 "$room/out") == stuck* ]] && continue ;;
            *) is_whole && continue ;;
        esac
        wrong=$((wrong + 1))
        show "$1" alloc "$nth"
    done
    if ! is_whole || [ "$told" = 0 ] || [ "$nth" -gt 10000 ]; then
        wrong=$((wrong + 1))
        show "$1" alloc "after $calls"
    fi
    count "$1" alloc "$calls calls, one refused in each run: $told told" "$wrong"
}

# Refuses each allocation of a session. Of an answer that found no memory nothing is written, and those before it are
# whole.
sweep_session() { # PROGRAM
    local wrong=0 calls=0 told=0 nth
    for ((nth = 1; nth <= 10000; nth++)); do
        run "$1" alloc "$nth"
        [[ $met == x* ]] || break
        calls=$nth
        head -c "$(stat -c %s "$room/out")" "$example.out" > "$room/front"
        # (what ends with an empty line ends with an answer)
        if [ "$said" = "mrjob: no memory (3)" ] && cmp -s "$room/out" "$room/front" &&
            [ -z "$(tail -n 1 "$room/out")" ]; then
            told=$((told + 1))
        elif ! is_whole; then
            wrong=$((wrong + 1))
            show "$1" alloc "$nth"
        fi
    done
    if ! is_whole || [ "$told" = 0 ] || [ "$nth" -gt 10000 ]; then
        wrong=$((wrong + 1))
        show "$1" alloc "after $calls"
    fi
    count "$1" alloc "$calls calls, one refused in each run: $told told, $((calls - told - wrong)) done without" "$wrong"
}

for program in "$@"; do
    for name in swap plan_prices play_death run_words; do
        take $name
        for kind in read broken asleep; do
            sweep "$program" $kind "mrjob: read fault (4)" "$room/nothing"
        done
        sweep "$program" write "mrjob: write fault (4)" "$room/nothing"
        for kind in full idle; do sweep_fronts "$program" $kind; done
        for kind in interrupt short; do sweep "$program" $kind " ($wanted)" "$example.out"; done
    done
    for name in swap nothing_started; do
        take $name
        sweep "$program" alloc "mrjob: no memory (3)" "$room/nothing"
    done
    for name in plan_swap plan_count_first plan_prices; do
        for network in direct racks; do
            take $name
            words+=(--network "$network")
            sweep "$program" alloc "mrjob: no memory (3)" "$room/nothing"
        done
    done
    take play_death
    sweep "$program" alloc "mrjob: no memory (3)" "$room/nothing"
    for name in serve_session serve_queries serve_own_plan; do
        take $name
        for kind in full idle; do sweep_fronts "$program" $kind; done
        for kind in interrupt short; do sweep "$program" $kind " ($wanted)" "$example.out"; done
        sweep_session "$program"
    done
    take run_words
    sweep_job "$program"
    for name in run_words run_many_parts; do
        take $name
        sweep_threads "$program" "mrjob: no thread (6)"
    done
    take_long_index
    sweep_threads "$program" "mrjob: no thread (6)"
done

# Refuses each allocation of a built test that holds whichever of them is refused.
sweep_test() { # CRATE TEST
    local tests=crates/$1/out/$1_tests calls=0 wrong=0 nth
    for ((nth = 1; nth <= 10000; nth++)); do
        env -i LD_PRELOAD="$room/refuse.so" REFUSE=alloc NTH="$nth" "$tests" "$2" \
            > "$room/out" 2>&1 9> "$room/met" || { wrong=$((wrong + 1)); cat "$room/out"; }
        [ -s "$room/met" ] || break
        calls=$nth
    done
    echo "$tests: $2: $calls allocations, one refused in each run, $wrong wrong"
    if [ "$calls" = 0 ] || [ "$nth" -gt 10000 ]; then wrong=$((wrong + 1)); fi
    if [ "$wrong" = 0 ]; then passed=$((passed + 1)); else failed=$((failed + 1)); fi
}

sweep_test plan_tests flows::refused_arcs_leave_no_trace
sweep_test text_tests indexes::a_refused_allocation_is_told
for name in commit_changes_nothing commit_of_an_old_plan_changes_nothing reduce_start_changes_nothing; do
    sweep_test master_tests "refusals::a_refused_$name"
done
sweep_test master_tests refusals::refused_readers_change_nothing
for name in hand_changes_nothing wave_changes_nothing call_leaves_the_whole_master; do
    sweep_test master_tests "hand_refusals::a_refused_$name"
done
sweep_test thread_tests boards::a_refused_board_leaves_no_trace
sweep_test thread_tests lanes::a_refused_close_gives_all_back

echo "$passed passed, $failed failed"
[ "$failed" = 0 ] && [ "$passed" != 0 ]

#!/usr/bin/env bash
# Runs the tests and two programs that the gate has built once more, with `refuse_allocations.c` in front of the heap:
# each allocation of a call, or of a program, is refused in turn, or all of them. Prints a line for each call and
# program. It fails if one is wrong, if none of its allocations was refused, or if the calls and the numbers of their
# allocations are not those of `allocations.txt`. The numbers of `raft_trace`, which runs the judge of recorded runs,
# are not there, because each change of the judge would change them.
#
# Usage: tools/allocations.sh
set -u -o pipefail
cd "$(dirname "$0")/.."
toolchain=$(dirname "$(rt doc | head -n 1)")/toolchain/bin
folder=$(mktemp -d)
trap 'rm -rf "$folder"' EXIT
"$toolchain/clang" -O2 -Wall -Werror -fPIC -shared -nostdlib --ld-path="$toolchain/ld.lld" \
    -o "$folder/refuse.so" tools/refuse_allocations.c || exit 1
right=0
wrong=0

# Runs a crate's tests one by one, and judges what they print about allocations.
run_tests() {
    local program=crates/$1/out/$1_tests tests said lines
    tests=$("$program" --list | sed -n 's/: test$//p')
    said=$(for test in $tests; do
        LD_PRELOAD="$folder/refuse.so" "$program" "$test" 2>&1 || echo "$test: failed"
    done)
    lines=$(grep -E '^.+: ([0-9]+ allocations|no allocations|in ample memory|wrong)$' <<< "$said")
    echo "$1:"
    echo "$lines"
    sed "s/^/$1, /" <<< "$lines" >> "$folder/ran"
    right=$((right + $(grep -c ' allocations$' <<< "$lines")))
    if [ -z "$lines" ] || grep -qv ' allocations$' <<< "$lines" || grep ': failed$' <<< "$said"; then
        wrong=$((wrong + 1))
        echo "$1: wrong"
    fi
}

# Runs a program in ample memory, and then with each of its allocations refused, until a run has none left to refuse:
# its name, the function that judges a status, an output and the standard error, and the command. Leaves the number in
# `count`, and what the program writes in ample memory in `whole`, after the status.
sweep() {
    local name=$1 is_right=$2 output status
    shift 2
    count=0
    whole=$("$@" 2> /dev/null)
    whole="$? $whole"
    while :; do
        output=$(REFUSE_ALLOCATION=$((count + 1)) LD_PRELOAD=$folder/refuse.so "$@" 2> "$folder/errors")
        status=$?
        grep -qx refused "$folder/errors" || break
        count=$((count + 1))
        if ! "$is_right" "$status" "$output" "$(cat "$folder/errors")"; then
            echo "$name, allocation $count: wrong, status $status, wrote '$output', said '$(cat "$folder/errors")'"
            wrong=$((wrong + 1))
        fi
    done
    echo "$name: $count allocations"
    [ "$count" -gt 0 ] && [ "$status $output" = "$whole" ] || wrong=$((wrong + 1))
}

# The script of `raft-state`, which begins with the line 0. Each later line has one reply. The reason for the bad
# line 12 needs allocations.
script=('init 0 1,2 3' 'update 1 5' 'update 2 3' 'change add-ids 3 retain 0' 'update 3 4'
    'change add-ids 4 retain 0' 'update 9 1' 'update 3 2' 'change remove 1,2,3 drop 0'
    'change replace 2,3 retain 4' 'increase 2 7' 'init 0 1,,2 -')
run_script() { printf '%s\n' "$@" | crates/raft_script/out/raft_script; }

# Prints the replies if the allocation of a line fails: all is as it was, and the later lines go on.
answers_without() {
    local lines=("${script[@]}")
    lines[$1]='increase 99 0'
    run_script "${lines[@]}" 2> /dev/null | sed "$1s/.*/no-memory/"
}

# Whether a run of the script is right: it has the replies of the whole run or of one with a line without memory, or
# ends with an error. The reason for a bad line may be there or not: for the last line, or for the second one if the
# `init` had no memory.
is_script_right() {
    local answer said last='line 12: `1,,2` is no list of configs'
    said=$(grep -vxF -e "$last" -e 'line 2: no `init` has succeeded before this step' <<< "$3")
    [ "$1" = 1 ] && [[ $whole == "2 $2"* ]] && [ "$said" = $'refused\nfault' ] && return
    for answer in "$whole" "${answers[@]}"; do
        [ "$1 $2" = "$answer" ] && [ "$said" = refused ] && return
    done
}

# Whether a run of `raft_trace` is right: it answers as in ample memory, or says by its status that there is no memory,
# and nothing else of the run.
is_trace_right() {
    case "$1 $2" in
        "$whole" | "3 " | "3 "*": out of memory") ;;
        *) return 1 ;;
    esac
}
run_trace() { crates/trace_program/out/trace_program --chart < "crates/trace_program/runs/$1.jsonl"; }

for tests in tests_base tests_members tests_progress tests_state tests_handlers tests_checker; do
    run_tests "$tests"
done
answers=($'2 no-memory\nbad line 2')
for line in "${!script[@]}"; do
    [[ ${script[line]} == change* ]] && answers+=("2 $(answers_without "$line")")
done
sweep raft_script is_script_right run_script "${script[@]}"
echo "raft_script, the twelve lines: $count allocations" >> "$folder/ran"
for run in two_votes snapshot joint_change second_config_unknown; do
    sweep "raft_trace $run" is_trace_right run_trace "$run"
done
if ! diff <(LC_ALL=C sort -u tools/allocations.txt) <(LC_ALL=C sort -u "$folder/ran"); then
    echo 'tools/allocations.txt: wrong, a line with < has not run, one with > is not in it'
    wrong=$((wrong + 1))
fi
echo "allocations: $right calls are right, $wrong parts are wrong"
[ "$wrong" = 0 ]

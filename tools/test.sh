#!/usr/bin/env bash
# Runs every test and each program as they are, without a proof. Prints a line for each crate as it
# ends, with its time. The last line has their number.
#
# Usage: tools/test.sh
set -u -o pipefail
cd "$(dirname "$0")/../crates"
passed=0
failed=0

# Runs a crate's tests, and counts them.
run_tests() {
    local began=$SECONDS said counts
    said=$(cd "$1" && rt try --test 2>&1)
    counts=$(grep -oE '[0-9]+ passed; [0-9]+ failed' <<< "$said" | tail -n 1)
    if [ -z "$counts" ]; then
        echo "$said"
        counts="0 passed; 1 failed"
    elif [[ $counts != *" 0 failed" ]]; then
        echo "$said"
    fi
    echo "$1: $counts, $((SECONDS - began)) s"
    read -r more _ less _ <<< "$counts"
    passed=$((passed + more))
    failed=$((failed + less))
}

# Runs a program on its input, and compares what it prints.
run_program() {
    local began=$SECONDS input=/dev/null is="prints its file stdout"
    [ -e "$1/stdin" ] && input=$1/stdin
    local words=()
    [ -e "$1/args" ] && mapfile -t words < "$1/args"
    if (cd "$1" && rt try -- "${words[@]}" 2> /dev/null) < "$input" | diff - "$1/stdout"; then
        passed=$((passed + 1))
    else
        failed=$((failed + 1))
        is="prints something else than its file stdout"
    fi
    echo "$1: $is, $((SECONDS - began)) s"
}

for tests in tests_* raft_script; do [ "$tests" = tests_support ] || run_tests "$tests"; done
for program in raft_script trace_program example_first example_node example_cluster; do run_program "$program"; done
echo "$passed passed, $failed failed, none proved, $SECONDS s"
[ "$failed" = 0 ]

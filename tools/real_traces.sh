#!/usr/bin/env bash
# Records and judges real clusters: three processes of etcd's raft, and three of hashicorp's, on loopback. They are killed
# and restarted, lose messages, change their members and transfer leadership. Each process records into a file of its
# own, and writes what it applies into another one, which the program compares by itself. The gate does not run this: it
# takes some minutes of wall time, installs Debian's packages of the two libraries if they are missing, and no run comes
# twice.
#
# Usage: tools/real_traces.sh [SEEDS [SECONDS]]    after `rt ci` or, in crates/trace_program, `rt run` has built the judge
set -eu -o pipefail
cd "$(dirname "$0")/.."
seeds=${1-20}
seconds=${2-6}
judge=$PWD/crates/trace_program/out/trace_program
[ -x "$judge" ] || { echo "$judge: not built"; exit 1; }
packages=(golang-go golang-etcd-server-dev golang-github-hashicorp-raft-dev)
dpkg -s "${packages[@]}" > /dev/null 2>&1 || { apt-get update; apt-get install -y "${packages[@]}"; }
folder=$(mktemp -d)
trap 'rm -rf "$folder"' EXIT
mkdir "$folder/src"
cp -r docs/trace "$folder/src/trace"
export GO111MODULE=off GOPATH=$folder:/usr/share/gocode
passed=0
failed=0
for engine in etcd hashicorp; do
    (cd "$folder/src/trace" && go vet . "./$engine" && go build -o "$folder/$engine" "./$engine")
    for ((seed = 1; seed <= seeds; seed++)); do
        mkdir "$folder/run"
        ended=0
        applied=$("$folder/$engine" -folder "$folder/run" -seed "$seed" -seconds "$seconds" 2>&1) || ended=$?
        status=0
        answer=$("$judge" "$folder"/run/*.jsonl 2>&1) || status=$?
        echo "$engine, seed $seed: $applied; $answer"
        if [ "$ended" = 0 ] && [ "$status" = 0 ]; then passed=$((passed + 1)); else failed=$((failed + 1)); fi
        rm -rf "$folder/run"
    done
done
echo "$passed passed, $failed failed"
[ "$failed" = 0 ]

#!/usr/bin/env bash
# Runs the programs that the gate has built, and says which runs are wrong.
#
# Usage: tools/programs.sh [statuses | seeds]
#
# `statuses` compares the exit status, the output and the standard error of `raft-state`, also for odd
# input and with words on its command line, of the options of the simulated cluster, and of `raft_trace`. It compares
# the answers of `raft_trace` to the runs of crates/trace_program/runs with the table there, and to recorded runs of the
# simulated cluster, without a fault and with each planted one, with the rule that names the fault.
# `seeds` runs the cluster: 2,000 seeds and long runs, each of which must be safe and converge and never be long without a
# commit, and 300 seeds with each planted fault, which some must show. It also runs 50 seeds over openraft's
# default leader ids, and one with a planted fault, by a copy of the sources that is not proved. Without a word the tool
# does both.
set -u -o pipefail
cd "$(dirname "$0")/.."
crate=crates/raft_script
passed=0
failed=0
errors=$(mktemp)
record=$(mktemp)
trap 'rm -f "$errors" "$record"' EXIT

# Counts a run: its name, whether it is right, and what is wrong otherwise.
count() {
    if [ "$2" = right ]; then
        passed=$((passed + 1))
    else
        failed=$((failed + 1))
        echo "programs: $1: $3"
    fi
}

# Compares a run of `raft-state`: its name, the status, output and standard error that are due, and its command.
compare() {
    local name=$1 due="$2 $3 $4" output status is=wrong
    shift 4
    output=$("$@" 2> "$errors")
    status=$?
    [ "$due" = "$status $output $(cat "$errors")" ] && is=right
    count "$name" $is "status $status, wrote '$output', said '$(cat "$errors")'"
}

# `timeout` ends a run with status 124.
run() { timeout 60 $crate/out/raft_script "$@"; }
run_into_full_device() { run "$@" > /dev/full; }
run_into_closed_pipe() { run | head -n 1; }
usage_of() { run "$@" | head -n 1; }
cluster() { timeout 120 crates/example_cluster/out/example_cluster "$@"; }
silent_cluster() { cluster "$@" > /dev/null; }
begin() { printf 'init 0 1 -\nupdate 1 5\n'; }
trace() { timeout 60 crates/trace_program/out/trace_program "$@"; }
trace_into_full_device() { trace "$@" > /dev/full; }
trace_into_nothing() { trace "$@" >&-; }
trace_unheard() { trace "$@" 2>&-; }
# Has so many kilobytes of memory and so many seconds of a processor: with more work than the lines say it takes longer.
trace_within() { (ulimit -v "$1" -t "$2"; shift 2; trace "$@"); }
trace_usage() { trace "$@" | grep '^Usage: '; }
# How `raft_trace` says that a word is wrong: what is wrong, a tip, and the usage.
trace_mistake() {
    printf 'error: %s\n\n  tip: %s\n\nUsage: raft_trace %s\n\n' "$@"
    printf "For more information, try '--help'."
}
start() { printf '{"event":"started","voters":[[1,2,3]]}\n'; }
# Ten megabytes of a piece, over and over.
ten_megabytes() { yes "$1" | tr -d '\n' | head -c 10000000; }
# A snapshot is installed over and over, each time with a row of the chart.
many_snapshots() {
    printf '{"event":"started","voters":[[1]]}\n{"event":"campaigned","server":1,"term":1}\n'
    printf '{"event":"wrote","leader":1,"term":1,"content":7}\n'
    yes '{"event":"appended","server":2,"term":1,"leader":1,"index":1}' | head -n 100000
}
# A run of five servers and 70,000 entries. Server 2 campaigns and fails before each tenth entry, and server 1 leads again.
# Server 5 takes snapshots, and server 4 restarts with entries of which no other line says that it has taken them.
long_run() {
    awk '
        function line(event, fields) { printf "{\"event\":\"%s\",%s}\n", event, fields }
        function named(name, id) { return sprintf("\"%s\":%d,\"term\":%d", name, id, term) }
        function indexed(server) { return named("server", server) sprintf(",\"leader\":1,\"index\":%d", i) }
        BEGIN {
            line("started", "\"voters\":[[1,2,3,4,5]]")
            for (i = 1; i <= 70000; i++) {
                if (i % 10 == 1) {
                    term++
                    line("campaigned", named("server", 2))
                    term++
                    line("campaigned", named("server", 1))
                    line("granted", named("server", 2) ",\"candidate\":1")
                    line("granted", named("server", 3) ",\"candidate\":1")
                }
                line("wrote", named("leader", 1) sprintf(",\"index\":%d,\"content\":%d", i, i))
                for (s = 1; s <= 4; s++) {
                    if (s == 4 && i % 25 == 0)
                        line("restarted", sprintf("\"server\":4,\"index\":%d,\"last_term\":%d", i, term))
                    else
                        line("appended", named("server", s) \
                            sprintf(",\"leader\":1,\"prev\":%d,\"entries\":[[%d,%d]]", i - 1, term, i))
                    line("acked", indexed(s))
                }
                line("committed", named("leader", 1) sprintf(",\"index\":%d", i))
                for (s = 1; s <= 4; s++)
                    line("applied", sprintf("\"server\":%d,\"index\":%d", s, i))
                if (i % 20 == 0) {
                    line("appended", indexed(5))
                    line("acked", indexed(5))
                    line("applied", sprintf("\"server\":5,\"index\":%d", i))
                }
            }
        }'
}
# A run in which each entry but the first one changes the members: a server is added and removed, over and over. Configs
# count once they are `appended` or `applied`.
many_changes() {
    awk -v configs="$1" '
        function line(event, fields) { printf "{\"event\":\"%s\",%s}\n", event, fields }
        function indexed(server) { return sprintf("\"server\":%d,\"term\":1,\"leader\":1,\"index\":%d", server, i) }
        BEGIN {
            line("started", "\"voters\":[[1,2,3]],\"configs\":\"" configs "\"")
            line("campaigned", "\"server\":1,\"term\":1")
            line("granted", "\"server\":2,\"term\":1,\"candidate\":1")
            for (i = 1; i <= 54546; i++) {
                voters = i == 1 ? "" : i % 2 ? ",\"voters\":[[1,2,3]]" : ",\"voters\":[[1,2,3,4]]"
                line("wrote", sprintf("\"leader\":1,\"term\":1,\"index\":%d,\"content\":\"%x\"%s", i, i, voters))
                for (s = 1; s <= 3; s++) {
                    line("appended", sprintf("\"server\":%d,\"term\":1,\"leader\":1,\"prev\":%d,\"entries\":[[1,\"%x\"]]", s, i - 1, i))
                    line("acked", indexed(s))
                }
                line("committed", sprintf("\"leader\":1,\"term\":1,\"index\":%d", i))
                for (s = 1; s <= 3; s++)
                    line("applied", sprintf("\"server\":%d,\"index\":%d", s, i))
            }
        }'
}
# Forty bytes of a long word, as a reason shows them: a piece, over and over. The piece `\x00` is one byte.
cut_word() {
    local piece=$1 shown="" bytes=${#1}
    [[ $piece == '\x'* ]] && bytes=1
    for _ in $(seq $((40 / bytes))); do shown+=$piece; done
    printf '`%s..`' "$shown"
}

statuses() {
    compare "the end of input" 0 "granted 5" "" run < <(begin)
    compare "a change of members" 0 "$(cat $crate/change.stdout)" "" run < $crate/change.stdin
    compare "no input" 0 "" "" run < /dev/null
    compare "no line feed" 0 "granted 5" "" run < <(printf 'init 0 1 -\nupdate 1 5')
    compare "the end inside a word" 2 $'granted 5\nbad line 3' "line 3: \`upd\` is no command" \
        run < <(begin; printf 'upd')
    compare "a bad line" 2 $'granted 5\nbad line 3' "line 3: \`x\` is no command" \
        run < <(begin; printf 'x\nupdate 1 6\n')
    compare "a long number" 2 $'granted 5\nbad line 3' "line 3: $(cut_word 9) is no number" run \
        < <(begin; printf 'update 1 '; ten_megabytes 9; printf '\nupdate 1 6\n')
    compare "a long line of digits" 2 "bad line 1" "line 1: $(cut_word 1234567890) is no command" \
        run < <(ten_megabytes 1234567890)
    compare "a long list" 0 "granted 5" "" run \
        < <(printf 'init 0 '; ten_megabytes 1,; printf '1 -\nupdate 1 5\n')
    compare "zero bytes" 2 "bad line 1" "line 1: $(cut_word "\\x00") is no command" \
        run < <(head -c 10000000 /dev/zero)
    compare "zero bytes after a reply" 2 $'granted 5\nbad line 3' "line 3: $(cut_word "\\x00") is no command" \
        run < <(begin; head -c 10000000 /dev/zero)
    compare "empty lines" 0 "granted 5" "" run < <(yes '' | head -n 100000; begin)
    compare "a bad line after empty lines" 2 "bad line 100001" "line 100001: \`x\` is no command" \
        run < <(yes '' | head -n 100000; printf 'x\n')
    compare "a step before any init" 2 "bad line 2" "line 2: no \`init\` has succeeded before this step" \
        run < <(printf '\nupdate 1 5\n')
    compare "a negative number" 2 "bad line 2" "line 2: \`-1\` is no number" run \
        < <(printf 'init 0 1 -\nupdate 1 -1\n')
    compare "a short line" 2 "bad line 1" "line 1: a word is missing at the end" run < <(printf 'init 0 1')
    compare "a long line" 2 "bad line 1" "line 1: \`2\` is one word too many" run < <(printf 'init 0 1 - 2')
    compare "an error of input" 1 "" "fault" run < /
    compare "an error of output" 1 "" "fault" run_into_full_device < <(begin)
    compare "output closed early, input without end" 1 "granted 5" "fault" run_into_closed_pipe \
        < <(begin; yes 'increase 1 5')
    for word in --help -h; do
        compare "$word" 0 "Usage: raft-state < SCRIPT" "" usage_of "$word" < <(begin)
    done
    for word in script.txt -v ""; do
        compare "the word '$word'" 2 "" "$(run --help)" run "$word" < <(begin)
    done
    compare "--help into a full device" 1 "" "fault" run_into_full_device --help
    options
    records
    written_runs
    recorded_runs
}

# The answers of `raft_trace`, also to odd input.
records() {
    local word safe="3 servers, 0 terms with a leader, 0 committed, 0 membership changes"
    local no_json="line 2: it is no JSON at column" unexpected="this may not follow in JSON, or it is nested deeper than 127"
    compare "a safe run" 0 "$(cat crates/trace_program/stdout)" "" trace < crates/trace_program/stdin
    compare "a chart" 0 "$(cat crates/trace_program/chart.stdout)" "" trace --chart < crates/trace_program/stdin
    compare "no record" 2 "line 1: it is empty, and the first line has to be \`started\`" "" trace < /dev/null
    compare "a start alone" 0 "safe: 0 events, $safe" "" trace < <(start)
    compare "no voters" 2 "line 1: \`voters\` of \`started\` is [], and has to be a list of one config or two, each a list of\
 servers that is not empty" "" trace < <(printf '{"event":"started","voters":[]}')
    compare "brackets" 2 "$no_json 129: $unexpected" "" trace < <(start; ten_megabytes '[')
    compare "zero bytes in a record" 2 "$no_json 1: $unexpected" "" trace < <(start; head -c 10000000 /dev/zero)
    compare "no UTF-8" 2 "line 2: it is no UTF-8 at column 1" "" trace < <(start; printf '\xff\n')
    compare "the end inside an event" 2 "$no_json 10: the line ends too early" "" trace < <(start; printf '{"event":"camp')
    compare "a long field" 0 "safe: 1 event, $safe" "" trace \
        < <(start; printf '{"x":"'; ten_megabytes a; printf '","event":"campaigned","server":1,"term":1}\n')
    compare "carriage returns" 0 "safe: 1 event, $safe" "" trace \
        < <(start; printf '{"event":"campaigned","server":1,"term":1}\r\n')
    compare "a field twice, of which the last counts" 0 "safe: 2 events, $safe" "" trace \
        < <(start; printf '{"event":"campaigned","server":1,"term":7,"term":1}\n'
            printf '{"event":"granted","server":2,"term":1,"candidate":1}\n')
    for number in 1.8446744073709552e+19 100.0; do
        compare "the term $number" 2 "line 2: \`term\` of \`campaigned\` is $number, and has to be a number below\
 2^64" "" trace < <(start; printf '{"event":"campaigned","server":1,"term":%s}\n' "$number")
    done
    compare "20,000 servers" 0 \
        "safe: 20,000 events, 20,000 servers, 0 terms with a leader, 0 committed, 0 membership changes" "" trace \
        < <(start; seq 20000 | sed 's/.*/{"event":"campaigned","server":&,"term":1}/')
    compare "empty lines in a record" 0 "safe: 0 events, $safe" "" trace \
        < <(start; yes '' | head -n 100000)
    compare "an index of 2^63" 1 "line 2: server 1 restarts with index 9223372036854775808: the server does not have so many entries" \
        "" trace < <(start; printf '{"event":"restarted","server":1,"index":9223372036854775808}')
    compare "the greatest index" 2 "line 2: \`index\` of \`restarted\` is 18446744073709551615, and has to be a number from\
 \`first - 1\` on, and below 2^64 - 1" "" trace \
        < <(start; printf '{"event":"restarted","server":1,"index":18446744073709551615}')
    compare "a long name" 1 \
        "line 2: server \"$(printf 'a%.0s' {1..80})\".. campaigns in term 0: the server has reached or passed the term already" \
        "" trace < <(start; printf '{"event":"campaigned","term":0,"server":"'; ten_megabytes a; printf '"}\n')
    compare "a long line without memory" 3 "line 2: out of memory" "" trace_within 28000 15 \
        < <(start; printf '{"x":"'; ten_megabytes a; printf '","event":"campaigned","server":1,"term":1}\n')
    compare "a chart without memory" 3 "" "raft_trace: out of memory" trace_within 14000 15 --chart < <(many_snapshots)
    compare "a million lines" 0 "safe: 1,018,500 events, 5 servers, 7,000 terms with a leader, 70,000 committed, 0 membership\
 changes, 2,800 appends inferred" "" trace_within 60000 15 < <(long_run)
    for word in appended applied; do
        compare "54,545 changes of members that count once they are $word" 0 "safe: 600,008 events, 4 servers, 1 term with a leader,\
 54,546 committed, 54,545 membership changes" "" trace_within 100000 5 < <(many_changes $word)
    done
    compare "a record that cannot be read" 3 "standard input: Is a directory (os error 21)" "" trace < /
    compare "an answer that cannot be written" 3 "" "raft_trace: No space left on device (os error 28)" \
        trace_into_full_device < <(start)
    files
}

# The command line of `raft_trace`.
files() {
    local folder word said
    folder=$(mktemp -d)
    said=$(cat crates/trace_program/stdout)
    for word in --help -h; do
        compare "$word of raft_trace" 0 "Usage: raft_trace [OPTIONS] [FILE]..." "" trace_usage "$word" < <(start)
    done
    compare "help after a file" 0 "Usage: raft_trace [OPTIONS] [FILE]..." "" trace_usage "$folder/none" --help
    compare "an unknown option" 2 "" "$(trace_mistake "unexpected argument '-v' found" \
        "to pass '-v' as a value, use '-- -v'" "[OPTIONS] [FILE]...")" trace -v < <(start)
    compare "an option that is cut off" 2 "" "$(trace_mistake "unexpected argument '--char' found" \
        "a similar argument exists: '--chart'" "--chart [FILE]...")" trace --char < <(start)
    compare "help into a full device" 3 "" "raft_trace: No space left on device (os error 28)" trace_into_full_device --help
    compare "a missing file" 2 "" "raft_trace: $folder/none: No such file or directory (os error 2)" \
        trace - "$folder/none" < <(start)
    compare "a file with the name of an option" 2 "" "raft_trace: --chart: No such file or directory (os error 2)" \
        trace -- --chart < <(start)
    compare "an empty word" 2 "" "raft_trace: : No such file or directory (os error 2)" trace "" < <(start)
    compare "a directory" 3 "$folder: Is a directory (os error 21)" "" trace "$folder"
    compare "a directory after a start" 3 "$folder: Is a directory (os error 21)" "" trace - "$folder" < <(start)
    compare "a closed output" 3 "" "raft_trace: Bad file descriptor (os error 9)" trace_into_nothing < <(start)
    compare "a word that is no UTF-8" 2 "" $'raft_trace: a\uFFFD: the word is no UTF-8' trace $'a\xff' < <(start)
    compare "a wrong word with standard error closed" 2 "" "" trace_unheard -v < <(start)
    compare "a file" 0 "$said" "" trace crates/trace_program/stdin
    compare "standard input among files" 0 "$said" "" trace - /dev/null < crates/trace_program/stdin
    # Each server has its own file, which has the events of the others in no order.
    for word in 1 2 3 4 5; do
        { head -n 1 crates/trace_program/stdin; grep -E "\"(server|leader)\":$word," crates/trace_program/stdin \
            | grep -vE "\"server\":[^$word],"; } > "$folder/$word"
    done
    compare "a file of each server" 0 "$said" "" trace "$folder"/[1-5]
    compare "a server without its file" 1 "$folder/1:3: leader 1 writes an entry in term 1: the leader is not elected in the term
  no quorum so far has voted for 1 in term 1, only 1" "" trace "$folder"/1
    compare "a start in another file" 2 "$folder/2:1: only the first line says how the cluster starts, and this one says another start" \
        "" trace - "$folder"/2 < <(start)
    rm -rf "$folder"
}

# Judges a record: its name, the status that is due, how the first line of the answer begins, what it ends with, or has
# in it if the run is safe, and the file.
judge() {
    local name=$1 status=$2 begin=$3 end=$4 answer is=wrong
    answer=$(trace < "$5")
    [ $? = "$status" ] && case "$status ${answer%%$'\n'*}" in
        "0 $begin"*"$end"* | "1 $begin"*": $end") is=right ;;
    esac
    count "$name" $is "answered '$answer', and '$begin .. $end' is due"
}

# The runs that were written by hand: each row of their table has a run, the status, the line, and the answer.
written_runs() {
    local runs=crates/trace_program/runs rows=0 name status line answer begin is=wrong
    while IFS='|' read -r _ name _ status line answer _; do
        name=${name#*\`}
        name=${name%%\`*}
        read -r status <<< "$status"
        read -r line <<< "$line"
        read -r answer <<< "$answer"
        begin="safe: "
        [ "$status" = 1 ] && begin="line $line: "
        judge "the run $name" "$status" "$begin" "$answer" "$runs/$name.jsonl"
        rows=$((rows + 1))
    done < <(grep '^| \[`' $runs/README.md)
    [ "$rows" = "$(find $runs -name '*.jsonl' | wc -l)" ] && is=right
    count "the table of runs" $is "it has $rows rows, and not one for each run"
}

# Records a run of the cluster and judges it: the status, the answer's end, and the options of the cluster.
judge_cluster() {
    local status=$1 end=$2 begin="safe: "
    shift 2
    : > "$record"
    cluster chart=0 "trace=$record" "$@" > /dev/null 2>&1
    [ "$status" = 1 ] && begin="line $(wc -l < "$record"): "
    judge "a recorded cluster, $*" "$status" "$begin" "$end" "$record"
}

# Records a run of the cluster with a file for each server, and judges the files side by side.
judge_servers() {
    local folder answer is=wrong
    folder=$(mktemp -d)
    cluster chart=0 "traces=$folder" "$@" > /dev/null 2>&1
    answer=$(trace "$folder"/*.jsonl) && [[ $answer == "safe: "* ]] && is=right
    count "a file for each server, $*" $is "answered '$answer'"
    rm -rf "$folder"
}

# Recorded runs of the cluster. The checker of a run with a fault refuses its last event, so the record ends there.
recorded_runs() {
    judge_cluster 0 "" seed=1 events=1500
    judge_cluster 0 "" seed=2349 events=10000
    judge_servers seed=1 events=1500
    judge_cluster 1 "the last committed entry is of an earlier term" seed=44 fault=CommitEarlierTerm
    judge_cluster 1 "the candidate's log is not as up to date as the server's" seed=85 fault=IgnoreLastLog
    judge_cluster 1 "the server has reached or passed the term already" seed=18 fault=VoteTwice
    judge_cluster 1 "the leader is not elected in the term" seed=85 fault=CountRefusal
    judge_cluster 1 "the server has reached or passed the term already" seed=260 fault=ForgetVote
    judge_cluster 1 "the server has reached or passed the term already" seed=170 fault=UnwrittenVote
    judge_cluster 1 "the server has not kept the leader's entries since the term" seed=6 fault=KeepConflicts
    judge_cluster 1 "the server has not kept the leader's entries since the term" seed=44 fault=AcknowledgeUnwritten
    judge_cluster 1 "the server has not kept the leader's entries since the term" seed=90 fault=AcknowledgeUninstalled
    judge_cluster 1 "the server has reached or passed the term already" seed=79 fault=FollowPassedLeader
    judge_cluster 1 "the leader has not committed an own entry and the config in effect" seed=61 fault=ChangeEarly
    judge_cluster 1 "quorums of the new config and the config in effect are not known to intersect" seed=62 \
        fault=SkipJointConfig
    judge_cluster 1 "no quorum has acknowledged the entries" seed=112 fault=CountOldMembers
}

# The options of the cluster: refused ones, and the help.
options() {
    local said widest
    compare "no cluster" 1 "" "Error: 'seeds=0' runs no cluster" cluster seeds=0
    compare "too few seeds" 1 "" "Error: there are not so many seeds from 18446744073709551615 on" \
        cluster seed=18446744073709551615 seeds=2
    compare "an option twice" 1 "" "Error: 'seed' comes more than once" cluster seed=1 chart=0 seed=2
    compare "no option" 1 "" "Error: 'sed=1' is no option; \`--help\` lists the options" cluster sed=1
    compare "two records" 1 "" "Error: 'trace' and 'traces' exclude each other" cluster trace=a traces=b
    compare "no path" 1 "" "Error: 'trace=' has no path as its value" cluster trace=
    compare "a record into a full device" 1 "" \
        "$(printf "Error: the file '/dev/full' cannot be written\n\nCaused by:\n    No space left on device (os error 28)")" \
        silent_cluster chart=0 events=10 trace=/dev/full
    compare "no fault" 1 "" "Error: 'fault=None' names no fault; \`--help\` lists the faults" \
        cluster fault=None
    compare "the greatest seed" 0 "" "" silent_cluster seed=18446744073709551615 seeds=1
    compare "-h of the cluster" 0 "$(cluster --help)" "" cluster -h
    said=$(cluster --help)
    grep -q '^      ForgetVote  *a server forgets its vote when it restarts$' <<< "$said"
    count "the meaning of a fault" "$([ $? = 0 ] && echo right)" "$said"
    widest=$(cluster seed=9 events=200000 | awk '/^ *[0-9]+ / && length > n { n = length } END { print n }')
    [ "$widest" -gt 80 ] && [ "$widest" -le 100 ]
    count "rows of a long run" "$([ $? = 0 ] && echo right)" "the widest one has $widest columns"
}

# A healthy cluster commits at least once in so many events. Clusters whose followers get too few entries
# at once are ten times as long without a commit.
longest_wait=20000

# Whether a healthy run commits as often as it has to.
commits_often() {
    local wait
    wait=$(sed -n 's/^longest time without a commit: \([0-9,]*\) events*$/\1/p' <<< "$1" | tr -d ,)
    [ "${wait:-$longest_wait}" -lt $longest_wait ]
}

# Compares a run of the cluster: whether all clusters have to be healthy or some have to fail, and its words.
run_seeds() {
    local due=$1 said status is=wrong
    shift
    said=$(cluster chart=0 "$@" 2> /dev/null)
    status=$?
    echo "seeds $*:"
    tail -n 3 <<< "$said" | sed 's/^/    /'
    case "$due $status" in
        "healthy 0") commits_often "$said" && is=right ;;
        "failing 1") grep -q '^seed ' <<< "$said" && is=right ;;
    esac
    count "seeds $*" $is "status $status, $(tail -n 4 <<< "$said")"
}

# Builds a copy of the cluster without a proof, runs it, and records its first cluster: the copy, and the options.
try_copy() {
    local copy=$1
    shift
    (cd "$copy/crates/example_cluster" && rt try --seconds 600 -- "trace=$record" "$@" 2>&1)
}

# Runs the cluster over openraft's default leader ids: a copy of the sources with two other aliases.
run_default_leader_ids() {
    local copy said is=wrong
    copy=$(mktemp -d)
    mkdir "$copy/.git"
    cp crates.txt HANDLES "$copy"
    tar --exclude=out -c crates | tar -x -C "$copy"
    sed -i 's/raft_base::leader_id_std::LeaderId<u64>;/raft_base::LeaderId<u64>;/
        s/raft_base::leader_id_std::CommittedLeaderId;/raft_base::CommittedLeaderId<u64>;/' \
        "$copy/crates/example_cluster/src/types.rt"
    said=$(try_copy "$copy" chart=0 seeds=50 events=1500)
    echo "seeds over the default leader ids:"
    grep -E '^([0-9,]+ (elections?|of)|longest time)' <<< "$said" | sed 's/^/    /'
    grep -q '^50 of 50 clusters safe and converged' <<< "$said" \
        && [ "$(grep -c '_std::' "$copy/crates/example_cluster/src/types.rt")" = 0 ] && is=right
    count "the default leader ids" $is "$(tail -n 3 <<< "$said")"
    judge "the default leader ids, the first cluster recorded" 0 "safe: " "" "$record"
    : > "$record"
    try_copy "$copy" chart=0 seed=3 events=1500 fault=VoteTwice > /dev/null
    judge "the default leader ids, a planted fault" 1 "line $(wc -l < "$record"): " \
        "the server has reached or passed the term already" "$record"
    rm -rf "$copy"
}

seeds() {
    local fault faults is=wrong
    faults=$(crates/example_cluster/out/example_cluster --help | sed -n 's/^ \{6\}\([A-Z][A-Za-z]*\)  *[a-z].*$/\1/p')
    [ "$(wc -w <<< "$faults")" -ge 10 ] && is=right
    count "faults" $is "there are less than ten: $faults"
    run_seeds healthy seeds=2000 events=1500
    # With at most four entries a request, seed 321 commits nothing for 109,727 events.
    for seed in 1 321; do
        run_seeds healthy "seed=$seed" seeds=2 events=200000
    done
    for fault in $faults; do
        run_seeds failing seeds=300 events=1500 "fault=$fault"
    done
    run_default_leader_ids
}

case "$*" in
    "") statuses; seeds ;;
    statuses | seeds) "$1" ;;
    *) grep '^# Usage' "$0" >&2; exit 2 ;;
esac
echo "programs: $passed runs are right, $failed are wrong"
[ "$failed" = 0 ]

#!/bin/sh
# compare.sh [PROGRAM [N]]: compares replays with Go's own channels, by go_compare: of the examples, and of N random journals of
# each edition, 500 where N is left out. Builds and tries go_compare first; and last has it notice wrong readings of the rules.
# The last line counts: 'N passed, M failed'. Where go is not there nothing is compared, and the status is 77.
set -u
root=$(cd "$(dirname "$0")/../../.." && pwd)
program=$(realpath "${1:-$root/crates/chanhub/out/chanhub}")
of_each_edition=${2:-500}
export GOPROXY=off GOFLAGS=
. "$root/tools/gate/checks.sh"
cd "$root/tests/oracle/go_compare" || exit 2

is_formatted() {
    gofmt -d . ../../../examples/stall_against_go > "$work/unformatted" && cat "$work/unformatted" && ! [ -s "$work/unformatted" ]
}

# go_compare ARGUMENTS: one step is made at a time, so more threads would only have it look for goroutines at work too early.
go_compare() {
    GOMAXPROCS=1 "$work/go_compare" "$@"
}

# add_counts NAME FILE: prints what go_compare said, under this name, and adds its counts.
add_counts() {
    counts=$(sed -n '$s/^\([0-9]*\) passed, \([0-9]*\) failed$/\1 \2/p' "$2")
    sed "s/^/$1: /" "$2"
    passed=$((passed + $(echo "${counts:-0 1}" | cut -d ' ' -f 1)))
    failed=$((failed + $(echo "${counts:-0 1}" | cut -d ' ' -f 2)))
}

# notices JOURNAL NAME CHANGE: whether the comparison of this journal with model.py, changed so, finds a difference.
notices() {
    sed "$3" "$root/tools/model.py" > "$work/wrong"
    chmod +x "$work/wrong"
    check "notices: $2" is_noticed "$work/examples/$1"
}

is_noticed() {
    ! cmp -s "$work/wrong" "$root/tools/model.py" || return
    go_compare "$work/wrong" "$1" > "$work/noticed" 2>&1
    status=$?
    cat "$work/noticed"
    [ "$status" -eq 1 ] && grep -q '^failed: .*: the replay tells ' "$work/noticed"
}

if ! command -v go > "$work/found"; then
    echo 'skipped: go is not there'
    exit 77
fi
check 'go vet' go vet .
check 'gofmt' is_formatted
check 'go test' go test -count=1 -timeout 600s .
check 'go build' go build -o "$work/go_compare" .
"$root/tests/drive/random_journal.py" 1 $((2 * of_each_edition)) "$work/journals"
"$root/tests/drive/random_journal.py" --third 1 "$of_each_edition" "$work/third_journals"
mkdir "$work/examples"
for events in "$root"/examples/journals/*.stdout; do
    cp "${events%.stdout}" "$work/examples"
done
# So many draws that none comes out one way each time.
awk 'BEGIN {
    print "chanhub journal 1\nprocs 2\n0 make 1"
    for (i = 0; i < 64; i++) print "0 select 0 s1:1 s1:2\n1 recv 1\n0 select 0 r1 r1\n1 send 1 3"
}' > "$work/examples/draws"
# A process and a port come back, which then has room.
cat > "$work/examples/lives" << 'END'
chanhub journal 3
procs 2
0 make 0
1 exit
0 start 1
1 close 1
0 reopen 1 1
1 send 1 7
0 recv 1
END
go_compare "$program" "$work"/journals/*[13579] > "$work/first" 2>&1 &
first=$!
go_compare "$program" "$work"/journals/*[02468] > "$work/second" 2>&1 &
second=$!
go_compare "$program" "$work"/third_journals/* > "$work/third" 2>&1 &
third=$!
go_compare "$program" "$work"/examples/* > "$work/compared" 2>&1
wait "$first" "$second" "$third"
add_counts 'examples' "$work/compared"
add_counts 'first edition' "$work/first"
add_counts 'second edition' "$work/second"
add_counts 'third edition' "$work/third"

notices oldest_receiver_first 'newest waiter first' 's/for pid, cases in self.waiting:/for pid, cases in reversed(self.waiting):/'
notices draws 'highest case of a waiting call' 's/in enumerate(cases):/in reversed(list(enumerate(cases))):/'
notices draws 'first ready case' 's/ready\[word % len(ready)\]/ready[0]/'
notices close_then_drain 'buffer dropped by a close' "s/\['closed'\] = True/.update(closed=True, buffer=[])/"
notices buffered_then_parked 'waiting value first' 's/\.append(met\[2\]\[2\])/.insert(0, met[2][2])/'
notices hand_over 'receiver left waiting' 's/^            self.end(met\[0\])$/            pass/'
notices lives 'started process still gone' 's/self.gone.remove(step)/pass/'
notices lives 'reopened port still closed' 's/, closed=False)/)/'
notices lives 'capacity kept by a reopen' 's/(cap=step\[1\], /(/'
echo "$passed passed, $failed failed"
[ "$failed" -eq 0 ]

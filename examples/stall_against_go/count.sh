#!/bin/sh
set -eu
here=$(cd "$(dirname "$0")" && pwd)

usage() {
    cat <<'END'
usage: count.sh [RUNS [GO_RUNS]]

Runs the scenario `pool` RUNS times (200 if RUNS is left out), and the same program on Go's own channels GO_RUNS times (2000).
Prints one line for each: how many of its runs stalled. The counts differ from machine to machine and from time to time, because
each run may have a different schedule. If there is no command `go`, the second line says so, and the status is 77.
END
}

case "${1-}" in -h | --help) usage; exit ;; esac
is_well=true
case $# in 0 | 1 | 2) ;; *) is_well=false ;; esac
case ${1-200}${2-2000} in *[!0-9]*) is_well=false ;; esac
if ! $is_well; then
    usage | head -n 1 >&2
    exit 2
fi
program=${CHANHUB:-$("$here/../../tools/build/ready.py" chanhub)}
work=$(mktemp -d)
trap 'rm -rf "$work"' EXIT

# stalls RUNS STATUS COMMAND..: runs the command RUNS times, and prints how many runs ended with STATUS. If a run ends with any
# other status except 0, prints its output and ends this script with that status.
stalls() {
    runs=$1
    stalled=$2
    shift 2
    count=0
    for _ in $(seq "$runs"); do
        status=0
        "$@" > "$work/output" 2>&1 || status=$?
        case $status in
            0) ;;
            "$stalled") count=$((count + 1)) ;;
            *)
                cat "$work/output" >&2
                exit "$status"
                ;;
        esac
    done
    echo "$count of $runs runs stalled"
}

counted=$(stalls "${1-200}" 4 "$program" run "$here/pool")
echo "chanhub: $counted"
if ! command -v go > "$work/output"; then
    echo 'Go: skipped: go is not there'
    exit 77
fi
(cd "$here" && GOPROXY=off GOFLAGS='' go build -o "$work/pool" .)
counted=$(stalls "${2-2000}" 2 "$work/pool")
echo "Go: $counted"

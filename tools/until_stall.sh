#!/bin/sh
set -eu
root=$(cd "$(dirname "$0")/.." && pwd)

usage() {
    cat <<'END'
usage: until_stall.sh SCENARIO [N]

Runs a scenario until a run stalls, at most N times (1000 if N is left out). If a run stalls, prints its number and the path of
its journal, which explain.sh takes, and exits with status 0. If no run stalls, says so and exits with status 1. If a run fails,
prints its error and exits with its status.
Each run may have a different schedule. All runs use the seed in the file, and so the same choice words; a seed does not fix the
schedule.
END
}

case "${1-}" in -h | --help) usage; exit ;; esac
is_well=true
case $# in 1 | 2) ;; *) is_well=false ;; esac
case ${2-1000} in '' | *[!0-9]* | ??????????*) is_well=false ;; esac
if ! $is_well; then
    usage | head -n 1 >&2
    exit 2
fi
scenario=$1
most=${2-1000}
program=${CHANHUB:-$("$root/tools/build/ready.py" chanhub)}

folder=$(mktemp -d)
trap 'rm -rf "$folder"' EXIT
trap 'exit 130' INT
trap 'exit 143' TERM
trap 'exit 129' HUP
run=0
while [ "$run" -lt "$most" ]; do
    run=$((run + 1))
    status=0
    "$program" run "$scenario" --journal > "$folder/journal" || status=$?
    case $status in
        0) ;;
        4)
            trap - EXIT
            echo "run $run stalled: $folder/journal"
            exit
            ;;
        *) exit "$status" ;;
    esac
done
echo "none of $most runs stalled"
exit 1

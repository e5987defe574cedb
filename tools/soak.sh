#!/bin/sh
# soak.sh [SECONDS [SEED]]: makes random calls in 64 threads for so many seconds (60 if not said), and compares all
# answers with a replay of the journal. The seed is the clock's, if not said, and is printed.
set -eu
case ${1-} in -h | --help) sed -n '2,/^set /s/^# //p' "$0"; exit ;; esac
here=$(cd "$(dirname "$(readlink -f "$0")")" && pwd)
seconds=${1:-60}
seed=${2:-$(date +%s)}
echo "soak of $seconds seconds, seed $seed" >&2
exec "$here/trials.sh" soak "$seconds" "$seed"

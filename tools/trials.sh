#!/bin/sh
# trials.sh WORDS: runs the program `hub_trials` with these words. Where it is not built, or is older than the
# sources, it is proved and built first, by `build.py`; that takes minutes, and its report goes to standard error.
set -eu
case ${1-} in -h | --help) sed -n '2,/^set /s/^# //p' "$0"; exit ;; esac
root=$(cd "$(dirname "$(readlink -f "$0")")/.." && pwd)
program=$root/crates/hub_trials/out/hub_trials

if ! "$root/tools/build/build.py" hub_trials; then
    echo "trials.sh: hub_trials is not built" >&2
    exit 125
fi
exec "$program" "$@"

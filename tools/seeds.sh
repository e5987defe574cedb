#!/bin/sh
set -eu
root=$(cd "$(dirname "$0")/.." && pwd)

usage() {
    cat <<'END'
usage: seeds.sh SCENARIO N [FOLDER]

Runs the scenario under the seeds 0 to N - 1, and prints each different outcome once: how often it came, the first seed that
gave it, the status, the report or the fault line, and by how many different journals it came about; the most frequent first.
The last line counts all. Where FOLDER is given, the first journal of each outcome is kept there: as journal_1, journal_2 and
so on, by their order here.
No seed repeats a schedule: it sets the choice words of selects alone, and the threads are scheduled anew in each run. So one
seed may have several outcomes, and one outcome many journals. A kept journal has its run again, for explain.sh. A line
`seed = ..` of the file counts for nothing.
END
}

case "${1-}" in -h | --help) usage; exit ;; esac
is_well=true
case $# in 2 | 3) ;; *) is_well=false ;; esac
case ${2-} in '' | *[!0-9]* | ??????????*) is_well=false ;; esac
if ! $is_well; then
    usage | head -n 1 >&2
    exit 2
fi
scenario=$1
seeds=$2
folder=${3-}
program=${CHANHUB:-$("$root/tools/build/ready.py" chanhub)}
[ -z "$folder" ] || mkdir -p "$folder"

work=$(mktemp -d)
trap 'rm -rf "$work"' EXIT
trap 'exit 130' INT
trap 'exit 143' TERM
trap 'exit 129' HUP
mkdir "$work/journals" "$work/outcomes"
sed '/^seed *=/d' "$scenario" > "$work/rest"

# Each different journal once, by its sum; of each run its seed, its status and that sum. A fault line stands for a journal.
seed=0
while [ "$seed" -lt "$seeds" ]; do
    status=0
    { echo "seed = $seed"; cat "$work/rest"; } | "$program" run --journal > "$work/told" 2>&1 || status=$?
    sum=$(cksum < "$work/told" | tr ' ' _)
    [ -e "$work/journals/$sum" ] || mv "$work/told" "$work/journals/$sum"
    echo "$seed $status $sum" >> "$work/runs"
    seed=$((seed + 1))
done
[ -e "$work/runs" ] || exit 0

# What a run of this journal reports, beside it; of a fault line, the line.
"$root/tests/oracle/report.py" "$program" "$work"/journals/*
while read -r seed status sum; do
    outcome=$({ echo "$status"; cat "$work/journals/$sum.report"; } | cksum | tr ' ' _)
    echo "$seed $status $sum" >> "$work/outcomes/$outcome"
done < "$work/runs"

number=0
for outcome in $(wc -l "$work"/outcomes/* | grep -v ' total$' | sort -k1,1nr -k2 | awk '{ print $2 }'); do
    number=$((number + 1))
    read -r seed status sum < "$outcome"
    echo "$(wc -l < "$outcome") of $seeds, first with seed $seed, status $status:"
    sed 's/^/    /' "$work/journals/$sum.report"
    case $status in
        0 | 4) ;;
        *) continue ;;
    esac
    echo "  different journals: $(cut -d ' ' -f 3 "$outcome" | sort -u | wc -l)"
    if [ -n "$folder" ]; then
        cp "$work/journals/$sum" "$folder/journal_$number"
        echo "  kept: $folder/journal_$number"
    fi
done
echo "$seeds runs, $number outcomes, $(awk '$2 == 0 || $2 == 4 { print $3 }' "$work/runs" | sort -u | wc -l) different journals"

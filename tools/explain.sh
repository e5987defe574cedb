#!/bin/sh
set -eu
root=$(cd "$(dirname "$0")/.." && pwd)
program=${CHANHUB:-$root/chanhub}

usage() {
    cat <<'END'
usage: explain.sh SCENARIO [FROM [TO]]
       explain.sh --every SCENARIO [FROM [TO]]
       explain.sh JOURNAL [FROM [TO]]
       explain.sh --after CHAPTER JOURNAL [FROM [TO]]

Takes a journal, which is a file that begins with `chanhub journal `, or runs a scenario to get one. Writes its page, and the
story and the picture of all its steps, of step FROM, or of steps FROM to TO. Prints the paths of the story, the picture and the
page, and opens the page. A run that stalls is explained too. All of more than 300 steps get no picture, which is said: the page's
strip shows them.
With --every, the journal is a run of the scenario that stalls, and what `chanhub_tool explore` says is printed first.
If no run stalls, that is all, with status 0; if there are too many states, likewise, with status 5.
With --after, the journal is a chapter of a hub that never ends, and CHAPTER is the one before. Where its checkpoint ends is
printed first: the program made the steps behind that one.
The command in OPENER opens the page, or xdg-open if OPENER is not set. If there is no such command, or xdg-open finds no viewer,
nothing is opened.
END
}

case "${1-}" in -h | --help) usage; exit ;; esac
is_well=true
every=false
before=
case ${1-} in
--every)
    every=true
    shift
    ;;
--after)
    before=${2-}
    [ -n "$before" ] || is_well=false
    shift
    [ $# = 0 ] || shift
    ;;
esac
case $# in 1 | 2 | 3) ;; *) is_well=false ;; esac
for step in "${2-1}" "${3-1}"; do
    case $step in '' | *[!0-9]*) is_well=false ;; esac
done
if ! $is_well; then
    usage | head -n 4 >&2
    exit 2
fi
given=$1
shift
tool=${TOOL:-$("$root/tools/build/ready.py" chanhub_tool)}

# If anything fails, no file stays behind.
folder=$(mktemp -d)
trap 'rm -rf "$folder"' EXIT
trap 'exit 130' INT
trap 'exit 143' TERM
trap 'exit 129' HUP
if $every; then
    status=0
    "$tool" explore "$given" --journal "$folder/journal" || status=$?
    # 4: some run stalls.
    [ "$status" = 4 ] || exit "$status"
elif [ "$(head -c 16 "$given" 2> /dev/null | tr -d '\0')" = 'chanhub journal ' ]; then
    cp "$given" "$folder/journal"
else
    status=0
    "$program" run "$given" --journal > "$folder/journal" || status=$?
    # 4: a call stalled.
    case $status in 0 | 4) ;; *) exit "$status" ;; esac
fi
if [ -n "$before" ]; then
    "$tool" chain "$before" "$folder/journal" > "$folder/chained" || {
        status=$?
        sed "s|$folder/journal|$given|" "$folder/chained" >&2
        exit "$status"
    }
    # The checkpoint is the shortest beginning of the chapter that continues the one before.
    steps=0 most=$(($(wc -l < "$folder/journal") - 2))
    while [ "$steps" -lt "$most" ]; do
        middle=$(((steps + most) / 2))
        if head -n $((middle + 2)) "$folder/journal" | "$tool" chain "$before" - > "$folder/chained"; then
            most=$middle
        else
            steps=$((middle + 1))
        fi
    done
    rm "$folder/chained"
    echo "its checkpoint ends with step $steps"
fi
"$tool" story "$@" "$folder/journal" -o "$folder/story.txt"
"$tool" page "$folder/journal" -o "$folder/page.html"
echo "$folder/story.txt"
if [ $# = 0 ] && [ "$(wc -l < "$folder/journal")" -gt 302 ]; then
    echo 'no picture of more than 300 steps: the strip of the page shows all, and FROM and TO draw some' >&2
else
    "$tool" picture "$@" "$folder/journal" -o "$folder/picture.svg"
    echo "$folder/picture.svg"
fi
echo "$folder/page.html"
trap - EXIT

# xdg-open fails on a machine without a viewer. The paths are printed, so that is no failure of this script.
if [ -n "${OPENER-}" ]; then
    if command -v "$OPENER" > /dev/null; then "$OPENER" "$folder/page.html"; fi
elif command -v xdg-open > /dev/null; then
    xdg-open "$folder/page.html" > /dev/null 2>&1 || true
fi

# For scripts that count their checks, which read this with `.`: what they count in, and a folder of theirs that goes when they end.
passed=0
failed=0
work=$(mktemp -d)
trap 'rm -rf "$work"' EXIT

# check NAME COMMAND..: whether the command succeeds; what it prints is shown where it does not.
check() {
    name=$1
    shift
    if "$@" > "$work/output" 2>&1; then
        passed=$((passed + 1))
    else
        failed=$((failed + 1))
        echo "failed: $name"
        sed 's/^/    /' "$work/output" | tail -n 40
    fi
}

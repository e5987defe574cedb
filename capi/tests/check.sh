#!/bin/sh
# check.sh PROGRAM [TOOL]: the tests and examples of the C library and of what stands over it. PROGRAM is the built chanhub, by whose
# replays the rigs are judged. TOOL is the built chanhub_tool, which checks that chapters are one history; where it is not named, it is
# this tree's. `make` comes first. What a machine lacks is named and counted as skipped.
# The last line counts: 'N passed, M failed, K skipped'.
set -u
program=$(realpath "$1")
tool=$(realpath -m "${2:-$(dirname "$0")/../../crates/chanhub_tool/out/chanhub_tool}")
cd "$(dirname "$0")/.." || exit 2
library=$PWD/out
. ../tools/gate/checks.sh
skipped=0
# The tests of the Python module look for it there.
if [ -e "$tool" ]; then export TOOL="$tool"; else unset TOOL; fi
export CHANHUB_LIBRARY="$library/libchanhub.so" CHANHUB_LIB="$library" CARGO_TARGET_DIR="$work/target" PYTHONDONTWRITEBYTECODE=1
# Each crate is built for one run, so nothing is kept for a debugger or for the next build.
export CARGO_PROFILE_DEV_DEBUG=0 CARGO_INCREMENTAL=0
cc=${CC:-cc}
cxx=${CXX:-c++}
cxxflags='-std=c++17 -O2 -Wall -Wextra -Werror -I.'
by_cxx=
flags="-std=c11 -D_DEFAULT_SOURCE -O2 -Wall -Wextra -Werror -I."
# what tests link with the names within the library, to wrap them; texts.c, which needs none of it, is left out
hub='batches.c calls.c chapters.c clock.c deadlines.c files.c following.c heap.c journals.c looks.c opening.c waits.c watch.c'
proved="../crates/hub_c/out/libhub_c.a $(dirname "$(rt doc)")/c/liblibc_c.a"
threads='cancelled second closed stalled handed'
handing='busy parked woken full cancelled slow inside'

# skip NAME REASON
skip() {
    skipped=$((skipped + 1))
    echo "skipped: $1: $2"
}

# prints WANTED COMMAND..: whether the command prints the lines of the file.
prints() {
    wanted=$1
    shift
    "$@" > "$work/printed" && cmp "$work/printed" "$wanted"
}

# crew NAME CAP COUNT [PROGRAM]: whether each of 64 threads is told what a replay tells it, by the rules or by the program.
crew() {
    mkdir -p "$work/$1-$2" && "$work/$1" "$work/$1-$2" "$2" "$3" && tests/compare.py "$work/$1-$2" ${4+"$4"}
}

# looks NAME: whether each look that threads take beside others is of one moment of the run.
looks() {
    mkdir -p "$work/$1-looks" && "$work/$1" threads "$work/$1-looks" && tests/looks.py "$work/$1-looks"
}

# is_whole NAME: whether NAME.0, NAME.1, .. are the chapters of one history, where the tool is there.
is_whole() {
    [ ! -e "$tool" ] || "$tool" chain $(ls -v "$1".*)
}

# chapters NAME COUNT: whether the chapters of so many random runs tell what their threads were told.
chapters() {
    mkdir -p "$work/$1-runs" && "$work/$1" "$work/$1-runs" 1 "$2" || return
    if [ -e "$tool" ]; then tests/chapters.py "$work/$1-runs" "$program" "$tool"; else tests/chapters.py "$work/$1-runs" "$program"; fi
}

# deadlines NAME load|chapters: whether 16 threads whose calls have deadlines are told what a replay tells.
deadlines() {
    mkdir -p "$work/$1-$2" && "$work/$1" "$2" "$work/$1-$2" || return
    if [ -e "$tool" ]; then tests/deadlines.py "$work/$1-$2" "$program" "$tool"; else tests/deadlines.py "$work/$1-$2" "$program"; fi
}

# soaks NAME SECONDS: whether 16 threads get what they send for so long, and the chapters are whole.
soaks() {
    mkdir -p "$work/$1-chapters" && "$work/$1" "$2" --chapters "$work/$1-chapters" && is_whole "$work/$1-chapters/chapter"
}

# lives NAME COUNT: whether so many processes come and go, each with a port that is opened again, and the chapters are whole.
lives() {
    mkdir -p "$work/$1-chapters" && "$work/$1" many "$2" "$work/$1-chapters" && is_whole "$work/$1-chapters/chapter"
}

# passes_many NAME: whether all values pass a hub that hands out short chapters, which are whole.
passes_many() {
    mkdir -p "$work/$1-chapters" && "$work/$1" endless "$work/$1-chapters" && is_whole "$work/$1-chapters/chapter"
}

# writes_files: whether chapters are written to files.
writes_files() {
    mkdir -p "$work/written" && "$work/files" "$work/written"
}

# is_watched NAME: whether the journals of hubs that stand still are written, each time with a line that says so.
is_watched() {
    CHANHUB_WATCH="1:$work/$1-hung" "$work/$1" "$work/$1-hung" 2> "$work/said" && cat "$work/said" &&
        [ "$(grep -c '^chanhub: nothing has moved in a hub for 1 s: its journal is in' "$work/said")" -ge 5 ]
}

# refuses_watches: whether each watch that is none is told, once, and the program goes on.
refuses_watches() {
    for watch in soon 0:hung 1: 1 -1:hung 1000000001:hung 99999999999999999999:hung "$(printf '1:%04096d' 0)"; do
        CHANHUB_WATCH=$watch "$work/pool" > "$work/printed" 2> "$work/said" && cmp "$work/printed" "$work/sum" &&
            [ "$(cat "$work/said")" = "chanhub: CHANHUB_WATCH=$watch: there is no watch; SECONDS:FILE asks for one" ] || return
    done
}

# interrupt COMMAND..: interrupts the command after a second, or later where it had not yet begun to wait for that: then it was ended by it,
# with status 130. Returns its status.
interrupt() {
    for seconds in 1 10 60; do
        timeout --preserve-status -s INT "$seconds" "$@"
        status=$?
        [ "$status" -eq 130 ] || break
    done
    return "$status"
}

# is_interrupted: whether forever.c ends when it is interrupted, with its chapters written and its journal saved.
is_interrupted() {
    mkdir -p "$work/forever-chapters" && interrupt "$work/forever" "$work/last" "$work/forever-chapters/chapter" &&
        "$program" replay < "$work/last" > "$work/replayed" && is_whole "$work/forever-chapters/chapter" &&
        interrupt "$work/forever" "$work/last" && "$program" replay < "$work/last" > "$work/replayed"
}

# instructions WORD..: how many the steps of this hub take.
instructions() {
    valgrind --tool=cachegrind --cache-sim=no --cachegrind-out-file=/dev/null "$work/steps" "$@" 2>&1 | sed -n '/I *refs:/{ s/.*: *//; s/,//g; p; }'
}

# costs_little: whether a hub that never ends takes at most a tenth more of them than another hub, with its cuts.
costs_little() {
    ends=$(instructions ends 200000) && endless=$(instructions endless 200000 100000) && echo "$ends and $endless" &&
        [ "$endless" -le $((ends / 10 * 11)) ]
}

# chooses COMMAND..: whether the command of a choice prints what it must, in whatever order its words chose.
chooses() {
    "$@" > "$work/chosen" && sort "$work/chosen" | cmp - "$work/choice-lines" && [ "$(tail -n 1 "$work/chosen")" = neither ]
}

# keeps_journal: whether deadlock.py writes a journal whose replay stalls both.
keeps_journal() {
    python3 python/deadlock.py "$work/kept" && "$program" replay < "$work/kept" > "$work/replayed" &&
        [ "$(grep -c 'stalled$' "$work/replayed")" = 2 ]
}

# has_only_names NM..: whether what this lists are the header's names and no other.
has_only_names() {
    "$@" | sed -n 's/.* [A-Z] //p' | sort > "$work/shown"
    grep -v '^typedef' chanhub.h | grep -o '\bchanhub_[a-z_]*(' | tr -d '(' | sort -u > "$work/declared"
    cmp "$work/shown" "$work/declared"
}

# is_packaged: whether the library is installed, found and used as packages are, and removed again.
is_packaged() {
    tests/package.sh > "$work/package"
}

# is_installed: whether an installed library is found by pkg-config and used.
is_installed() {
    make -s install PREFIX="$work/prefix" &&
        found=$(PKG_CONFIG_PATH="$work/prefix/lib/pkgconfig" pkg-config --cflags --libs chanhub) &&
        "$cc" examples/pool.c $found -o "$work/installed" &&
        LD_LIBRARY_PATH="$work/prefix/lib" prints "$work/sum" "$work/installed"
}

# build_rust FOLDER [OPTION ..]: builds the Rust crate over the library of this folder.
build_rust() {
    folder=$1
    shift
    CHANHUB_LIB=$folder cargo build --offline --manifest-path rust/Cargo.toml "$@"
}

# with_crossbeam: runs the program of typed.rs that is written with crossbeam.
with_crossbeam() {
    mkdir -p "$work/crossbeam/src" && cp -R ../benches/crossbeam_peer/.cargo "$work/crossbeam" &&
        cp rust/examples/crossbeam/typed.rs "$work/crossbeam/src/main.rs" &&
        printf '%s\n' '[package]' 'name = "with_crossbeam"' 'version = "0.1.0"' 'edition = "2021"' '[dependencies]' \
            'crossbeam-channel = "0.5"' > "$work/crossbeam/Cargo.toml" &&
        env -C "$work/crossbeam" cargo run --offline --quiet
}

# says_what_to_do: whether a build over a folder without the library says so, where it looked, and what to do.
says_what_to_do() {
    mkdir -p "$work/nothing" && ! build_rust "$work/nothing" > "$work/said" 2>&1 && cat "$work/said" &&
        grep -qF "There is no libchanhub.a in $work/nothing." "$work/said" &&
        grep -qF 'make -C capi' "$work/said" &&
        grep -qF 'have CHANHUB_LIB name the folder' "$work/said"
}

# links_anew: whether the Rust crate is built again once its library was, and only then.
links_anew() {
    mkdir -p "$work/newer" && cp out/libchanhub.a "$work/newer" && build_rust "$work/newer" &&
        build_rust "$work/newer" -v 2>&1 | grep -q 'Fresh chanhub' &&
        touch "$work/newer/libchanhub.a" &&
        build_rust "$work/newer" -v > "$work/built" 2>&1 && ! grep -q 'Fresh chanhub' "$work/built"
}

# offline_go COMMAND..: runs the go tool in the module, without a network.
offline_go() {
    env -C go GOFLAGS=-mod=mod GOPROXY=off go "$@"
}

# is_formatted: whether gofmt leaves the Go sources as they are.
is_formatted() {
    gofmt -d go > "$work/edits" && cat "$work/edits" && ! [ -s "$work/edits" ]
}

# is_used_elsewhere: whether a module of somebody else uses the Go package over a library that is elsewhere.
is_used_elsewhere() {
    mkdir -p "$work/user" "$work/elsewhere" && cp -R go "$work/go" && cp chanhub.h out/libchanhub.a "$work/elsewhere" &&
        printf '%s\n' 'package main' 'import "chanhub/chanhub"' \
            'func main() { if _, err := chanhub.Open(chanhub.Edition1, 1, 1); err != nil { panic(err) } }' > "$work/user/main.go" &&
        printf '%s\n' 'module user' 'require chanhub v0.0.0' "replace chanhub => $work/go" > "$work/user/go.mod" &&
        env -C "$work/user" GOFLAGS=-mod=mod GOPROXY=off CGO_CFLAGS="-I$work/elsewhere" CGO_LDFLAGS="-L$work/elsewhere" go run .
}

echo 385 > "$work/sum"
echo '10 jobs 385' > "$work/report"
printf '%s\n' 9 'chanhub journal 2' 'procs 1' '0 make 1' '0 send 1 9' '0 recv 1' '0 recv 1' > "$work/first"
printf 'timed out\ngot 9\n' > "$work/times"
printf 'stalled: 0 recv 2\nstalled: 1 recv 1\n' > "$work/stalled"
printf 'got 5\nneither\nsent\n' > "$work/choice-lines"

for test in calls conveniences crew threads memory endless handing chapters files soak lives steps deadlines following followed_clock \
    followed_runs ends watch batches; do
    check "$test builds" "$cc" $flags "tests/$test.c" out/libchanhub.a -lpthread -o "$work/$test"
done
check 'resume builds' "$cc" $flags -Wl,--wrap=clock_gettime tests/resume.c out/libchanhub.a -lpthread -o "$work/resume"
check 'each call' "$work/calls"
check 'calls that never wait, texts, and the steps that are left' "$work/conveniences"
check 'steps in the memory that the header tells' "$work/memory"
for test in $threads; do
    check "threads: $test" "$work/threads" "$test"
done
for test in alone threads; do
    check "begun and resumed: $test" "$work/resume" "$test"
done
wrapped=
for name in make send recv call cancel exit entries take look present; do wrapped="$wrapped -Wl,--wrap=hub_c_$name"; done
check 'inside builds' "$cc" $flags $wrapped $hub tests/inside.c $proved -lpthread -o "$work/inside"
check 'no two inside of a hub' "$work/inside"
wraps_looks=-Wl,--wrap=hub_c_look,--wrap=hub_c_recv
check 'looks builds' "$cc" $flags $wraps_looks $hub tests/looks.c $proved -lpthread -o "$work/looks"
for test in alone inside; do
    check "looks: $test" "$work/looks" "$test"
done
check 'looks: threads' looks looks
for test in alone threads; do
    check "deadlines: $test" "$work/deadlines" "$test"
done
for test in load chapters; do
    check "deadlines of 16 threads: $test" deadlines deadlines "$test"
done
for test in alone threads followed; do
    check "many values: $test" "$work/batches" "$test"
done
check 'many values without an end' passes_many batches
wrapped=
for name in recv call cancel; do wrapped="$wrapped -Wl,--wrap=hub_c_$name"; done
check 'clock builds' "$cc" $flags $wrapped $hub tests/clock.c $proved -lpthread -o "$work/clock"
check 'each step refused while deadlines pass' "$work/clock"
for test in alone threads; do
    check "a journal is followed: $test" "$work/following" "$test"
done
for test in alone threads; do
    check "ports that close with their ends: $test" "$work/ends" "$test"
done
check 'a journal with a clock is followed' "$work/followed_clock"
check 'a journal with a clock is followed: 200 random runs' "$work/followed_runs" 200
check 'a journal with a clock is followed: 40 random runs under load' "$work/followed_runs" 40 16
for cap in 0 1 7 1024; do
    check "64 threads that pass 160,000 values, capacity $cap" crew crew "$cap" 5000 "$program"
done
check '64 threads, by the rules' crew crew 2 500
for test in short long; do
    check "a hub that never ends: $test" "$work/endless" "$test"
done
for test in $handing; do
    check "chapters that are handed out: $test" "$work/handing" "$test"
done
check 'chapters in files' writes_files
check 'hubs that stand still' is_watched watch
check 'chapters of 200 random runs' chapters chapters 200
check '16 threads without an end' soaks soak 3
check 'processes and ports that come back' "$work/lives" alone
check 'processes and ports that come back: 200 random runs that are followed' "$work/lives" followed 200
check '20,000 processes that come and go' lives lives 20000
[ -e "$tool" ] || skip 'chains of chapters' "no $tool"
heap='-Wl,--wrap=malloc,--wrap=realloc,--wrap=mmap,--wrap=mremap heap.c'
check 'heap builds' "$cc" $flags $heap tests/heap.c -o "$work/heap"
check 'large and small blocks' "$work/heap"
check 'refuse builds' "$cc" $flags -Wl,--wrap=malloc,--wrap=calloc,--wrap=realloc,--wrap=mmap,--wrap=mremap tests/refuse.c out/libchanhub.a -lpthread -o "$work/refuse"
check 'each allocation refused' "$work/refuse"
for example in pool deadlock choice forever timeout; do
    check "$example.c builds" "$cc" $flags "examples/$example.c" out/libchanhub.a -lpthread -o "$work/$example"
done
check 'pool.c' prints "$work/sum" "$work/pool"
check 'watches that are none' refuses_watches
check 'choice.c' chooses "$work/choice"
check 'timeout.c' prints "$work/times" "$work/timeout"
check 'forever.c' is_interrupted
"$work/deadlock" > "$work/deadlocked"
check 'deadlock.c: both are told' grep -qx '2 stalled' "$work/deadlocked"
grep recv "$work/deadlocked" | sort | sed 's/^/stalled: /' > "$work/calls-left"
check 'deadlock.c: the journal shows who waited' cmp "$work/calls-left" "$work/stalled"
check 'the header by C++' "$cc" -x c++ -fsyntax-only -Wall -Wextra -Werror chanhub.h
if command -v "$cxx" > "$work/found"; then
    by_cxx=cpp
    check 'chanhub.hpp alone' "$cxx" -x c++ -fsyntax-only $cxxflags chanhub.hpp
    check 'cpp builds' "$cxx" $cxxflags tests/cpp.cpp out/libchanhub.a -lpthread -o "$work/cpp"
    check 'each call from C++' "$work/cpp"
    check 'an exception ends the program and does not go through C' "$work/cpp" throws
    check 'pool.cpp builds' "$cxx" $cxxflags examples/pool.cpp out/libchanhub.a -lpthread -o "$work/pool-cpp"
    check 'pool.cpp' prints "$work/sum" "$work/pool-cpp"
else
    skip 'C++' "no $cxx"
fi
check 'the names of libchanhub.so' has_only_names nm -D --defined-only "$library/libchanhub.so"
check 'the names of libchanhub.a' has_only_names nm -g --defined-only "$library/libchanhub.a"
if command -v pkg-config > "$work/found"; then
    check 'installed' is_installed
    check 'installed as a package' is_packaged
    sed -n 's/^skipped: //p' "$work/package" > "$work/lacks"
    while read -r reason; do skip 'installed as a package' "$reason"; done < "$work/lacks"
else
    skip 'installed' 'no pkg-config'
fi

if echo 'int main(void) { return 0; }' | "$cc" -fsanitize=thread -x c - -o "$work/empty" 2> "$work/errors" && "$work/empty"; then
    sanitize="$flags -g -fsanitize=thread"
    # The library once, for all of them.
    sanitized="$work/sanitized.o $proved -lpthread"
    check 'the library builds for the thread sanitizer' "$cc" $sanitize -r -nostdlib $hub texts.c \
        -o "$work/sanitized.o"
    for test in crew threads handing chapters soak lives deadlines following followed_runs ends watch batches; do
        check "$test builds for the thread sanitizer" "$cc" $sanitize "tests/$test.c" $sanitized -o "$work/sanitized-$test"
    done
    check 'resume builds for the thread sanitizer' "$cc" $sanitize -Wl,--wrap=clock_gettime tests/resume.c $sanitized -o "$work/sanitized-resume"
    check 'looks builds for the thread sanitizer' "$cc" $sanitize $wraps_looks tests/looks.c $sanitized -o "$work/sanitized-looks"
    check 'looks under the thread sanitizer: inside' "$work/sanitized-looks" inside
    check 'looks under the thread sanitizer: threads' looks sanitized-looks
    for cap in 0 7; do
        check "64 threads under the thread sanitizer, capacity $cap" crew sanitized-crew "$cap" 200
    done
    for test in $threads; do
        check "threads under the thread sanitizer: $test" "$work/sanitized-threads" "$test"
    done
    for test in alone threads; do
        check "begun and resumed under the thread sanitizer: $test" "$work/sanitized-resume" "$test"
    done
    check 'hubs that stand still under the thread sanitizer' is_watched sanitized-watch
    check 'many values under the thread sanitizer: threads' "$work/sanitized-batches" threads
    check 'many values under the thread sanitizer: 20 random runs' "$work/sanitized-batches" followed 20
    check 'many values without an end under the thread sanitizer' passes_many sanitized-batches
    check 'deadlines under the thread sanitizer: threads' "$work/sanitized-deadlines" threads
    check 'deadlines under the thread sanitizer: chapters' deadlines sanitized-deadlines chapters
    check 'a journal is followed under the thread sanitizer: alone' "$work/sanitized-following" alone
    check 'a journal is followed under the thread sanitizer: threads' "$work/sanitized-following" threads 20
    check 'ports that close with their ends under the thread sanitizer: alone' "$work/sanitized-ends" alone
    check 'ports that close with their ends under the thread sanitizer: threads' "$work/sanitized-ends" threads 40
    check 'a journal with a clock is followed under the thread sanitizer: 20 random runs' "$work/sanitized-followed_runs" 20
    for test in $handing; do
        check "chapters that are handed out under the thread sanitizer: $test" "$work/sanitized-handing" "$test"
    done
    check 'chapters of 40 random runs under the thread sanitizer' chapters sanitized-chapters 40
    check '16 threads without an end under the thread sanitizer' soaks sanitized-soak 3
    check '20 random runs of lives that are followed under the thread sanitizer' "$work/sanitized-lives" followed 20
    check '2,000 processes that come and go under the thread sanitizer' lives sanitized-lives 2000
    if [ -n "$by_cxx" ]; then
        check 'cpp builds for the thread sanitizer' "$cxx" $cxxflags -g -fsanitize=thread tests/cpp.cpp $sanitized -o "$work/sanitized-cpp"
        check 'each call from C++ under the thread sanitizer' "$work/sanitized-cpp"
    fi
else
    skip 'the thread sanitizer' "$cc has none"
fi
if command -v valgrind > "$work/found"; then
    for test in calls conveniences $by_cxx "crew $work 1 20" pool 'threads cancelled' 'threads second' 'threads closed' 'resume alone' \
        'resume threads' 'deadlines alone' 'batches alone' 'following alone' followed_clock 'ends alone' 'endless short' 'lives alone' \
        'handing busy' 'handing parked' 'handing woken' 'handing full' 'handing cancelled' \
        "files $(mktemp -d -p "$work")"; do
        check "valgrind: $test" valgrind -q --error-exitcode=9 --leak-check=full --show-leak-kinds=all "$work"/$test
    done
    check 'the instructions of a hub that never ends' costs_little
else
    skip 'valgrind' 'not there'
fi

if [ -e out/chanhub_calls.abi3.so ]; then
    ways='extension ctypes'
    check 'the extension of the Python module' env PYTHONPATH=python python3 -c \
        'import chanhub, sys; sys.exit((chanhub._CallsType is chanhub._Calls) != (sys.version_info < (3, 10)))'
else
    ways=ctypes
    skip 'the extension of the Python module' "python3 has no headers"
fi
for way in $ways; do
    for test in chanhub objects timeouts following; do
        check "the Python module by $way: $test" env CHANHUB_CALLS="$way" PYTHONPATH=python:tests python3 -m unittest -q "test_$test"
    done
done
check 'pool.py' prints "$work/sum" python3 python/pool.py
check 'first.py' prints "$work/first" python3 python/first.py
check 'deadlock.py' prints "$work/stalled" python3 python/deadlock.py
check 'deadlock.py keeps its journal' keeps_journal
check 'choice.py' chooses python3 python/choice.py
check 'objects.py' prints "$work/report" python3 python/objects.py
check 'tasks.py' prints "$work/sum" python3 python/tasks.py
check '50 random rigs' tests/rigs.py "$program" 50
check '200 random rigs, recorded and followed' tests/following.py 200
check '100 random rigs with timeouts, recorded and followed' tests/followed_timeouts.py 100

if command -v cargo > "$work/found"; then
    for test in --tests --doc; do
        # A test saves a journal under a fixed name in the folder for temporary files, where another check's would be.
        check "cargo test $test" env TMPDIR="$work" cargo test --offline --quiet --manifest-path rust/Cargo.toml $test
    done
    check 'pool.rs' prints "$work/sum" cargo run --offline --quiet --manifest-path rust/Cargo.toml --example pool
    check 'first.rs' prints "$work/first" cargo run --offline --quiet --manifest-path rust/Cargo.toml --example first
    check 'deadlock.rs' prints "$work/stalled" cargo run --offline --quiet --manifest-path rust/Cargo.toml --example deadlock
    check 'choice.rs' chooses cargo run --offline --quiet --manifest-path rust/Cargo.toml --example choice
    check 'typed.rs' prints "$work/report" cargo run --offline --quiet --manifest-path rust/Cargo.toml --example typed
    if ls -d /usr/share/cargo/registry/crossbeam-channel-* > "$work/found" 2>&1; then
        check 'crossbeam/typed.rs' prints "$work/report" with_crossbeam
    else
        skip 'crossbeam/typed.rs' 'no librust-crossbeam-channel-dev'
    fi
    check 'cargo doc' env RUSTDOCFLAGS='-D warnings' cargo doc --offline --quiet --no-deps --manifest-path rust/Cargo.toml
    check 'build.rs says what to do without the library' says_what_to_do
    check 'build.rs sees a new library' links_anew
    if cargo clippy --version > "$work/found" 2>&1; then
        check 'cargo clippy' cargo clippy --offline --quiet --all-targets --manifest-path rust/Cargo.toml -- -D warnings
    else
        skip 'cargo clippy' 'not there'
    fi
else
    skip 'the Rust crate' 'no cargo'
fi
if command -v go > "$work/found"; then
    check 'go vet' offline_go vet ./...
    check 'go test' offline_go test -count=1 -timeout 600s ./...
    check 'gofmt' is_formatted
    check 'the Go package elsewhere' is_used_elsewhere
else
    skip 'the Go package' 'no go'
fi

echo "$passed passed, $failed failed, $skipped skipped"
[ "$failed" -eq 0 ]

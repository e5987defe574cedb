#!/bin/sh
# aarch64.sh [FOLDER]: builds the C library for aarch64 Linux into FOLDER (capi/out/aarch64 if not said), and runs tests of it under
# qemu-user; rigs are judged by the program that tools/build/build.py builds for this machine. It wants aarch64-linux-gnu-gcc and qemu-aarch64:
# Debian's packages gcc-aarch64-linux-gnu, libc6-dev-arm64-cross and qemu-user. hub_c is proved once more, for that machine, and not what
# it stands on. `./test` does not run this.
# The last line counts: 'N passed, M failed'.
set -u
case ${1-} in -h | --help) sed -n '2,/^set /s/^# //p' "$0"; exit ;; esac
root=$(cd "$(dirname "$0")/.." && pwd)
out=${1:-$root/capi/out/aarch64}
. "$root/tools/gate/checks.sh"
cc=aarch64-linux-gnu-gcc
program=$root/crates/chanhub/out/chanhub

# made: whether hub_c is proved for that machine and built.
made() {
    PYTHONPATH="$root/tools/build" python3 -B - "$root/crates/hub_c" "$out/libhub_c.a" <<'END'
import subprocess
import sys
from crates import kit, words_of
words = ['--target', 'aarch64-unknown-linux-gnu', '--toolchain', f'{kit()}/toolchain', '-o', sys.argv[2]]
sys.exit(subprocess.run([*words_of('hub_c', 'build'), *words], cwd=sys.argv[1]).returncode)
END
}

# put_together: one object of all, in which no name but the header's can be seen from outside.
put_together() {
    rm -rf "$out/objects" && mkdir "$out/objects" || return
    for source in *.c; do
        $cc -O2 -std=c11 -Wall -Wextra -Werror -fPIC -c "$source" -o "$out/objects/${source%.c}.o" || return
    done
    aarch64-linux-gnu-ld -r -o "$out/whole.o" "$out/objects"/*.o --whole-archive "$out/libhub_c.a" &&
        aarch64-linux-gnu-objcopy --wildcard --keep-global-symbol='chanhub_*' "$out/whole.o" && rm -f "$out/libchanhub.a" &&
        aarch64-linux-gnu-ar rcs "$out/libchanhub.a" "$out/whole.o"
}

# runs TEST WORD..: that test, there.
runs() {
    test=$1
    shift
    qemu-aarch64 "$work/$test" "$@"
}

# crew CAP: whether each of 64 threads is told what a replay tells it.
crew() {
    mkdir -p "$work/crew-$1" && runs crew "$work/crew-$1" "$1" 200 && tests/compare.py "$work/crew-$1" "$program"
}

mkdir -p "$out" && "$root/tools/build/build.py" hub_c && "$root/tools/build/build.py" chanhub || exit
cd "$root/capi" || exit
check 'hub_c is proved for that machine' made
check 'the library' put_together
for test in calls conveniences threads memory crew endless handing deadlines following; do
    check "$test builds" $cc -std=c11 -D_DEFAULT_SOURCE -O2 -Wall -Wextra -Werror -static -I. "tests/$test.c" "$out/libchanhub.a" -lpthread -o "$work/$test"
done
for test in calls conveniences memory; do
    check "$test" runs "$test"
done
for test in cancelled second closed stalled handed; do
    check "threads: $test" runs threads "$test"
done
for test in short long; do
    check "a hub that never ends: $test" runs endless "$test"
done
# `slow` looks at how much memory is resident, and the emulator has its own.
for test in busy parked woken full cancelled inside; do
    check "chapters that are handed out: $test" runs handing "$test"
done
for test in alone threads; do
    check "deadlines: $test" runs deadlines "$test"
    check "a journal is followed: $test" runs following "$test"
done
for cap in 0 7; do
    check "64 threads, capacity $cap" crew "$cap"
done
echo "$passed passed, $failed failed"
[ "$failed" -eq 0 ]

#!/bin/sh
# package.sh: installs the library of out/, as it is, into a folder of its own, and uses it as others would: by pkg-config and by
# CMake, each over the shared and the static library. Installs stand-ins for the programs. Reads the manual pages, builds the
# example of chanhub.3, installs the Python package by pip, lists the Rust package, and uninstalls. Prints nothing if all is well,
# but what is skipped, and why: what needs a command that the machine lacks.
set -eu
cd "$(dirname "$0")/.."
cc=${CC:-cc}
python=${PYTHON:-python3}
work=$(mktemp -d)
trap 'rm -rf "$work"' EXIT
unset CHANHUB_LIBRARY CHANHUB_LIB PYTHONPATH

fail() {
    echo "failed: $1" >&2
    exit 1
}

skip() {
    echo "skipped: $1"
}

has() {
    command -v "$1" > "$work/found"
}

# quietly COMMAND..: runs it, and shows what it says only where it fails.
quietly() {
    "$@" > "$work/said" 2>&1 || { cat "$work/said" >&2; fail "$*"; }
}

# make_as_it_is TARGET [NAME=VALUE ..]: makes it, over the libraries that are there.
make_as_it_is() {
    quietly make -s -o out/libchanhub.a -o out/libchanhub.so "$@"
}

# prints_first COMMAND..: whether it prints what README says of the first program.
prints_first() {
    "$@" > "$work/printed" || fail "$*"
    cmp "$work/printed" "$work/first" || fail "what is printed by $*"
}

# files_of FOLDER..: the files below.
files_of() {
    find "$@" ! -type d | sort
}

[ -e out/libchanhub.a ] && [ -e out/libchanhub.so ] || fail 'no libraries in out: make them first'
version=$(sed -n 's/^VERSION = //p' Makefile)
header=$(sed -n 's/^#define CHANHUB_VERSION_MAJOR //p' chanhub.h).$(sed -n 's/^#define CHANHUB_VERSION_MINOR //p' chanhub.h)
[ "$version" = "$header" ] || fail "the versions of Makefile and of chanhub.h: $version and $header"
calls=$(grep -v '^typedef' chanhub.h | grep -o '\bchanhub_[a-z_]*(' | tr -d '(' | sort -u)

# What the example of chanhub.3 prints, and first.py.
printf '%s\n' 9 'chanhub journal 2' 'procs 1' '0 make 1' '0 send 1 9' '0 recv 1' '0 recv 1' > "$work/first"
sed -n '/^#include/,/^\.Ed/p' man/chanhub.3 | sed '/^\.Ed/d; s/\\e/\\/g' > "$work/example.c"

# Stand-ins for the programs, which say their names.
mkdir "$work/programs"
for name in chanhub chanhub_tool; do
    printf '#!/bin/sh\necho %s\n' "$name" > "$work/programs/$name"
done

# installs_programs [FOLDER=PATH ..]: whether both can be run from where they are installed.
installs_programs() {
    make_as_it_is install-programs BUILD=: PREFIX="$prefix" "$@" \
        PROGRAM="$work/programs/chanhub" TOOL="$work/programs/chanhub_tool"
    for name in chanhub chanhub_tool; do
        [ "$("$(find "$prefix" -name "$name" -type f -perm 755)")" = "$name" ] || fail "the program $name"
    done
}

# installs NAME [FOLDER=PATH ..]: installs the library below $work/NAME, and sees that it is used from there by all ways.
installs() {
    prefix=$work/$1
    shift
    make_as_it_is install PREFIX="$prefix" "$@"
    installs_programs "$@"
    library=$(dirname "$(find "$prefix" -name libchanhub.a)")
    [ "$(readlink "$library/libchanhub.so")" = libchanhub.so.1 ] || fail 'the link to the shared library'
    uses_pkg_config "$library"
    uses_cmake "$library"
    # CMake's files find the rest where the prefix has been moved to.
    mv "$prefix" "$work/moved"
    uses_cmake "$work/moved${library#"$prefix"}"
    mv "$work/moved" "$prefix"
    make_as_it_is uninstall PREFIX="$prefix" "$@"
    [ -z "$(files_of "$prefix")" ] || fail "what uninstall leaves: $(files_of "$prefix")"
    [ ! -e "$library/cmake/chanhub" ] || fail 'the folder that uninstall leaves'
}

# uses_pkg_config LIBRARIES: whether the example is built by what pkg-config says.
uses_pkg_config() {
    has pkg-config || return 0
    export PKG_CONFIG_PATH="$1/pkgconfig"
    [ "$(pkg-config --modversion chanhub)" = "$version" ] || fail 'the version that pkg-config tells'
    [ "$(pkg-config --define-variable=prefix=/there --variable=libdir chanhub)" = "/there${1#"$prefix"}" ] ||
        fail 'the libraries that pkg-config tells of a prefix that was moved'
    quietly "$cc" -std=c11 "$work/example.c" $(pkg-config --cflags --libs chanhub) -o "$work/shared"
    prints_first env LD_LIBRARY_PATH="$1" "$work/shared"
    if has_static_c; then
        quietly "$cc" -std=c11 -static "$work/example.c" $(pkg-config --static --cflags --libs chanhub) -o "$work/static"
        prints_first "$work/static"
    fi
}

# has_static_c: whether whole programs can be linked statically here.
has_static_c() {
    echo 'int main(void) { return 0; }' | "$cc" -static -x c - -o "$work/empty" 2> "$work/errors"
}

# uses_cmake LIBRARIES: whether the example is built over both targets.
uses_cmake() {
    has cmake || return 0
    # What CMake knows of the compiler stays.
    mkdir -p "$work/cmake"
    cp "$work/example.c" "$work/cmake/"
    cat > "$work/cmake/CMakeLists.txt" <<END
cmake_minimum_required(VERSION 3.10)
project(example C)
set(CMAKE_C_STANDARD 11)
find_package(chanhub ${version%%.*} REQUIRED)
if(NOT chanhub_VERSION VERSION_EQUAL $version)
  message(FATAL_ERROR "version \${chanhub_VERSION}")
endif()
find_package(chanhub 99 QUIET)
if(chanhub_FOUND)
  message(FATAL_ERROR "found as version 99")
endif()
add_executable(shared example.c)
target_link_libraries(shared PRIVATE chanhub::chanhub)
add_executable(static example.c)
target_link_libraries(static PRIVATE chanhub::static)
END
    quietly cmake -S "$work/cmake" -B "$work/cmake/build" -DCMAKE_C_COMPILER="$cc" -Dchanhub_DIR="$1/cmake/chanhub"
    quietly cmake --build "$work/cmake/build" --clean-first
    for target in shared static; do
        prints_first "$work/cmake/build/$target"
    done
}

has pkg-config || skip 'pkg-config: not there'
has_static_c || skip 'pkg-config --static: no static C library'
has cmake || skip 'CMake: not there'
installs usual
installs multiarch LIBDIR=lib/x86_64-linux-gnu
installs full BINDIR="$work/full/sbin" LIBDIR="$work/full/lib64" INCLUDEDIR="$work/full/include/chanhub" MANDIR="$work/full/man"

# All of it lies below DESTDIR, and no file names DESTDIR.
make_as_it_is install DESTDIR="$work/a stage" PREFIX=/usr
for header in *.h *.hpp; do
    case $header in
    heap.h | hub.h | hub_c.h | '*.hpp') ;; # the library's own; no such header
    *) cmp "$header" "$work/a stage/usr/include/$header" || fail "$header below DESTDIR" ;;
    esac
done
for page in man/*.[13]; do
    [ -e "$work/a stage/usr/share/man/man${page##*.}/${page#man/}" ] || fail "$page below DESTDIR"
done
! grep -rl 'a stage' "$work/a stage" || fail 'a file that names DESTDIR'
echo mine > "$work/a stage/usr/lib/mine"
make_as_it_is uninstall DESTDIR="$work/a stage" PREFIX=/usr
[ "$(files_of "$work/a stage")" = "$work/a stage/usr/lib/mine" ] || fail 'what uninstall leaves below DESTDIR'

# has_man_db: whether the command man is that of man-db, which tells warnings.
has_man_db() {
    has man && man --help > "$work/found" 2>&1 && grep -q -e --warnings "$work/found"
}

for page in man/*.[13]; do
    if has mandoc; then
        quietly mandoc -T lint -W warning "$page"
        [ ! -s "$work/said" ] || { cat "$work/said" >&2; fail "$page"; }
    fi
    if has_man_db; then
        MANWIDTH=80 man --warnings -l "$page" > "$work/page" 2> "$work/errors" || fail "man -l $page"
        [ -s "$work/page" ] && [ ! -s "$work/errors" ] || { cat "$work/errors" >&2; fail "man -l $page"; }
    fi
done
has mandoc || has_man_db || skip 'manual pages: neither mandoc nor man-db'
for call in $calls; do
    grep -q "^\.F[no] $call\b" man/chanhub.3 && grep -q "^\.Nm $call\b" man/chanhub.3 || fail "chanhub.3 lacks $call"
done
commands=$(sed -n 's/^ *"\([a-z]*\)" => Ok.*Command::.*/\1/p' ../crates/chanhub_tool/src/commands.rt)
[ -n "$commands" ] || fail 'the commands of chanhub_tool'
for command in $commands; do
    grep -qx "\.Cm $command" man/chanhub_tool.1 && grep -q "^\.It Nm Cm $command\b" man/chanhub_tool.1 ||
        fail "chanhub_tool.1 lacks $command"
done

# Pip builds where the sources are, so it gets a copy.
packs="import sys, setuptools
try: import setuptools.command.bdist_wheel
except ImportError: import wheel
sys.exit(int(setuptools.__version__.split('.')[0]) < 61)"
if ! "$python" -m pip --version > "$work/found" 2>&1; then
    skip 'the Python package: no pip'
elif ! "$python" -c "$packs" > "$work/found" 2>&1; then
    skip 'the Python package: no setuptools from 61 on that makes wheels'
else
    mkdir -p "$work/source/out" "$work/elsewhere"
    cp -RL python "$work/source/python"
    rm -rf "$work/source/python/build" "$work/source/python"/*.egg-info
    cp out/libchanhub.so "$work/source/out/"
    cp chanhub.h "$work/source/"
    quietly "$python" -m pip wheel -q --no-index --no-deps --no-build-isolation -w "$work/wheels" "$work/source/python"
    [ "$(cd "$work/wheels" && ls)" = "chanhub-$version-py3-none-linux_x86_64.whl" ] || fail "the wheel: $(ls "$work/wheels")"
    quietly "$python" -m pip install -q --no-index --no-deps --target "$work/site" "$work/wheels"/*.whl
    [ -e "$work/site/chanhub/py.typed" ] || fail 'py.typed'
    [ ! -e out/chanhub_calls.abi3.so ] || [ -e "$work/site/chanhub/chanhub_calls.abi3.so" ] || fail 'chanhub_calls.abi3.so'
    rm -rf "$work/source"
    cp python/first.py "$work/elsewhere/"
    prints_first env -C "$work/elsewhere" PYTHONPATH="$work/site" "$python" -B first.py
fi

if has cargo; then
    (cd rust && cargo package --list --allow-dirty --offline) > "$work/listed" 2> "$work/errors" ||
        { cat "$work/errors" >&2; fail 'cargo package'; }
    for name in Cargo.toml LICENSE README.md build.rs src/lib.rs; do
        grep -qx "$name" "$work/listed" || fail "the Rust package lacks $name"
    done
else
    skip 'the Rust package: no cargo'
fi

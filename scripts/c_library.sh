#!/usr/bin/env bash
# Makes the C library and tries it from C, C++, Python and Rust: the examples, with sanitizers where they are there;
# c_calls.c, which has each status, each refused allocation and threads with small stacks; c_library.py, made problems
# against the reference and the built program; and python_package.py, the Python package. A compiler that is not there
# is told and left out. The library's crates must be proved. The last line is 'N passed, M failed'.
# usage: c_library.sh PROGRAM
set -uo pipefail
cd "$(dirname "$0")/.." || exit 1
room=$(mktemp -d)
trap 'rm -rf "$room"' EXIT
passed=0 failed=0

# Counts the command that is run, and shows what it said where it failed.
try() { # NAME COMMAND..
    local name=$1
    shift
    if "$@" > "$room/said" 2>&1; then
        passed=$((passed + 1))
        echo "$name: ok"
    else
        failed=$((failed + 1))
        echo "$name: FAILED"
        tail -n 30 "$room/said"
    fi
}

# Whether a command prints what the examples print in each language.
prints() { # COMMAND..
    "$@" > "$room/printed" 2>&1 && cmp "$room/printed" examples/library.out || { cat "$room/printed"; return 1; }
}

# Adds up what a script counted, by its last line.
add_up() { # COMMAND..
    "$@" > "$room/said" 2>&1
    cat "$room/said"
    if [[ $(tail -n 1 "$room/said") =~ ^([0-9]+)\ passed,\ ([0-9]+)\ failed$ ]]; then
        passed=$((passed + BASH_REMATCH[1]))
        failed=$((failed + BASH_REMATCH[2]))
    else
        failed=$((failed + 1))
    fi
}

warnings=(-Wall -Wextra -Werror)
wraps=(-Wl,--wrap=malloc,--wrap=realloc,--wrap=free -pthread)

# Builds a program over the header and the archive.
build() { # OUTPUT WORDS..
    local output=$1
    shift
    "$@" "${warnings[@]}" -Iinclude -x none lib/libmrjob.a -o "$output"
}

# The examples and the calls by one compiler, with these words.
try_compiled() { # NAME C-COMPILER C++-COMPILER WORDS..
    local name=$1 c=$2 cc=$3
    shift 3
    try "$name: plan.c is built" build "$room/plan" "$c" -std=c99 "$@" examples/c/plan.c
    try "$name: plan.c" prints "$room/plan"
    try "$name: c_calls.c is built" build "$room/calls" "$c" -std=c11 "$@" "${wraps[@]}" scripts/c_calls.c
    add_up "$room/calls"
    command -v "$cc" > /dev/null || { echo "$cc is not there, so nothing was built as C++"; return; }
    try "$name: plan.cc is built" build "$room/plan" "$cc" -std=c++17 "$@" examples/c/plan.cc
    try "$name: plan.cc" prints "$room/plan"
    try "$name: plan.c is built as C++" build "$room/plan" "$cc" -std=c++17 "$@" -x c++ examples/c/plan.c
    try "$name: plan.c as C++" prints "$room/plan"
    for standard in c++11 c++20; do
        try "$name: c_names.cc is built as $standard" \
            build "$room/names" "$cc" "-std=$standard" -pedantic-errors "$@" -pthread scripts/c_names.cc
        try "$name: c_names.cc as $standard" "$room/names"
    done
}

# A program over what is installed, as README says: it starts by its rpath alone.
by_pkg_config() {
    export PKG_CONFIG_PATH="$room/root/lib/pkgconfig"
    local flags
    read -r -a flags < <(pkg-config --cflags --libs mrjob)
    cc examples/c/plan.c "${flags[@]}" "-Wl,-rpath,$(pkg-config --variable=libdir mrjob)" -o "$room/plan" &&
        [ "$(pkg-config --modversion mrjob)" = "$(cat VERSION)" ] && pkg-config --exists 'mrjob >= 1.0'
}

# Programs over the shared and the static library by CMake.
by_cmake() {
    cat > "$room/CMakeLists.txt" << END
cmake_minimum_required(VERSION 3.5)
project(try C)
find_package(mrjob $(cat VERSION) EXACT REQUIRED)
foreach(library mrjob static)
  add_executable(by_\${library} $PWD/examples/c/plan.c)
  target_link_libraries(by_\${library} mrjob::\${library})
endforeach()
END
    cmake -S "$room" -B "$room/cmake" "-DCMAKE_PREFIX_PATH=$room/root" && cmake --build "$room/cmake"
}

# The library as `make install` puts it, where a program is there to be put with it: by pkg-config and CMake too, where
# those are there.
try_installed() {
    [ -e bin/mrjob ] || { echo "bin/mrjob is not there, so nothing was installed"; return; }
    try "make install" make -s install "PREFIX=$room/root"
    try "libmrjob.so is a link" test "$(readlink "$room/root/lib/libmrjob.so")" = libmrjob.so.1
    try "plan.c over what is installed is built" \
        cc examples/c/plan.c -I"$room/root/include" -L"$room/root/lib" -lmrjob -o "$room/plan"
    try "plan.c over what is installed" prints env LD_LIBRARY_PATH="$room/root/lib" "$room/plan"
    if command -v pkg-config > /dev/null; then
        try "plan.c by pkg-config is built" by_pkg_config
        try "plan.c by pkg-config" prints "$room/plan"
    else
        echo "pkg-config is not there, so nothing was built by it"
    fi
    if command -v cmake > /dev/null; then
        try "plan.c by CMake is built" by_cmake
        try "plan.c by CMake" prints "$room/cmake/by_mrjob"
        try "plan.c by CMake, static" prints "$room/cmake/by_static"
    else
        echo "cmake is not there, so nothing was built by it"
    fi
}

try "the library is made" scripts/library.py --proved
if command -v cc > /dev/null; then
    try_compiled plain cc c++ -O2
    sanitizers=(-g -fsanitize=address,undefined -fno-sanitize-recover=all)
    if echo 'int main(void) { return 0; }' | cc "${sanitizers[@]}" -x c - -o "$room/none" 2> "$room/said"; then
        try_compiled sanitized cc c++ "${sanitizers[@]}"
    else
        echo "cc has no sanitizers here, so nothing was tried with them"
    fi
    try_installed
else
    echo "cc is not there, so nothing was tried from C"
fi
if command -v cargo > /dev/null; then
    try "the example in Rust is built" env MRJOB_LIB="$PWD/lib" CARGO_TARGET_DIR="$room/rust" \
        cargo build --quiet --offline --manifest-path examples/rust/Cargo.toml
    try "the example in Rust" prints "$room/rust/debug/plan"
else
    echo "cargo is not there, so nothing was tried from Rust"
fi
add_up scripts/c_library.py "$@"
add_up scripts/python_package.py
echo "$passed passed, $failed failed"
[ "$failed" = 0 ] && [ "$passed" != 0 ]

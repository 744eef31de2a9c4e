#!/bin/sh
# Builds the second checker, the program that tells what `account` has to print, the generator of halls, the program that
# compares the checkers, the example of a program that calls the proved one, and the benchmark; the last three are linked
# with the library that `rt lib` builds in crates/host.
#
#     tests/build.sh [FOLDER]
#
# FOLDER is for what is built, seen from the repository's top: out/tests if not given.
# The environment may give CXX, the compiler (g++), and CXXFLAGS, more flags, as -fsanitize=address,undefined.
set -eu
cd "$(dirname "$0")/.."
out=${1:-out/tests}
cxx="${CXX:-g++} -O2 -Wall -Wextra -std=c++17 ${CXXFLAGS:-}"
# the library, and the toolchain's archive with what it asks for memory
proved="crates/host/out/libhost.a $(dirname "$(rt doc)")/c/liblibc_c.a"
mkdir -p "$out/objects"

# Compiles each of the files, and sets `objects` to their objects.
compile() {
    objects=
    for file in "$@"; do
        object=$out/objects/$(echo "${file%.cpp}" | tr / -).o
        $cxx -c "$file" -o "$object"
        objects="$objects $object"
    done
}

library_files() { ls "tests/$1"/*.cpp | grep -v _main.cpp; }

compile $(library_files second)
second=$objects
compile $(library_files tell)
tell=$objects
compile $(library_files generate)
generate=$objects
compile $(library_files differential)
differential=$objects

compile tests/second/second_main.cpp
$cxx $second $objects -o "$out/second"
compile tests/tell/tell_main.cpp
$cxx $tell $second $objects -o "$out/tell"
compile tests/generate/generate_main.cpp
$cxx $generate $objects -o "$out/generate"

$cxx $differential $generate $tell $second $proved -o "$out/differential"

compile examples/settle.cpp
$cxx $objects $proved -o "$out/example"

compile bench/bench.cpp
$cxx $objects $second $proved -o "$out/bench"

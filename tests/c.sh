#!/usr/bin/env bash
# The C programs against the library: every call, as C and as C++, and the stack that each uses.
set -euo pipefail
cd "$(dirname "$0")"
lib=${HOMVAITS_LIB:-$(realpath ../target/staticlib/libcapi.a)}
out=${CARGO_TARGET_DIR:-$(realpath ..)/target/cargo}/c
flags="-O1 -Wall -Wextra -Wpedantic -Werror -I../include"
mkdir -p "$out"

cc -std=c11 $flags c/use.c "$lib" -o "$out/use-c"
"$out/use-c"
c++ -std=c++11 $flags -x c++ c/use.c -x none "$lib" -o "$out/use-c++"
"$out/use-c++"
# the examples of the README: the program, and its function for a row, which c/row.c runs
awk '/^```c$/ { on = 1; next } /^```$/ { on = 0 } on' ../README.md > "$out/readme.c"
cc -std=c11 $flags "$out/readme.c" "$lib" -o "$out/readme-c"
"$out/readme-c"
cc -std=c11 $flags -Dmain=program -Dhomvaits_tick_row=watched_tick_row -c "$out/readme.c" -o "$out/readme.o"
cc -std=c11 $flags c/row.c "$out/readme.o" "$lib" -o "$out/readme-row"
"$out/readme-row"
# with -z now the first memcpy does not look itself up on the measured stack
cc -std=c11 $flags c/stack.c "$lib" -Wl,-z,now -o "$out/stack"
"$out/stack"

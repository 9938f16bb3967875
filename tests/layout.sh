#!/usr/bin/env bash
# A library of another layout, or of none: the Rust wrapper is not built with it, and says why; the C program does not link.
set -euo pipefail
cd "$(dirname "$0")"
lib=${HOMVAITS_LIB:-$(realpath ../target/staticlib/libcapi.a)}
target=${CARGO_TARGET_DIR:-$(realpath ..)/target/cargo}/layout
room=$(mktemp -d)
trap 'rm -rf "$room"' EXIT

fail() {
    echo "layout: $*" >&2
    exit 1
}
# build LIBRARY: the wrapper with it; what is said goes to $room/said.
build() {
    HOMVAITS_LIB=$1 CARGO_TARGET_DIR=$target cargo check -q --offline --manifest-path ../rust/homvaits/Cargo.toml > "$room/said" 2>&1
}
# refused SYMBOL WORDS: with this name for homvaits_layout_1 the library is said to have so.
refused() {
    local other=$room/lib$1.a
    objcopy --redefine-sym "homvaits_layout_1=$1" "$lib" "$other"
    ! build "$other" || fail "the wrapper is built with a library that has $1"
    grep -qF "the library $other has $2, and this crate needs layout 1" "$room/said" || fail "not '$2' is said of $1: $(cat "$room/said")"
    ! LC_ALL=C cc -std=c11 -I../include c/use.c "$other" -o "$room/use" 2> "$room/said" || fail "use.c links with a library that has $1"
    grep -q homvaits_layout_1 "$room/said" || fail "the linker does not miss homvaits_layout_1: $(cat "$room/said")"
}

refused homvaits_layout_2 'layout 2'
refused homvaits_layout_10 'layout 10'
refused homvaits_layout_ 'no layout number'
refused another 'no layout number'
head -c 100 "$lib" > "$room/libpart.a"
! build "$room/libpart.a" || fail "the wrapper is built with a part of a library"
grep -qF 'has no layout number' "$room/said" || fail "of a part of a library it is said: $(cat "$room/said")"
objcopy "$lib" "$room/libsame.a"
build "$room/libsame.a" || fail "the wrapper is not built with a copy of the library: $(cat "$room/said")"
echo "layout: libraries of another layout are refused"

#!/bin/sh
# Tries the harness on the fake library: no difference where it is the
# reference itself, and every deliberate mistake noticed where it is wrong.
set -eu
cd "$(dirname "$0")"
target=${CARGO_TARGET_DIR:-$PWD/target}
build() { # folder, features of fake
    export CARGO_TARGET_DIR="$target/$1" HOMVAITS_LIB="$target/$1/release/libfake.a"
    cargo build -q --release --offline -p fake --features "$2"
    cargo build -q --release --offline -p compare
}
build right ""
"$target/right/release/compare" 1 20
if "$target/right/release/compare" 1 0 > /dev/null; then
    echo "nothing compared, and not noticed"
    exit 1
fi
build wrong wrong
# the call in which each mistake of fake is to be noticed
calls="check check check check check check check check check
    plan plan plan plan plan plan
    start start start start_list release release finish tick tick tick
    list list list list list margin margin margin margin
    move move move move move move move
    tick_row tick_row tick_row tick_row tick_row tick_row tick_row tick_row tick_row tick_row tick_row tick_row tick_row tick_row tick_row tick_row
    check check check check check check check check check check check check check check check
    start start_list list list move move release release finish finish finish finish finish
    tick tick tick tick tick tick tick tick tick tick tick tick tick tick tick tick
    tick_row tick_row tick_row"
try() { # 1: the mistakes of odd numbers; 0: the others
    mistake=0
    for call in $calls; do
        mistake=$((mistake + 1))
        [ $((mistake % 2)) = "$1" ] || continue
        answer=$(FAKE_WRONG=$mistake "$target/wrong/release/compare" 1 1) || true
        case $answer in
        "compare: difference in $call
"*) ;;
        *)
            echo "mistake $mistake was not noticed in $call"
            exit 1
            ;;
        esac
    done
}
# two at a time
try 1 &
odd=$!
try 0 &
even=$!
trap 'kill $odd $even 2> /dev/null; exit 1' INT TERM
status=0
wait $odd || status=1
wait $even || status=1
[ $status = 0 ] || exit 1
set -- $calls
echo "harness: $# mistakes noticed"

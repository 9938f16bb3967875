#!/usr/bin/env bash
# The outside tests against the proved library (`./build capi` makes it) and the programs. Arguments: a seed and a number of rounds.
set -euo pipefail
cd "$(dirname "$0")"
export HOMVAITS_LIB="${HOMVAITS_LIB:-$(realpath -m ../target/staticlib/libcapi.a)}"
if [ ! -f "$HOMVAITS_LIB" ]; then
    echo "run.sh: there is no library $HOMVAITS_LIB; ./build capi makes target/staticlib/libcapi.a" >&2
    exit 1
fi
export CARGO_TARGET_DIR="${CARGO_TARGET_DIR:-$(realpath ..)/target/cargo}"

# The command's tests run beside the others, in a folder of their own, since cargo builds one thing at a time in a folder.
said=$(mktemp)
(cd ../rust/command && CARGO_TARGET_DIR=$CARGO_TARGET_DIR/command exec cargo test -q --release --offline) > "$said" 2>&1 &
command=$!
trap 'kill $command 2> /dev/null || true; rm -f "$said"' EXIT

cargo test -q --release --offline
./try-harness.sh
cargo run -q --release --offline -p compare -- "${1:-1}" "${2:-20}"
cargo test -q --release --offline -p compare
rm -rf "$CARGO_TARGET_DIR/vectors"
cargo run -q --release --offline -p vectors -- "$CARGO_TARGET_DIR/vectors"
diff -r "$CARGO_TARGET_DIR/vectors" ../vectors
cargo test -q --release --offline -p vectors
(cd ../bench && cargo test -q --release --offline)
(cd ../rust/homvaits && cargo test -q --release --offline)
./simple.sh "${1:-1}"
./c.sh
./layout.sh
./needs.sh
./programs.sh
./command.sh "${1:-1}"
wait $command || {
    cat "$said"
    exit 1
}
cat "$said"

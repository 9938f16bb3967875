#!/usr/bin/env bash
# The simple checker, built by the line in its own head, from outside: the examples of docs/SHEET.md, streams, exit status, and 300
# sheets beside the command homvaits. Argument: a seed for the sheets.
set -euo pipefail
cd "$(dirname "$0")/.."
room=$(mktemp -d)
trap 'rm -rf "$room"' EXIT
export HOMVAITS_LIB="${HOMVAITS_LIB:-$PWD/target/staticlib/libcapi.a}" CARGO_TARGET_DIR="${CARGO_TARGET_DIR:-$PWD/target/cargo}"
homvaits=$CARGO_TARGET_DIR/release/homvaits
cases=0

fail() {
    echo "simple: $*"
    exit 1
}

# The line that people read, in a folder that has this one file; it builds without a word.
line=$(grep -o 'rustc .*' docs/checker.rs)
[ "$(wc -l <<< "$line")" = 1 ] || fail "docs/checker.rs has several lines for rustc: $line"
mkdir "$room/docs"
cp docs/checker.rs "$room/docs"
said=$(cd "$room" && bash -c "$line" 2>&1) || fail "$line: $said"
[ -z "$said" ] || fail "$line says $said"
checker=$room/checker
[ -x "$checker" ] || fail "$line makes no program checker"

# try WHAT STATUS OUTPUT ERROR COMMAND..: the command ends so and prints this; its error is one line with this text, or empty as it is.
try() {
    local what=$1 wanted=$2 output=$3 error=$4 given=0
    shift 4
    "$@" > "$room/out" 2> "$room/err" || given=$?
    [ "$given" = "$wanted" ] || fail "$what ends with $given, and should with $wanted: $(cat "$room/err")"
    [ "$(cat "$room/out")" = "$output" ] || fail "$what prints '$(cat "$room/out")', and should '$output'"
    if [ -z "$error" ]; then
        [ ! -s "$room/err" ]
    else
        [ "$(wc -l < "$room/err")" = 1 ] && grep -qF -- "$error" "$room/err"
    fi || fail "$what says '$(cat "$room/err")', and should '$error'"
    cases=$((cases + 1))
}

# bytes HEX..: these bytes, two digits each.
bytes() { printf "$(printf '\\x%s' $*)"; }

# sheet WHAT STATUS OUTPUT HEX: the answer to these bytes.
sheet() {
    bytes "$4" > "$room/sheet"
    try "$1" "$2" "$3" '' bash -c "'$checker' < '$room/sheet'"
}

sheet 'the header alone' 0 'accepted tasks 0 cores 0' '54 53 48 01 00 00 00 00'
sheet 'seven bytes' 1 'refused 1 place 0' '54 53 48 01 00 00 00'
sheet 'version 257' 1 'refused 3 place 0' '54 53 48 01 01 00 00 00'
ten='54 53 48 01 00 02 01 00  05 00 01 00 00 00 01 00 00 00  09 00 07 00 00 00 02 00 00 00  09 00 00 00 02 00 00 00'
sheet 'section 10' 0 'accepted tasks 2 cores 1' "$ten"
sheet 'section 10, budget 8' 1 'refused 14 place 64' "${ten/07 00 00/08 00 00}"
sheet 'section 10, period 4' 1 'refused 12 place 0' "${ten/05 00 01/04 00 01}"
sheet 'section 10, cut' 1 'refused 5 place 0' "${ten% 00}"
twelve='54 53 48 02 00 05 02 00  04 00 01 00 03 00 01 00 00 00  08 00 02 00 01 00 02 00 00 00  08 00 01 00 04 00 02 00 00 00
    05 00 01 00 02 00 01 00 00 00  09 00 07 00 00 00 02 00 00 00  04 00 03 00 01 00 00 00  09 00 02 00 02 00 00 00'
sheet 'section 12' 0 'accepted tasks 5 cores 2' "$twelve"
sheet 'section 12, a number twice' 1 'refused 23 place 0' "${twelve/07 00 00/07 00 02}"
sheet 'section 12, period 0' 1 'refused 7 place 2' "${twelve/08 00 01/00 00 01}"
fourteen='54 53 48 03 00 02 01 00  05 00 01 00 00 01 01 00 00 00  09 00 07 00 00 04 02 00 00 00  09 00 00 00 02 00 00 00'
sheet 'section 14' 0 'accepted tasks 2 cores 1' "$fourteen"
sheet 'section 14, stroke 5' 1 'refused 14 place 64' "${fourteen/00 04/00 05}"
sheet 'section 14, stroke 8' 1 'refused 25 place 1' "${fourteen/00 04/00 08}"

# Streams. A closed input is an empty one; a closed output takes the line and loses it.
bytes "$ten" > "$room/sheet"
try 'a pipe' 0 'accepted tasks 2 cores 1' '' bash -c "cat '$room/sheet' | '$checker'"
try 'an argument' 2 '' 'usage: checker < SHEET' bash -c "'$checker' '$room/sheet' < '$room/sheet'"
try 'a closed input' 1 'refused 1 place 0' '' bash -c "'$checker' <&-"
try 'a closed output' 0 '' '' bash -c "'$checker' < '$room/sheet' >&-"
try 'all closed' 1 '' '' bash -c "'$checker' <&- >&- 2>&-"
try 'a folder' 2 '' 'checker: standard input: ' bash -c "'$checker' < '$room'"
try 'a full output' 2 '' 'checker: standard output: ' bash -c "'$checker' < '$room/sheet' > /dev/full"
try 'a folder, and a full error' 2 '' '' bash -c "'$checker' < '$room' 2> /dev/full"
try 'a megabyte' 1 'refused 5 place 0' '' bash -c "(cat '$room/sheet'; head -c 1000000 /dev/zero) | '$checker'"

# Beside the command: the first line of its listing has the counts or the refusal.
cargo build -q --release --offline --manifest-path rust/command/Cargo.toml
(cd tests && cargo run -q --release --offline -p inputs --bin sheets -- "$room/sheets" "${1:-1}" 300)
accepted=0 refused=0
for file in "$room"/sheets/*.tsh; do
    read -r word number rest < <("$homvaits" list "$file")
    if [ "$word" = TSH ]; then
        wanted=0 expected="accepted $rest" accepted=$((accepted + 1))
    else
        wanted=1 expected="$word $number $rest" refused=$((refused + 1))
    fi
    try "$(basename "$file")" $wanted "$expected" '' bash -c "'$checker' < '$file'"
done
[ $accepted -gt 60 ] && [ $refused -gt 60 ] || fail "$accepted sheets are accepted, $refused refused"
echo "simple: $cases cases"

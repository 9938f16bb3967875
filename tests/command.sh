#!/usr/bin/env bash
# The command homvaits beside the proved programs list, plan, margins and move_sheet, byte by byte, and its exit status. programs.sh
# builds the programs. Argument: a seed for the sheets.
set -euo pipefail
cd "$(dirname "$0")/.."
room=$(mktemp -d)
trap 'rm -rf "$room"' EXIT
export HOMVAITS_LIB="${HOMVAITS_LIB:-$PWD/target/staticlib/libcapi.a}" CARGO_TARGET_DIR="${CARGO_TARGET_DIR:-$PWD/target/cargo}"
homvaits=$CARGO_TARGET_DIR/release/homvaits
cases=0

fail() {
    echo "command: $*"
    exit 1
}

# tells WHAT TEXT: the error of the last command has this text.
tells() { grep -qF -- "$2" "$room/err" || fail "$1 does not say '$2': $(cat "$room/err")"; }

# one WHAT STATUS FILE COMMAND..: the command ends so; what it prints goes to the file, and its error to $room/err.
one() {
    local what=$1 wanted=$2 file=$3 given=0
    shift 3
    "$@" > "$file" 2> "$room/err" || given=$?
    [ "$given" = "$wanted" ] || fail "$what ends with $given, and should with $wanted: $(cat "$room/err")"
    cases=$((cases + 1))
}

for program in list plan margins move_sheet; do
    [ -x "target/bin/$program" ] || fail "there is no target/bin/$program; tests/programs.sh builds it"
done
cargo build -q --release --offline --manifest-path rust/command/Cargo.toml
(cd tests && cargo run -q --release --offline -p inputs --bin sheets -- "$room/sheets" "${1:-1}" 700)

# Sheets: list and move_sheet write into one folder, the command into another, and the two folders are the same.
mkdir "$room/proved" "$room/command" "$room/jobs"
accepted=0 refused=0 strokes=0
for sheet in "$room"/sheets/*.tsh; do
    name=$(basename "$sheet" .tsh)
    target/bin/list < "$sheet" > "$room/proved/$name.list"
    target/bin/move_sheet < "$sheet" > "$room/proved/$name.moved" 2> "$room/proved/$name.refused"
    read -r verdict number _ < "$room/proved/$name.list"
    if [ "$verdict" = refused ]; then
        wanted=1 refused=$((refused + 1))
    else
        wanted=0 accepted=$((accepted + 1))
        awk '$1 == "task" { print $6, $8 }' "$room/proved/$name.list" > "$room/jobs/$name.jobs"
    fi
    one "list of $name" $wanted "$room/command/$name.list" "$homvaits" list "$sheet"
    [ ! -s "$room/err" ] || fail "list of $name says $(cat "$room/err")"
    one "check of $name" $wanted "$room/out" "$homvaits" check "$sheet"
    [ $wanted = 0 ] || grep -qF ": refused $number (" "$room/out" || fail "check of $name: $(cat "$room/out")"
    one "explain of $name" $wanted "$room/out" "$homvaits" explain "$sheet"
    [ $wanted = 0 ] || head -1 "$room/out" | grep -qF ": refused $number (" || fail "explain of $name: $(head -1 "$room/out")"
    # what move_sheet says of a refused sheet is the listing of it, but version 3 is refused as such, behind 1 and 2
    cp "$room/proved/$name.list" "$room/said"
    if [ "$number" != 1 ] && [ "$(head -c 5 "$sheet" | od -An -tx1)" = ' 54 53 48 03 00' ]; then
        [ $wanted = 1 ] || strokes=$((strokes + 1))
        wanted=1 number=3
        echo 'refused 3 place 0' > "$room/said"
    fi
    one "move of $name" $wanted "$room/command/$name.moved" "$homvaits" move "$sheet"
    [ $wanted = 0 ] || tells "move of $name" "refused $number ("
    [ $wanted = 0 ] || cmp -s "$room/said" "$room/proved/$name.refused" || fail "move_sheet of $name"
    rm "$room/proved/$name.refused"
done
diff -rq "$room/proved" "$room/command" || fail "the listings or the moved sheets differ"
[ $accepted -gt 150 ] && [ $refused -gt 150 ] && [ $strokes -gt 20 ] ||
    fail "$accepted sheets are accepted, $strokes of them of version 3, $refused refused"

# A folder of them all: as many accepted and refused.
one 'check of the folder' 1 "$room/out" "$homvaits" check "$room/sheets"
summary="$((accepted + refused)) files: $accepted accepted, $refused refused"
grep -qxF "$summary" "$room/out" || fail "check of the folder: $(tail -2 "$room/out")"

# plan WHAT JOBS LIMIT START: the sheet of the command is that of the proved planner, or both refuse the same line.
plan() {
    local what="plan of $1 with limit $3 and start $4" said
    target/bin/plan "$3" "$4" < "$2" > "$room/proved.tsh" 2> "$room/proved.err"
    if [ ! -s "$room/proved.err" ]; then
        one "$what" 0 "$room/command.tsh" "$homvaits" plan "$2" --cores "$3" --start "$4" -o -
        planned=$((planned + 1))
    else
        one "$what" 1 "$room/command.tsh" "$homvaits" plan "$2" --cores "$3" --start "$4" -o -
        said=$(cat "$room/proved.err")
        said=${said#refused 15 place } # such as 4 line 6: no core takes this job
        tells "$what" 'refused 15 (No fit)'
        tells "$what" "task ${said%% *}"
        said=${said#* }
        tells "$what" "${said%%:*}:"
        unplanned=$((unplanned + 1))
    fi
    cmp "$room/proved.tsh" "$room/command.tsh" || fail "$what is another sheet"
}

# The examples with every limit and start, the jobs of the accepted sheets with some.
planned=0 unplanned=0
for jobs in examples/*.jobs; do
    count=$(grep -c '^[0-9]' "$jobs")
    for ((limit = 0; limit <= 8; limit++)); do
        for ((start = 0; start < count; start++)); do
            plan "$jobs" "$jobs" $limit $start
        done
    done
done
limit=0
for jobs in "$room"/jobs/*.jobs; do
    count=$(wc -l < "$jobs")
    limit=$(((limit + 3) % 9))
    [ "$count" = 0 ] || plan "the jobs of $(basename "$jobs" .jobs)" "$jobs" $limit $((limit * 7 % count))
done
[ $planned -gt 100 ] && [ $unplanned -gt 100 ] || fail "$planned plans, $unplanned refused"

# margins: the numbers of the table.
late=0 early=0
for jobs in examples/*.jobs "$room"/jobs/*.jobs; do
    target/bin/margins < "$jobs" > "$room/proved.margins"
    wanted=0
    ! grep -q ' -' "$room/proved.margins" || wanted=1
    one "margins of $jobs" $wanted "$room/out" "$homvaits" margins "$jobs"
    awk 'NF == 5 && $1 ~ /^[0-9]+$/ { print "task", $1, "margin", $5 }' "$room/out" > "$room/command.margins"
    cmp "$room/proved.margins" "$room/command.margins" || fail "margins of $jobs"
    [ $wanted = 0 ] && early=$((early + 1)) || late=$((late + 1))
done
[ $early -gt 20 ] && [ $late -gt 20 ] || fail "$early lists with no margin below zero, $late with one"

# Lists that are refused, and text that is no list: the same line.
sixty_five=$(printf '8 1\\n%.0s' {1..65})
for text in '5 6\n60001 1\n' '5 5\n9 10\n' '# period, budget\n\n5 5 # whole\r\n \t\n#\n9 0\n' '0 1\n' '# two numbers\n5 1\n9\n' \
    '5 1 1\n' '70000 x\n' '\n65536 1\n' '5 70000 # ticks' "$sixty_five" '5 1\n\n-3 1\n' '5 1\n5;1\n'; do
    printf "$text" > "$room/bad.jobs"
    target/bin/plan < "$room/bad.jobs" 2> "$room/proved.err"
    line=$(grep -o 'line [0-9]*' "$room/proved.err")
    for program in plan margins; do
        one "$program of '$text'" 1 "$room/out" "$homvaits" $program "$room/bad.jobs"
        tells "$program of '$text'" "bad.jobs, $line:"
        [ ! -s "$room/out" ] || fail "$program of '$text' prints $(cat "$room/out")"
    done
done
echo "command: $cases cases"

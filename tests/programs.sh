#!/usr/bin/env bash
# What list, plan, margins and move_sheet, run-example and build print on standard output and standard error; their exit status.
# Stored and written here is what the rules of sheets and plans give, and for the programs' own messages what docs/DECISIONS.md says.
set -euo pipefail
cd "$(dirname "$0")/.."
room=$(mktemp -d)
trap 'rm -rf "$room"' EXIT
cases=0

# try WHAT STATUS OUT ERR COMMAND..: OUT and ERR are printf formats; standard input goes to the command.
try() {
    local what=$1 status=$2 out=$3 err=$4 given=0
    shift 4
    printf "$out" > "$room/out.expected"
    printf "$err" > "$room/err.expected"
    "$@" > "$room/out" 2> "$room/err" || given=$?
    if [ "$given" != "$status" ] || ! diff "$room/out.expected" "$room/out" || ! diff "$room/err.expected" "$room/err"; then
        echo "programs: $what is wrong (exit status $given)"
        exit 1
    fi
    cases=$((cases + 1))
}

# Card B's sheet with this last budget, last factor and spare byte of the last task, each in octal.
sheet_b() {
    printf 'TSH\1\0\3\1\0'
    printf '\3\0\1\0\0\0\1\0\0\0'
    printf '\7\0\1\0\0\0\2\0\0\0'
    printf "\\15\\0\\$1\\0\\0\\$3\\$2\\0\\0\\0"
    printf '\3\0\0\0\1\0\0\0'
}

# Tasks (9,7), (8,2), (5,1), (4,1), (8,1) on cores 1, 0, 1, 0, 0, as a printf format: in version 1, and in version 2, where they stand as
# 3, 1, 4 and 2, 0, with these old numbers at positions 1, 2 and 4 and this count of core 1, each in octal.
by_number='TSH\1\0\5\2\0\11\0\7\0\1\0\2\0\0\0\10\0\2\0\0\0\2\0\0\0\5\0\1\0\1\0\1\0\0\0\4\0\1\0\0\0\1\0\0\0\10\0\1\0\0\0\2\0\0\0'
by_number+='\4\0\0\0\1\0\0\0\11\0\0\0\2\0\0\0'
by_core() {
    echo -n 'TSH\2\0\5\2\0\4\0\1\0\3\0\1\0\0\0\10\0\2\0\'"$1"'\0\2\0\0\0\10\0\1\0\'"$2"'\0\2\0\0\0\5\0\1\0\2\0\1\0\0\0\11\0\7\0\'"$3"'\0\2\0\0\0'
    echo -n '\4\0\3\0\1\0\0\0\11\0\'"$4"'\0\2\0\0\0'
}

# Tasks (5,1) and (9,7) in version 3, with these stroke lengths in octal.
stroked() { printf "TSH\\3\\0\\2\\1\\0\\5\\0\\1\\0\\0\\$1\\1\\0\\0\\0\\11\\0\\7\\0\\0\\$2\\2\\0\\0\\0\\11\\0\\0\\0\\2\\0\\0\\0"; }

# So many bytes that look random; the first is c6.
noise() {
    local x=1 i byte text=
    for ((i = 0; i < $1; i++)); do
        x=$(((x * 1103515245 + 12345) % 2147483648))
        printf -v byte '\\x%02x' $((x / 65536 % 256))
        text+=$byte
    done
    printf "$text"
}

# A command whose standard input brings 100 bytes and then an error: the end of a part of this shell's memory that nothing follows.
broken() {
    local range end=
    while read -r range _; do
        [ -z "$end" ] || [ "$end" = "${range%-*}" ] || break
        end=${range#*-}
    done < /proc/self/maps
    { dd bs=1 count=0 skip=$((16#$end - 100)) status=none; "$@"; } < /proc/self/mem
}

# What run-example says before it works on a job list.
works_on() { printf 'run-example: plans %s and lists the sheet; the first run proves all that plan and list need, which takes about three minutes, or more on a busy machine\\n' "$1"; }

# So many times the same line.
lines() { for ((i = 0; i < $1; i++)); do echo "$2"; done; }

# run-example: what it cannot start on. A folder with what it calls, rt left out; /dev/tty cannot be opened without a terminal.
usage='usage: run-example [JOBS [LIMIT [START]]]\n'
mkdir "$room/bin"
ln -s "$(command -v bash)" "$(command -v dirname)" "$room/bin"
for word in -h --help ''; do
    try "run-example '$word'" 2 '' "$usage" ./run-example "$word"
done
try 'run-example --help as limit' 2 '' "$usage" ./run-example examples/full-core.jobs --help
try 'run-example with no number as start' 2 '' "$usage" ./run-example examples/full-core.jobs 8 one
try 'run-example with four arguments' 2 '' "$usage" ./run-example examples/full-core.jobs 8 0 0
try 'run-example of no file' 1 '' "run-example: there is no job list $room/none\n" ./run-example "$room/none"
try 'run-example of a directory' 1 '' 'run-example: examples is a directory, not a job list\n' ./run-example examples
try 'run-example of an unreadable file' 1 '' 'run-example: the job list /dev/tty cannot be read\n' setsid -w ./run-example /dev/tty
try 'run-example without rt' 1 '' 'run-example: the Rattle toolchain, rt, is not on the PATH\n' env PATH="$room/bin" ./run-example
try 'run.sh without the library' 1 '' "run.sh: there is no library $room/none; ./build capi makes target/staticlib/libcapi.a\n" \
    env HOMVAITS_LIB="$room/none" tests/run.sh

# build: what it does not take, at which nothing is built, and a toolchain that ends well without a program.
mkdir "$room/toolchain"
printf '#!/bin/sh\necho "rt: no more" >&2\n' > "$room/toolchain/rt"
chmod +x "$room/toolchain/rt"
try 'build of nothing' 2 '' 'usage: build NAME..\n' ./build
try 'build without rt' 1 '' 'build: the Rattle toolchain, rt, is not on the PATH\n' env PATH="$room/bin" ./build list
try 'build of no crate' 1 '' "build: crates.txt has no crate 'none'\n" ./build list none
try 'build of a library' 1 '' 'build: sheet is neither a program nor a static library\n' ./build list sheet
try 'build without a program' 1 '' 'rt: no more\nbuild: list is not built\n' env PATH="$room/toolchain:$PATH" ./build list

# The examples; the first builds list and plan.
for jobs in examples/*.jobs; do
    name=$(basename "$jobs" .jobs)
    expected=$(cat "tests/programs/$name.out"; echo .)
    try "run-example $name" 0 "${expected%.}" "$(works_on "$jobs")" ./run-example "$jobs"
done
try 'run-example by itself' 0 "$(cat tests/programs/full-core.out)\n" "$(works_on "$PWD/examples/full-core.jobs")" ./run-example
try 'run-example in another folder' 0 "$(cat tests/programs/full-core.out)\n" "$(works_on full-core.jobs)" sh -c 'cd examples && ../run-example full-core.jobs 1 0'
try 'run-example to a full device' 1 '' "$(works_on examples/full-core.jobs)run-example: the listing cannot be written to standard output\n" \
    sh -c './run-example examples/full-core.jobs > /dev/full'
# The ring begins with period 64, task 4, on line 6.
try 'run-example without a core' 1 '' "$(works_on examples/ten-tasks.jobs)refused 15 place 4 line 6: no core takes this job\n" \
    ./run-example examples/ten-tasks.jobs 0

list=target/bin/list
plan=target/bin/plan

# list: cards A to F, then lengths.
card_b='TSH 1 tasks 3 cores 1
task 0 core 0 period 3 budget 1 factor 1 within 3
task 1 core 0 period 7 budget 1 factor 2 within 6
task 2 core 0 period 13 budget 6 factor 4 within 12
core 0 pivot 3 divisor 1 load 1000
'
full=$(cat tests/programs/full-core.out; echo .)
full=${full%.}
try 'list of card A' 0 'TSH 1 tasks 0 cores 0\n' '' $list < <(printf 'TSH\1\0\0\0\0')
try 'list of card B' 0 "$card_b" '' $list < <(sheet_b 6 4 0)
try 'list of card C' 0 'refused 14 place 64\n' '' $list < <(sheet_b 7 4 0)
try 'list of card D' 0 'refused 12 place 2\n' '' $list < <(sheet_b 6 5 0)
try 'list of card E' 0 'refused 13 place 2\n' '' $list < <(sheet_b 6 3 0)
try 'list of card F' 0 'refused 1 place 0\n' '' $list < <(printf 'TSH\1\0\0\0')
try 'list of nothing' 0 'refused 1 place 0\n' '' $list < /dev/null
try 'list of a spare byte in use' 0 'refused 6 place 33\n' '' $list < <(sheet_b 6 4 1)
try 'list of a byte too many' 0 'refused 5 place 0\n' '' $list < <(sheet_b 6 4 0; printf '\0')
try 'list of a byte too few' 0 'refused 5 place 0\n' '' $list < <(sheet_b 6 4 0 | head -c 45)
try 'list of 2,000 bytes' 0 'refused 2 place 0\n' '' $list < <(noise 2000)
try 'list of 2,000 bytes with a mark' 0 'refused 3 place 0\n' '' $list < <(printf 'TSH'; noise 1997)
try 'list of 2,000 bytes with a header' 0 'refused 5 place 0\n' '' $list < <(printf 'TSH\1\0\100\10\0'; noise 1992)
try 'list to a full device' 0 '' 'standard output: No space left on device\n' sh -c "$list > /dev/full" < <(sheet_b 6 4 0)

# list: a sheet of version 2 by the old numbers, and each reason for 23: a number twice, a count, equal periods in the wrong order.
listing='tasks 5 cores 2
task 0 core 1 period 9 budget 7 factor 2 within 9
task 1 core 0 period 8 budget 2 factor 2 within 8
task 2 core 1 period 5 budget 1 factor 1 within 4
task 3 core 0 period 4 budget 1 factor 1 within 4
task 4 core 0 period 8 budget 1 factor 2 within 8
core 0 pivot 4 divisor 1 load 625
core 1 pivot 9 divisor 2 load 1000
'
try 'list of two cores' 0 "TSH 1 $listing" '' $list < <(printf "$by_number")
try 'list of version 2' 0 "TSH 2 $listing" '' $list < <(printf "$(by_core 1 4 0 2)")
try 'list of an empty sheet of version 2' 0 'TSH 2 tasks 0 cores 0\n' '' $list < <(printf 'TSH\2\0\0\0\0')
try 'list of a number twice' 0 'refused 23 place 0\n' '' $list < <(printf "$(by_core 1 4 2 2)")
try 'list of counts that do not add up' 0 'refused 23 place 0\n' '' $list < <(printf "$(by_core 1 4 0 3)")
try 'list of equal periods in the wrong order' 0 'refused 23 place 0\n' '' $list < <(printf "$(by_core 4 1 0 2)")
try 'list of version 4' 0 'refused 3 place 0\n' '' $list < <(printf 'TSH\4\0\0\0\0')

# list: a sheet of version 3, in which strokes are not shown. A stroke of 5 is too long for task 0: 1 * 2 and 4 * 2 are above 9.
try 'list of version 3' 0 "TSH 3 ${full#TSH 1 }" '' $list < <(stroked 1 4)
try 'list of an empty sheet of version 3' 0 'TSH 3 tasks 0 cores 0\n' '' $list < <(printf 'TSH\3\0\0\0\0')
try 'list of a stroke of 0' 0 'refused 25 place 0\n' '' $list < <(stroked 0 4)
try 'list of a stroke above the budget' 0 'refused 25 place 1\n' '' $list < <(stroked 1 10)
try 'list of a stroke that is too long' 0 'refused 14 place 64\n' '' $list < <(stroked 1 5)

# list: arguments, at which nothing is read, and input that cannot be read.
for word in --help SHEET ''; do
    try "list '$word'" 0 'left\n' 'usage: list < SHEET\n' sh -c "$list '$word'; cat" < <(echo left)
done
try 'list of a directory' 0 '' 'standard input: Is a directory\n' $list < examples
try 'list of a closed input' 0 '' 'standard input: Bad file descriptor\n' sh -c "$list <&-"
try 'list of an input that breaks off' 0 '' 'standard input: Input/output error\n' broken $list

# list: a load of 1999/2000 is rounded up, and half of one is 500 as it is.
one_task='TSH 1 tasks 1 cores 1\ntask 0 core 0 period'
try 'list of a core that is nearly full' 0 "$one_task 2000 budget 1999 factor 1 within 2000\ncore 0 pivot 2000 divisor 1 load 1000\n" '' \
    $list < <(echo '2000 1999' | $plan)
try 'list of a core that is half full' 0 "$one_task 2 budget 1 factor 1 within 2\ncore 0 pivot 2 divisor 1 load 500\n" '' \
    $list < <(echo '2 1' | $plan)

# The longest sheet, 712 bytes: 64 jobs that fill eight cores, eight each.
longest=$(
    echo 'TSH 1 tasks 64 cores 8'
    for ((i = 0; i < 64; i++)); do echo "task $i core $((i / 8)) period 8 budget 1 factor 1 within 8"; done
    for ((k = 0; k < 8; k++)); do echo "core $k pivot 8 divisor 1 load 1000"; done
)
lines 64 '8 1' | $plan > "$room/longest"
try 'list of the longest sheet' 0 "$longest\n" '' $list < "$room/longest"
try 'list of 713 bytes' 0 'refused 5 place 0\n' '' $list < <(cat "$room/longest"; printf '\0')

# plan: sheets. Card I's is pivot 9, divisor 2, factors 1 and 2; that of the jobs in thirds is pivot 2, divisor 1, factors 1, 9 and 27.
try 'plan of card I' 0 'TSH\1\0\2\1\0\5\0\1\0\0\0\1\0\0\0\11\0\7\0\0\0\2\0\0\0\11\0\0\0\2\0\0\0' '' $plan 1 0 < examples/full-core.jobs
try 'plan of jobs in thirds' 0 'TSH\1\0\3\1\0\2\0\1\0\0\0\1\0\0\0\24\0\2\0\0\0\11\0\0\0\67\0\24\0\0\0\33\0\0\0\2\0\0\0\1\0\0\0' '' \
    $plan 1 0 < <(printf '2 1\n20 2\n55 20\n')
try 'plan of a comment' 0 'TSH\1\0\0\0\0' '' $plan < <(echo '# no job')
try 'plan of nothing' 0 'TSH\1\0\0\0\0' '' $plan 0 0 < /dev/null

# plan: refusals. In the ring of 5 and 9 the 9, task 1, stands first; in the example it is on line 5.
try 'plan without a core' 0 '' 'refused 15 place 1 line 5: no core takes this job\n' $plan 0 < examples/full-core.jobs
try 'plan of card H' 0 '' 'refused 15 place 1 line 2: no core takes this job\n' $plan 1 0 < <(printf '10 4\n15 9\n')
try 'plan with a wrong period' 0 '' 'refused 7 place 1 line 2: the period is not 1 to 60000\n' $plan < <(printf '5 6\n60001 1\n')
try 'plan with a wrong budget' 0 '' 'refused 8 place 1 line 2: the budget is not 1 to the period\n' $plan < <(printf '5 5\n9 10\n')
try 'plan with blank lines and comments' 0 '' 'refused 8 place 1 line 6: the budget is not 1 to the period\n' \
    $plan < <(printf '# period, budget\n\n5 5 # whole\r\n \t\n#\n9 0\n')
limit='refused 4 place 0: the core limit is above 8\n'
start='refused 22 place 0: the start is not below the number of jobs\n'
try 'plan with a limit above 8' 0 '' "$limit" $plan 9 < examples/full-core.jobs
try 'plan with a limit of twenty digits' 0 '' "$limit" $plan 18446744073709551617 < examples/full-core.jobs
try 'plan with a wrong start' 0 '' "$start" $plan 8 2 < examples/full-core.jobs
try 'plan with a start of twenty digits' 0 '' "$start" $plan 8 18446744073709551617 < examples/full-core.jobs
try 'plan of nothing with a wrong start' 0 '' 'refused 22 place 0: the start of an empty list is not 0\n' $plan 8 1 < /dev/null

# plan: text that it cannot read.
no_job='is not a job: a line has a period and a budget\n'
try 'plan of one number' 0 '' "line 3 $no_job" $plan < <(printf '# two numbers a line\n5 1\n9\n')
try 'plan of three numbers' 0 '' "line 1 $no_job" $plan < <(echo '5 1 1')
try 'plan of another character' 0 '' "line 1 $no_job" $plan < <(echo '70000 x')
try 'plan of a large period' 0 '' 'line 2 has a number above 65535\n' $plan < <(printf '\n65536 1\n')
try 'plan of a large budget' 0 '' 'line 1 has a number above 65535\n' $plan < <(printf '5 70000 # ticks')
try 'plan of 65 jobs' 0 '' 'line 65: more than 64 jobs\n' $plan < <(lines 65 '8 1')
try 'plan of a text too long' 0 '' 'the text is longer than the limit of 65535 bytes\n' $plan < <(printf '#%65535s' '')
try 'plan of the longest text' 0 'TSH\1\0\0\0\0' '' $plan < <(printf '#%65534s' '')

# plan: arguments that it does not take, at which nothing is read, and input and output that fail.
usage='usage: plan [LIMIT [START]] < JOBS > SHEET\n'
for words in --help "''" two -1 '8 one' "8 ''" '8 0 0' "$(printf '%05000d' 0)" "8 $(printf '%05000d' 0)"; do
    try "plan ${words::20}" 0 'left\n' "$usage" sh -c "$plan $words; cat" < <(echo left)
done
try 'plan of a directory' 0 '' 'standard input: Is a directory\n' $plan < examples
try 'plan of a closed input' 0 '' 'standard input: Bad file descriptor\n' sh -c "$plan <&-"
try 'plan of an input that breaks off' 0 '' 'standard input: Input/output error\n' broken $plan
try 'plan to a full device' 0 '' 'standard output: No space left on device\n' sh -c "$plan > /dev/full" < examples/full-core.jobs

# margins: a period minus the smallest t from 1 on, up to the period, at which the demand is at most t, or else minus the demand at the
# period. Each task's demand at t is its own budget and, of each task above it, the budget times (t / period rounded up).
./build margins
margins=target/bin/margins
# Task 1: 4 + 2 * 2 at 7. Task 2: 1 + 7 * 2 + 5 * 4 at 35.
example='task 0 margin 3\ntask 1 margin -1\ntask 2 margin 0\n'
try 'margins of three jobs' 0 "$example" '' $margins < <(printf '5 2\n7 4\n35 1\n')
try 'margins with blank lines and comments' 0 "$example" '' $margins < <(printf '# period, budget\n\n5 2 # short\r\n \t\n#\n7\t4\n\n35 1')
try 'margins in another order' 0 'task 0 margin 0\ntask 1 margin 3\ntask 2 margin -1\n' '' $margins < <(printf '35 1\n5 2\n7 4\n')
try 'margins of nothing' 0 '' '' $margins < /dev/null
try 'margins of a comment' 0 '' '' $margins < <(echo '# no job')
try 'margins of one job' 0 'task 0 margin 59999\n' '' $margins < <(echo '60000 1')
try 'margins of one job that is always there' 0 'task 0 margin 0\n' '' $margins < <(echo '1 1')
try 'margins of one period twice' 0 'task 0 margin 5\ntask 1 margin 3\n' '' $margins < <(printf '8 3\n8 2\n')
# Task 2 in turn: 9, 13, 16, 18 and 19 ticks.
try 'margins of a long search' 0 'task 0 margin 3\ntask 1 margin 2\ntask 2 margin 1\n' '' $margins < <(printf '4 1\n5 2\n20 6\n')
late=$(for ((i = 0; i < 64; i++)); do echo "task $i margin $((-60000 * i))"; done)
try 'margins of 64 jobs' 0 "$late\n" '' $margins < <(lines 64 '60000 60000')
late=$(for ((i = 0; i < 63; i++)); do echo "task $i margin $((-59999 * i))"; done)
try 'margins of the latest job' 0 "$late\ntask 63 margin -7559874\n" '' $margins < <(lines 63 '59999 59999'; echo '60000 60000')

# margins: lists that are refused, and text that it cannot read.
try 'margins with a wrong period' 0 '' 'refused 7 place 1 line 4: the period is not 1 to 60000\n' $margins < <(printf '5 6\n\n# large\n60001 1\n')
try 'margins with a period of 0' 0 '' 'refused 7 place 0 line 1: the period is not 1 to 60000\n' $margins < <(printf '0 1\n5 2\n')
try 'margins with a wrong budget' 0 '' 'refused 8 place 1 line 2: the budget is not 1 to the period\n' $margins < <(printf '5 5\n9 10\n')
try 'margins with a budget of 0' 0 '' 'refused 8 place 63 line 64: the budget is not 1 to the period\n' $margins < <(lines 63 '5 5'; echo '9 0')
try 'margins of one number' 0 '' "line 3 $no_job" $margins < <(printf '# two numbers a line\n5 1\n9\n')
try 'margins of a large period' 0 '' 'line 2 has a number above 65535\n' $margins < <(printf '5 2\n65536 1\n')
try 'margins of a large budget' 0 '' 'line 1 has a number above 65535\n' $margins < <(printf '5 70000 # ticks')
try 'margins of 65 jobs' 0 '' 'line 65: more than 64 jobs\n' $margins < <(lines 65 '8 1')
try 'margins of a text too long' 0 '' 'the text is longer than the limit of 65535 bytes\n' $margins < <(printf '5 2#%65532s' '')
try 'margins of the longest text' 0 'task 0 margin 3\n' '' $margins < <(printf '5 2#%65531s' '')

# margins: arguments, at which nothing is read, and input and output that fail.
for word in --help JOBS ''; do
    try "margins '$word'" 0 'left\n' 'usage: margins < JOBS\n' sh -c "$margins '$word'; cat" < <(echo left)
done
try 'margins of a directory' 0 '' 'standard input: Is a directory\n' $margins < examples
try 'margins of a closed input' 0 '' 'standard input: Bad file descriptor\n' sh -c "$margins <&-"
try 'margins of an input that breaks off' 0 '' 'standard input: Input/output error\n' broken $margins
try 'margins to a full device' 0 '' 'standard output: No space left on device\n' sh -c "$margins > /dev/full" < examples/full-core.jobs

# move_sheet: to version 2 and back.
./build move_sheet
move=target/bin/move_sheet
try 'move_sheet of version 1' 0 "$(by_core 1 4 0 2)" '' $move < <(printf "$by_number")
try 'move_sheet of version 2' 0 "$by_number" '' $move < <(printf "$(by_core 1 4 0 2)")
try 'move_sheet of card B' 0 'TSH\2\0\3\1\0\3\0\1\0\0\0\1\0\0\0\7\0\1\0\1\0\2\0\0\0\15\0\6\0\2\0\4\0\0\0\3\0\3\0\1\0\0\0' '' \
    $move < <(sheet_b 6 4 0)
try 'move_sheet of an empty sheet' 0 'TSH\2\0\0\0\0' '' $move < <(printf 'TSH\1\0\0\0\0')
try 'move_sheet of an empty sheet of version 2' 0 'TSH\1\0\0\0\0' '' $move < <(printf 'TSH\2\0\0\0\0')
$move < "$room/longest" > "$room/moved"
try 'move_sheet and list of the longest sheet' 0 "${longest/TSH 1/TSH 2}\n" '' $list < "$room/moved"
try 'move_sheet of the longest sheet and back' 0 '' '' cmp "$room/longest" <($move < "$room/moved")
try 'move_sheet and list of a plan' 0 "TSH 2 ${one_task#TSH 1 } 2 budget 1 factor 1 within 2\ncore 0 pivot 2 divisor 1 load 500\n" '' \
    $list < <(echo '2 1' | $plan | $move)

# move_sheet: refused sheets, of which nothing is written.
try 'move_sheet of card C' 0 '' 'refused 14 place 64\n' $move < <(sheet_b 7 4 0)
try 'move_sheet of card D' 0 '' 'refused 12 place 2\n' $move < <(sheet_b 6 5 0)
try 'move_sheet of a number twice' 0 '' 'refused 23 place 0\n' $move < <(printf "$(by_core 1 4 2 2)")
try 'move_sheet of counts that do not add up' 0 '' 'refused 23 place 0\n' $move < <(printf "$(by_core 1 4 0 3)")
try 'move_sheet of equal periods in the wrong order' 0 '' 'refused 23 place 0\n' $move < <(printf "$(by_core 4 1 0 2)")
try 'move_sheet of version 4' 0 '' 'refused 3 place 0\n' $move < <(printf 'TSH\4\0\0\0\0')
try 'move_sheet of nothing' 0 '' 'refused 1 place 0\n' $move < /dev/null
try 'move_sheet of a spare byte in use' 0 '' 'refused 6 place 33\n' $move < <(sheet_b 6 4 1)
try 'move_sheet of a byte too many' 0 '' 'refused 5 place 0\n' $move < <(sheet_b 6 4 0; printf '\0')
try 'move_sheet of 713 bytes' 0 '' 'refused 5 place 0\n' $move < <(cat "$room/longest"; printf '\0')
try 'move_sheet of 2,000 bytes' 0 '' 'refused 2 place 0\n' $move < <(noise 2000)

# move_sheet: a sheet of version 3 is refused for its version, be it good or not, but behind 1 and 2.
try 'move_sheet of version 3' 0 '' 'refused 3 place 0\n' $move < <(stroked 1 4)
try 'move_sheet of an empty sheet of version 3' 0 '' 'refused 3 place 0\n' $move < <(printf 'TSH\3\0\0\0\0')
try 'move_sheet of a stroke of 0' 0 '' 'refused 3 place 0\n' $move < <(stroked 0 4)
try 'move_sheet of a cut sheet of version 3' 0 '' 'refused 3 place 0\n' $move < <(stroked 1 4 | head -c 35)
try 'move_sheet of a stub of version 3' 0 '' 'refused 1 place 0\n' $move < <(printf 'TSH\3\0\0\0')

# move_sheet: arguments, at which nothing is read, and input and output that fail.
for word in --help SHEET ''; do
    try "move_sheet '$word'" 0 'left\n' 'usage: move_sheet < SHEET > MOVED\n' sh -c "$move '$word'; cat" < <(echo left)
done
try 'move_sheet of a directory' 0 '' 'standard input: Is a directory\n' $move < examples
try 'move_sheet of a closed input' 0 '' 'standard input: Bad file descriptor\n' sh -c "$move <&-"
try 'move_sheet of an input that breaks off' 0 '' 'standard input: Input/output error\n' broken $move
try 'move_sheet to a full device' 0 '' 'standard output: No space left on device\n' sh -c "$move > /dev/full" < <(sheet_b 6 4 0)
echo "programs: $cases cases"

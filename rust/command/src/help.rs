//! What the command says of itself.

pub const GENERAL: &str = "\
homvaits: checks, explains, plans, runs and draws timing sheets

usage: homvaits COMMAND [OPTIONS] FILE..

  check PATH..    says of each sheet whether it is accepted
  list SHEET      prints the listing of a sheet
  explain SHEET   says why a sheet is refused, and shows every field of it
  plan JOBS       plans a job list, and says which core runs each job
  margins JOBS    tells what each job of a list has to spare on one core
  move SHEET      writes a sheet in the other version, 1 or 2
  run SHEET       runs the cores of a sheet, and tells how the jobs got on
  draw SHEET|LOG  draws a run

`homvaits COMMAND --help` tells more of each. FILE may be -, which is standard
input. After -- every word is a file.

Exit status: 0 all is well; 1 a sheet or a list is refused, a job is or can be
late, or an answer in a log is not the library's; 2 wrong use, or something
could not be read or written.

Whether a sheet is accepted, what a plan, a moved sheet or a list's margin is,
and how a core runs come from the proved library. docs/SHEET.md of the
repository says what the number of each refusal means.
";

pub const CHECK: &str = "\
usage: homvaits check [--quiet] [--json] [--ending TEXT] PATH..

Says of each sheet whether it is accepted: its version, how many tasks and
cores it has, and each core's load in thousandths; or which rule it breaks and
where. Folders are gone through, with the folders in them. Every file in them
counts as a sheet, hidden ones too; links to folders in them are not followed.
A summary follows where there was a folder or more than one file.

  --quiet        says nothing of sheets that are accepted, and no summary (in
                 JSON it stays)
  --json         the answers as one JSON document, a line for each file
  --ending TEXT  of the files in folders only those whose names end so

Status 1 if a sheet is refused, 2 if a path could not be read or there is no
file at all.
";

pub const LIST: &str = "\
usage: homvaits list SHEET

Prints the listing of a sheet: a line for the sheet, for each task and for each
core; or one line such as `refused 14 place 64`. It is the library's proved
listing, byte for byte.

Status 1 if the sheet is refused.
";

pub const EXPLAIN: &str = "\
usage: homvaits explain SHEET

Says whether a sheet is accepted, or which rule it breaks, with the numbers
that break it and what to do. Then every field follows, of a refused sheet too,
as far as its bytes go.

Status 1 if the sheet is refused.
";

pub const PLAN: &str = "\
usage: homvaits plan JOBS [-o SHEET] [--cores N] [--start K | --all-starts]

Plans a job list: a line for each job with its period, its budget and, if it
has one, its name; blank lines; and comments from # on.

    # period budget name
    5 1 key
    9 7 receiver

A job's number is its place in the list, from 0. A name begins with a letter,
goes to the end of the line or to a #, and has at most 40 characters.

  -o SHEET      writes the sheet (- is standard output, and no words then)
  --cores N     takes at most N cores, 0 to 8; 8 if left out
  --start K     begins at position K of the planner's order; 0 if left out
  --all-starts  tries every start, says which need the fewest cores, and takes
                the first of these

Status 1 if the list is refused or a job finds no core; no sheet is written.
";

pub const MARGINS: &str = "\
usage: homvaits margins JOBS

Tells how many ticks each job of a list has to spare if all share one core.
A margin of zero or more is a promise: no job of that task takes longer than
its period less the margin. If one is below zero, some job of the list can be
late. `homvaits plan --help` tells what a job list is.

Status 1 if a margin is below zero or the list is refused.
";

pub const MOVE: &str = "\
usage: homvaits move SHEET [-o MOVED]

Writes a sheet of version 1 as one of version 2, which stands core by core, and
one of version 2 as one of version 1. Both say the same, and moving twice gives
the same bytes. A sheet of version 3 is refused with 3: version 2 has no place
for strokes.

  -o MOVED  writes it there; it may be SHEET itself. Standard output if left
            out, unless that is a terminal

Status 1 if the sheet is refused; nothing is written.
";

pub const RUN: &str = "\
usage: homvaits run SHEET [OPTIONS]

Runs the cores of a sheet, prints the log of each, and then a table: for each
task how many jobs it had, how many of them were late, after how many ticks the
latest of them ended, within how many the sheet promises it, and the margin
between the two, of this run (`homvaits margins` tells what a list promises).
Every log goes through the on-time rule.

  --core K       runs core K alone
  --ticks N      so many ticks, 1 to 100000; if left out twice the longest
                 period, but at least 40 and at most 2000
  --earliest     releases each task as soon as it may be, and lets each job use
                 its whole budget; this is done if left out
  --random SEED  releases at random, finishes some jobs early, and makes some
                 calls that are refused
  --calls FILE   makes the calls of a log or of lines as below
  --names JOBS   names the tasks by the job list that the sheet was planned from
  --bench        SHEET is a job list, and all its jobs share one core, for which
                 nothing is promised; a job has its period to end in
  -o LOG         writes the log there, and prints the table alone

A log is text. Its first line is `homvaits log 1`. For each core there follow a
line `core 0` (or `bench`), its tasks (`task 0 period 5 budget 1 within 4`, with
`stroke 2` behind it where strokes have more than one tick), and a call a line:
`release 0`, `finish 0`, `tick`, each with its answer behind it (`accepted`,
`refused 18 place 0`; the task's number or `idle` for a tick). # begins a
comment. --calls takes calls without answers too, `ticks 5` for five ticks, and,
where one core is run, calls alone; 5000000 of them at most. Where a line has
another answer than the library gives, that is said, and the status is 1.

Status 1 if a sheet or list is refused, a job is late or an answer is another.
";

pub const DRAW: &str = "\
usage: homvaits draw SHEET [OPTIONS OF run] [-o PICTURE] [--text [--width N]]
       homvaits draw LOG [--core K] [--names JOBS] [-o PICTURE] [--text ..]

Draws a run as an SVG picture: a row for each task in order of priority, with
its releases, the ticks that it ran, the moment by which each job must have
ended, and the calls that were refused; and a row of the idle ticks. It makes
the run, with the options of `homvaits run` (with --bench SHEET is a job list),
or draws a log as it stands.

  -o PICTURE  writes it there; standard output if left out
  --text      draws with letters, for a terminal
  --width N   columns that the letters may take, 40 to 1000; if left out what
              the variable COLUMNS says, or 100

A picture has at most 20000 ticks and 100000 calls for each core.
Status as for run.
";

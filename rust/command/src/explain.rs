//! `homvaits explain`: the verdict of the library, the numbers behind it, and every field.

mod advice;
mod figures;
mod guess;
mod header;
mod load;
mod order;
mod page;
mod rules;
#[cfg(test)]
pub(crate) mod samples;
mod show;
mod utilization;
mod why;

use homvaits::Refusal;

use crate::args::Args;
use crate::failure::{Outcome, REFUSED, WELL};
use crate::fields::Fields;
use crate::files::{read_front, shown};
use crate::list::FRONT;
use crate::loads::loads;
use crate::out::Out;
use crate::wording;
use page::Page;
use show::Marks;

/// Bytes of a file that are read at most.
const LIMIT: usize = 1 << 20;

/// Said where the library's verdict does not follow from the numbers.
const OTHER_LIBRARY: &str = "\
    The numbers of the sheet do not show this. The library and this command are of different versions.";

pub fn explain(args: &Args, out: &mut Out) -> Outcome {
    let path = args.one_file("sheet")?;
    let bytes = read_front(path, LIMIT + 1)?;
    let (page, status) = report(&shown(path), &bytes);
    for line in &page.lines {
        out.line(line);
    }
    Ok(status)
}

/// What is said of bytes, and the exit status.
fn report(path: &str, bytes: &[u8]) -> (Page, u8) {
    let more = bytes.len() > LIMIT;
    let bytes = &bytes[..bytes.len().min(LIMIT)];
    let fields = Fields::new(bytes);
    let mut page = Page::default();
    match homvaits::check(&bytes[..bytes.len().min(FRONT)]) {
        Ok(_) => {
            let words = wording::accepted(bytes, &loads(bytes));
            page.lines.push(format!("{path}: {words}"));
            accepted(&mut page, &fields);
            (page, WELL)
        }
        Err(refusal) => {
            let words = wording::refused(refusal, bytes);
            page.lines.push(format!("{path}: {words}"));
            refused(&mut page, &fields, refusal, more);
            (page, REFUSED)
        }
    }
}

fn accepted(page: &mut Page, fields: &Fields) {
    page.section("what this means");
    match fields.layout.tasks {
        0 => page.paragraph("The sheet has no tasks, so no job can be late."),
        _ => {
            page.paragraph(
                "Every job ends on time: within the ticks after its release that `within` shows below, whatever is released, finished \
                 and ticked on its core.",
            );
            if fields.layout.has_strokes() {
                page.paragraph(
                    "A job that gets a tick keeps the core for as many ticks as `stroke` shows, or until it ends. Tasks above it wait for \
                     that, and end on time with it.",
                );
            }
            page.section("load");
            page.paragraph(&load::terms(fields.layout));
        }
    }
    for core in 0..fields.layout.cores {
        page.section(&format!("core {core}"));
        match fields.load(core) {
            Some(load) if load.first_above().is_none() => {
                load::fitting(page, &load, fields.layout);
            }
            _ => page.paragraph(OTHER_LIBRARY),
        }
    }
    show::fields(page, fields, &Marks::default(), false);
}

fn refused(page: &mut Page, fields: &Fields, refusal: Refusal, more: bool) {
    let fault = rules::fault(fields, refusal);
    page.section("why");
    match &fault {
        Some(fault) => {
            let guess = guess::guess(fields, fault);
            why::why(page, fields, fault, &guess, more);
            page.section("what to do");
            page.paragraph(&advice::advice(fields.layout, fault, &guess));
        }
        None => page.paragraph(OTHER_LIBRARY),
    }
    let layout = guess::shown(fields);
    let marks = Marks {
        rule: Some(refusal.number()),
        offsets: rules::named(fields.layout, refusal, fault.as_ref()),
    };
    show::fields(page, &Fields { layout, ..*fields }, &marks, more);
}

#[cfg(test)]
mod tests {
    use super::*;
    use homvaits::{check, Place, Word, LISTING_MAX};
    use samples::{changed, Rng, FULL, GROUPED, STROKED};

    fn text(bytes: &[u8]) -> String {
        let (page, _) = report("sheet", bytes);
        page.lines.join("\n") + "\n"
    }

    #[test]
    fn any_bytes_are_explained() {
        let mut rng = Rng(3);
        for turn in 0..6000 {
            let bytes = match turn % 10 {
                0 => rng.sheet(),
                1 | 2 => rng.noise(),
                _ => rng.damaged(),
            };
            let (page, status) = report("sheet", &bytes);
            let refusal = check(&bytes).err();
            assert_eq!(status, if refusal.is_some() { REFUSED } else { WELL });
            assert!(page.lines.iter().all(|line| is_tidy(line)));
            let text = text(&bytes);
            assert!(!text.contains(OTHER_LIBRARY), "{text}");
            if let Some(refusal) = refusal {
                let mark = format!("<-- rule {}\n", refusal.number());
                assert_eq!(text.contains(&mark), has_mark(refusal, &bytes), "{text}");
            }
        }
    }

    fn is_tidy(line: &str) -> bool {
        line == line.trim_end() && line.chars().all(|shown| (' '..='~').contains(&shown))
    }

    /// Whether some line can be named: not where bytes are too few or too many, nor where version 2 has no core to count the tasks of.
    fn has_mark(refusal: Refusal, bytes: &[u8]) -> bool {
        match refusal.word {
            Word::Stub | Word::Length => false,
            Word::Order => bytes[6] > 0,
            _ => true,
        }
    }

    /// The rows of a table that is printed, as words.
    fn rows<'a>(text: &'a str, heading: &str) -> Vec<Vec<&'a str>> {
        let section = text.split(&format!("\n\n{heading}\n")).nth(1);
        let table = section.and_then(|section| section.split("\n\n").next());
        let rows = table.unwrap_or_default().lines().skip(1);
        let rows = rows.filter(|row| !row.starts_with("  T is"));
        rows.map(|row| row.split_whitespace().collect()).collect()
    }

    /// The lines of the tasks in a listing, by what is printed.
    fn task_lines(text: &str, version: u8) -> String {
        let line = |row: Vec<&str>| {
            let (task, core) = match version {
                2 => (row[14], row[17]),
                _ => (row[11], row[14]),
            };
            let (period, budget, factor, within) = (row[12], row[13], row[16], row[row.len() - 1]);
            let number: u8 = task.parse().unwrap();
            (
                number,
                format!(
                    "task {task} core {core} period {period} budget {budget} factor {factor} within {within}\n"
                ),
            )
        };
        let mut lines: Vec<_> = rows(text, "tasks").into_iter().map(line).collect();
        lines.sort();
        lines.into_iter().map(|(_, line)| line).collect()
    }

    /// The lines of the cores in a listing, by what is printed.
    fn core_lines(text: &str) -> String {
        let loads = text.split("The load is ").skip(1);
        let loads = loads.map(|load| load.split(' ').next().unwrap());
        let line = |(row, load): (Vec<&str>, &str)| {
            let (core, pivot, divisor) = (row[9], row[10], row[row.len() - 1]);
            format!("core {core} pivot {pivot} divisor {divisor} load {load}\n")
        };
        rows(text, "cores")
            .into_iter()
            .zip(loads)
            .map(line)
            .collect()
    }

    #[test]
    fn the_fields_of_an_accepted_sheet_are_those_of_the_listing() {
        let mut rng = Rng(4);
        let mut room = [0; LISTING_MAX];
        let mut accepted = 0;
        for _ in 0..1000 {
            let bytes = rng.sheet();
            if check(&bytes).is_ok() {
                accepted += 1;
                let (text, version) = (text(&bytes), bytes[3]);
                let head = format!("TSH {version} tasks {} cores {}\n", bytes[5], bytes[6]);
                let listing = head + &task_lines(&text, version) + &core_lines(&text);
                assert_eq!(listing, homvaits::list(&bytes, &mut room));
            }
        }
        assert!(accepted > 600, "{accepted}");
    }

    #[test]
    fn a_verdict_that_the_numbers_do_not_show_is_said_to_be_so() {
        for (word, place) in [
            (Word::Overload, Place::Core(0)),
            (Word::Chain, Place::Task(63)),
            (Word::Spare, Place::Offset(u16::MAX)),
            (Word::Other(99), Place::Other(u64::MAX)),
        ] {
            let mut page = Page::default();
            refused(
                &mut page,
                &Fields::new(&GROUPED),
                Refusal { word, place },
                false,
            );
            let text = page.lines.join(" ");
            assert!(
                text.contains("The numbers of the sheet do not show this."),
                "{text}"
            );
            assert!(text.contains("header") && !text.contains("what to do"));
        }
        for bytes in [changed(&FULL, &[(20, 8)]), changed(&STROKED, &[(23, 5)])] {
            let mut page = Page::default();
            accepted(&mut page, &Fields::new(&bytes));
            let text = page.lines.join(" ");
            assert!(
                text.contains("The numbers of the sheet do not show this."),
                "{text}"
            );
        }
    }

    /// What is said of bytes after verdicts that the library does not give.
    fn misjudged(bytes: &[u8], at: u8) {
        let fields = Fields::new(bytes);
        let words = [
            Word::Length,
            Word::Order,
            Word::Stroke,
            Word::Stretch,
            Word::Chain,
            Word::Overload,
        ];
        let places = [
            Place::Whole,
            Place::Task(at),
            Place::Core(at),
            Place::Offset(at.into()),
        ];
        let refusals = words.map(|word| places.map(|place| Refusal { word, place }));
        let refusals = refusals.as_flattened().iter();
        refusals.for_each(|refusal| refused(&mut Page::default(), &fields, *refusal, true));
        accepted(&mut Page::default(), &fields);
    }

    #[test]
    fn no_verdict_on_any_bytes_stops_the_command() {
        let mut rng = Rng(6);
        for _ in 0..60 {
            let bytes = [rng.noise(), vec![255; 5000]].concat();
            let at = rng.range(0, 255) as u8;
            misjudged(&bytes, at);
            for version in [2, 3] {
                let header = [(3, version), (4, 0), (5, 255), (6, 255)];
                misjudged(&changed(&bytes, &header), at);
            }
        }
    }

    #[test]
    fn a_file_may_have_more_bytes_than_are_read() {
        let words = |length: usize| {
            let mut bytes = FULL.to_vec();
            bytes.resize(length, 0);
            let text = text(&bytes);
            text.split_whitespace().collect::<Vec<_>>().join(" ")
        };
        let exactly = words(LIMIT);
        assert!(exactly.contains("There are 1048576: 1048540 too many."));
        assert!(exactly.ends_with("00 00 and 1048284 bytes more"));
        let longer = words(LIMIT + 1);
        assert!(longer.contains("There are more than 1048576 bytes."));
        assert!(longer.ends_with("00 00 and over 1048284 bytes more"));
        assert!(words(36 + 257).ends_with("00 00 and 1 byte more"));
        assert!(words(36 + 256).ends_with("276 00 00 00 00 00 00 00 00 00 00 00 00 00 00 00 00"));
    }

    #[test]
    fn an_overloaded_sheet() {
        assert_eq!(text(&changed(&FULL, &[(20, 8)])), OVERLOADED);
    }

    const OVERLOADED: &str = "\
sheet: refused 14 (Overload) at core 0: the core has more work than time

why
  The load of core 0 is above one. In order of priority each task adds e x D x (L / M) to the
  sum, where e is its budget, M its factor, D the divisor of the core and L the factor of the
  last task. The sum may be as large as the capacity Q x L, where Q is the pivot of the core.

  Q = 9, D = 2, L = 2
  task  period  budget e  factor M  L / M  e x D x (L / M)  sum
     0       5         1         1      2                4    4
     1       9         8         2      1               16   20
  sum 20, capacity Q x L = 9 x 2 = 18

  The sum is 2 above the capacity: the load is 1112 thousandths, rounded up. Added up in order
  of priority, the sum first goes above the capacity with task 1.
  At their real periods the tasks need 1089 thousandths of the core's time, the sum of
  budget / period, rounded up. That is more than there is, so no figures make them fit on this
  core.

what to do
  If the sheet is damaged, use another copy. If not, plan the jobs anew with `homvaits plan`, on
  more cores or with smaller budgets.

header
  byte  bytes     field    value
     0  54 53 48  mark     TSH
     3  01 00     version  1
     5  02        tasks    2
     6  01        cores    1
     7  00        spare    00

tasks
  byte  bytes                          task  period  budget  core  spare  factor    T  within
     8  05 00 01 00 00 00 01 00 00 00     0       5       1     0     00       1  9/2       4
    18  09 00 08 00 00 00 02 00 00 00     1       9       8     0     00       2    9       9
  T is the accelerated period, pivot x factor / divisor, and within its whole part. A refused
  sheet promises nothing by them.

cores
  byte  bytes                    core  pivot  spare  divisor
    28  09 00 00 00 02 00 00 00     0      9  00 00        2  <-- rule 14
";

    #[test]
    fn a_stroke_that_is_too_long() {
        let text = text(&changed(&STROKED, &[(23, 5)]));
        assert!(text.contains(LONG_STROKE), "{text}");
    }

    const LONG_STROKE: &str = "
  Q = 9, D = 2, L = 2
  task  period  budget e  factor M  L / M  e x D x (L / M)  sum  stroke  B  B x D x (L / M)  together
     0       5         1         1      2                4    4       1  4               16        20
     1       9         7         2      1               14   18       5  0                0        18
  sum 18, capacity Q x L = 9 x 2 = 18

  The load is 1000 thousandths, but with task 0 the sum of 4 and the wait of 16 make 20, which
  is 2 above the capacity. A stroke of a task below it may have 4 ticks at most.
  At their real periods the tasks need 978 thousandths of the core's time, the sum of
  budget / period, rounded up. That is not more than there is, and with shorter strokes they
  fit.

what to do
  If the sheet is damaged, use another copy. If not, shorten the strokes, or put tasks with long
  strokes and tasks with short periods on different cores.
";

    #[test]
    fn a_cut_sheet() {
        let expected = "\
sheet: refused 5 (Length): the length is not the one that the counts give

why
  The header says 5 tasks and 2 cores. That makes 8 + 10 x 5 + 8 x 2 = 74 bytes. There are 52:
  22 too few.

what to do
  The sheet was cut, or a count is damaged. Use another copy, or plan the jobs anew with
  `homvaits plan`.

header
  byte  bytes     field    value
     0  54 53 48  mark     TSH
     3  02 00     version  2
     5  05        tasks    5
     6  02        cores    2
     7  00        spare    00

tasks
  byte  bytes                          position  period  budget  task  spare  factor
     8  04 00 01 00 03 00 01 00 00 00         0       4       1     3     00       1
    18  08 00 02 00 01 00 02 00 00 00         1       8       2     1     00       2
    28  08 00 01 00 04 00 02 00 00 00         2       8       1     4     00       2
    38  05 00 01 00 02 00 01 00 00 00         3       5       1     2     00       1
    48  09 00 07 00                           4       9       7                       cut: 4 of 10 bytes

missing
  The bytes end here: there is nothing of cores 0 and 1.
";
        assert_eq!(text(&GROUPED[..52]), expected);
    }
}

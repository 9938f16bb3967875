//! The Rust lines of README.md stand here too, where they are compiled and run; the last test says that they are the same.

use homvaits::{Refusal, IDLE};

#[rustfmt::skip]
mod one_core {
    use homvaits::{plan, Core, Job};

    fn main() -> Result<(), homvaits::Refusal> {
        let jobs = [Job { period: 5, budget: 1 }, Job { period: 9, budget: 7 }];
        let sheet = plan(&jobs, 1, 0)?; // or Sheet::check(bytes)
        let mut core = Core::start(&sheet, 0)?;
        core.release(0)?;
        core.release(1)?;
        for _ in 0..8 {
            if let Some(task) = core.tick()? {
                println!("task {task} has this tick");
            }
        }
        Ok(())
    }

    #[test]
    fn runs() {
        assert_eq!(main(), Ok(()));
    }
}

#[rustfmt::skip]
mod two_cores {
    use homvaits::{Core, Refusal, Sheet};

    pub fn answers(sheet: Sheet) -> Result<[u8; 2], Refusal> {
        let mut row = [Core::start(&sheet, 0)?, Core::start(&sheet, 1)?];
        let mut answers = [0; 2];
        row[0].release(0)?;
        homvaits::tick_row(&mut row, &mut answers)?; // answers[k] is the task that has this tick on row[k], or homvaits::IDLE
        Ok(answers)
    }
}

#[test]
fn two_cores_run() -> Result<(), Refusal> {
    let full = homvaits::Job {
        period: 2,
        budget: 2,
    };
    let sheet = homvaits::plan(&[full; 2], 2, 0)?;
    assert_eq!(two_cores::answers(sheet), Ok([0, IDLE]));
    Ok(())
}

#[test]
fn the_lines_of_the_readme_stand_here() {
    let readme = include_str!("../../../../README.md");
    let lines = |text: &'static str| -> Vec<&str> { text.lines().map(str::trim).collect() };
    let here = lines(include_str!("readme.rs"));
    let blocks: Vec<Vec<&str>> = readme
        .split("\n```rust\n")
        .skip(1)
        .map(|rest| lines(rest.split("\n```\n").next().unwrap_or(rest)))
        .collect();
    assert_eq!(blocks.len(), 2);
    for block in blocks {
        let stands = here.windows(block.len()).any(|some| some == block);
        assert!(stands, "not in this file: {}", block.join("\n"));
    }
}

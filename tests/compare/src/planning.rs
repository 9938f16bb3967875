//! The planner.

use crate::checking::{check, count_of_cores};
use crate::lent::{same_bytes, Lent};
use crate::session::{hex, same, Session};
use inputs::*;
use reference::{construction_of, Construction, Job, Sheet};

pub fn must_have_seen(session: &Session) {
    session.must_have_seen("plan", &[(0, "no core"), (0, "one core"), (0, "cores")]);
    session.must_have_seen("plan", &[(0, BY_SR_2), (0, BY_SR_3), (0, BY_DCT)]);
    for refusal in [4, 5, 16, 22] {
        session.must_have_seen("plan", &[(refusal, "place 0")]);
    }
    for refusal in [7, 8, 15] {
        session.must_have_seen("plan", &[(refusal, "a task above 0")]);
    }
}

const BY_SR_2: &str = "a core by Sr on base 2";
const BY_SR_3: &str = "a core by Sr on base 3";
const BY_DCT: &str = "a core by DCT";

/// What gives a core of a plan its figures.
fn construction(sheet: &Sheet, core: usize) -> &'static str {
    let job = |&i: &usize| Job {
        period: sheet.tasks[i].period,
        budget: sheet.tasks[i].budget,
    };
    let jobs: Vec<Job> = sheet.by_priority(core).iter().map(job).collect();
    match construction_of(&jobs).expect("a planned core passes") {
        Construction::Sr { base: 2 } => BY_SR_2,
        Construction::Sr { .. } => BY_SR_3,
        Construction::Dct => BY_DCT,
    }
}

pub fn round(session: &mut Session, rng: &mut Rng) {
    // lists of every length, over 64 entries too
    for length in 0..=300usize {
        let mut list = job_list(rng, length.div_ceil(4));
        list.truncate(length);
        let (limit, start) = (any_number(rng, 9), any_number(rng, length as u64 / 4));
        plan(session, rng, &list, limit, start, 712);
    }
    // short lists, on up to 8 cores
    for _ in 0..300 {
        let count = rng.range(1, 10);
        let list = job_list(rng, count as usize);
        let start = rng.below(count);
        plan(session, rng, &list, 8, start, 712);
    }
    // outputs of every length
    let list = job_list(rng, 3);
    for room in 0..=800 {
        plan(session, rng, &list, 3, 0, room);
    }
    // every limit and every start
    for _ in 0..10 {
        let count = rng.range(0, 64);
        let list = job_list(rng, count as usize);
        for limit in 0..=9 {
            let start = rng.below(count.max(1));
            plan(session, rng, &list, limit, start, 712);
        }
    }
    let list = job_list(rng, 12);
    for start in 0..=13 {
        plan(session, rng, &list, 4, start, 720);
    }
    for kind in 0..JOB_DAMAGES {
        for _ in 0..20 {
            let count = rng.index(65);
            let list = job_list(rng, count);
            let list = damaged_jobs(rng, &list, kind);
            let (limit, start) = (any_number(rng, 9), any_number(rng, list.len() as u64 / 4));
            let room = rng.pick(&[0, 711, 712, 713, 800]);
            plan(session, rng, &list, limit, start, room);
        }
    }
}

/// Compare the planner; what it writes goes to the checker, which accepts it.
fn plan(session: &mut Session, rng: &mut Rng, list: &[u8], limit: u64, start: u64, room: usize) {
    let mut ours = Lent::new(room, rng.byte());
    let mut theirs = ours.clone();
    let reference = reference::plan(list, limit, start, ours.lend());
    let library = binding::plan(list, limit, start, theirs.lend());
    let input = || {
        let list = hex(list);
        format!("jobs {list} limit {limit} start {start} output of {room} bytes")
    };
    same("plan", input, &reference, &library);
    same_bytes("plan", input, &ours, &theirs);
    let accepted = count_of_cores(reference.cores);
    session.case("plan", reference.refusal, reference.place, accepted);
    if reference.refusal == 0 {
        let sheet = &ours.lend()[..reference.length as usize];
        check(session, sheet);
        let sheet = reference::accept(sheet).expect("a plan is accepted");
        for core in 0..sheet.cores.len() {
            session.saw("plan", (0, construction(&sheet, core)));
        }
    }
}

//! Rows of core states on one beat: single rows, and runs of all cores of
//! sheets.

use crate::dispatching::{
    finish, on_time, parts, parts_of_tick, promises, release, sheet_to_run, start_sheet, state_hex,
    strokes, tick, LONG, VERSIONS, WAITED_FOR,
};
use crate::form;
use crate::lent::{same_bytes, same_row, Lent, LentRow};
use crate::on_time::{Entry, Promise};
use crate::session::{hex, same, Session};
use inputs::*;
use reference::{Core, RowAnswer, IDLE};

pub fn must_have_seen(session: &Session) {
    let accepted = [NO_STATES, EXACT, LONGER, BOTH, NO_TASKS];
    let far = [PAST_A_BYTE, PAST_TWO_BYTES];
    let places = [FIRST, MIDDLE, LAST, SEVERAL, PAST_A_BYTE, PAST_TWO_BYTES];
    let short = [ONE_SHORT, MANY_SHORT, NO_BYTES, FOREIGN_TOO];
    session.must_have_seen("tick_row", &accepted.map(|kind| (0, kind)));
    session.must_have_seen("tick_row", &far.map(|kind| (0, kind)));
    session.must_have_seen("tick_row", &[(0, NO_BYTES)]);
    session.must_have_seen("tick_row", &places.map(|kind| (21, kind)));
    session.must_have_seen("tick_row", &short.map(|kind| (24, kind)));
    session.must_have_seen_at("tick_row", ADDRESS, 0..16);
    let in_run = [(0, "a row"), (21, "a row"), (24, "a row")];
    session.must_have_seen("row in a run", &in_run);
    session.must_have_seen("row in a run", &[(0, OWN_IDLE), (0, OWN_SERVED)]);
    session.must_have_seen("tick_row", &form::REASONS);
    session.must_have_seen("job on time by rows", &VERSIONS.map(|version| (0, version)));
    session.must_have_seen("strokes by rows", &[(0, LONG), (0, WAITED_FOR)]);
}

const NO_STATES: &str = "no states";
const EXACT: &str = "as many answer bytes as states";
const LONGER: &str = "more answer bytes than states";
const BOTH: &str = "idle and served in one row";
const NO_TASKS: &str = "a state without tasks beside one with tasks";
const PAST_A_BYTE: &str = "a position above 255";
const PAST_TWO_BYTES: &str = "a position above 65,535";
const FIRST: &str = "the first state of several";
const MIDDLE: &str = "a state in the middle";
const LAST: &str = "the last state of several";
const SEVERAL: &str = "a Foreign state behind it";
const ONE_SHORT: &str = "one answer byte too few";
const MANY_SHORT: &str = "many answer bytes too few";
const NO_BYTES: &str = "no answer bytes";
const FOREIGN_TOO: &str = "a Foreign state too";
const ADDRESS: &str = "answer bytes at an address modulo 16";
const OWN_IDLE: &str = "an idle tick of one core by itself";
const OWN_SERVED: &str = "a served tick of one core by itself";

pub fn round(session: &mut Session, rng: &mut Rng) {
    let states = States::new(rng);
    nothing(session, rng);
    // rows of every length, all states in form
    for count in 0..=64 {
        let row = states.row(rng, count);
        let room = any_room(rng, count);
        single(session, rng, row, room);
    }
    // a Foreign state at every position
    for place in 0..64 {
        let any = rng.range(place as u64 + 1, 64) as usize;
        let count = rng.pick(&[any, place + 1, 64]);
        let mut row = states.row(rng, count);
        row[place] = rng.pick(&states.foreign);
        let room = any_room(rng, count);
        single(session, rng, row, room);
    }
    // none to three Foreign states, and too few answer bytes
    for turn in 0..60 {
        let count = rng.range(1, 64) as usize;
        let mut row = states.row(rng, count);
        for _ in 0..turn % 4 {
            row[rng.index(count)] = rng.pick(&states.foreign);
        }
        let room = match turn {
            0..20 => any_room(rng, count),
            _ => short_room(rng, count),
        };
        single(session, rng, row, room);
    }
    for _ in 0..4 {
        run(session, rng);
    }
}

/// Rows in which a position takes more than one byte, or more than two: with a
/// Foreign state so far behind, and with another in its place.
pub fn long(session: &mut Session, rng: &mut Rng) {
    let states = States::new(rng);
    for low in [256, 256, 256, 65_536] {
        let place = low + rng.index(60);
        let count = place + 1 + rng.index(60);
        let row = states.row(rng, count);
        let mut row = Row::new(rng, row);
        let kept = row.alone[place];
        row.put(place, rng.pick(&states.foreign));
        row.tick(session, rng, count);
        row.put(place, kept);
        row.tick(session, rng, count + 1);
    }
}

/// States to make rows of.
struct States {
    in_form: Vec<Core>,
    foreign: Vec<Core>,
}

impl States {
    fn new(rng: &mut Rng) -> States {
        States {
            in_form: (0..40).map(|_| any_core(rng, 0)).collect(),
            foreign: (0..20).map(|_| foreign_core(rng)).collect(),
        }
    }

    /// So many states in form.
    fn row(&self, rng: &mut Rng, count: usize) -> Vec<Core> {
        (0..count).map(|_| rng.pick(&self.in_form)).collect()
    }
}

/// Room for the answers of so many states, or more.
pub fn any_room(rng: &mut Rng, count: usize) -> usize {
    let more = count + rng.index(100);
    rng.pick(&[count, count, count + 1, more])
}

/// Room for fewer answers than those of so many states.
fn short_room(rng: &mut Rng, count: usize) -> usize {
    let any = rng.index(count);
    rng.pick(&[0, count - 1, any, any])
}

/// No states and no answer bytes, beside memory that nobody may write and by
/// pointers to nothing.
fn nothing(session: &mut Session, rng: &mut Rng) {
    single(session, rng, Vec::new(), 0);
    let reference = reference::tick_row(&mut [], &mut []);
    let library = binding::tick_row(&mut [], &mut []);
    same("tick_row", || "nothing".to_string(), &reference, &library);
}

fn single(session: &mut Session, rng: &mut Rng, states: Vec<Core>, room: usize) {
    Row::new(rng, states).tick(session, rng, room);
}

/// One row three times: for the library, for the reference, and for single ticks
/// of the library.
pub struct Row {
    ours: Vec<Core>,
    theirs: LentRow,
    alone: Vec<Core>,
}

impl Row {
    pub fn new(rng: &mut Rng, states: Vec<Core>) -> Row {
        // a row that is taken as longer would change them, or find them Foreign
        let about = [(); 2].map(|()| {
            let kind = rng.index(CORE_DAMAGES);
            any_core(rng, kind)
        });
        Row {
            theirs: LentRow::new(rng, &states, about),
            alone: states.clone(),
            ours: states,
        }
    }

    fn put(&mut self, position: usize, core: Core) {
        self.ours[position] = core;
        self.theirs.put(position, &core);
        self.alone[position] = core;
    }

    /// Compare one call with room for so many answers. The answer, and the
    /// answer bytes.
    pub fn tick(
        &mut self,
        session: &mut Session,
        rng: &mut Rng,
        room: usize,
    ) -> (RowAnswer, Vec<u8>) {
        let before = self.theirs.clone();
        let lent = Lent::shifted(room, rng.byte(), rng.index(16));
        let mut answers = lent.clone();
        let address = answers.lend().as_ptr() as usize;
        session.saw_at("tick_row", ADDRESS, 1 << (address % 16));
        let library = binding::tick_row(self.theirs.lend(), answers.lend());

        let input = || format!("{} answers of {room} bytes", row_hex(before.states()));
        type Call = fn(&mut [Core], &mut [u8]) -> RowAnswer;
        let sides: [(&mut Vec<Core>, Call); 2] = [
            (&mut self.ours, reference::tick_row),
            (&mut self.alone, one_by_one),
        ];
        for (states, call) in sides {
            let mut expected = lent.clone();
            let reference = call(states, expected.lend());
            same("tick_row", input, &reference, &library);
            same_bytes("tick_row", input, &expected, &answers);
            same_states(input, states, self.theirs.states());
        }
        let refused = library.refusal != 0;
        same_row("tick_row", input, &before, &self.theirs, refused);
        session.cases += 1;
        kinds(session, before.states(), &library, answers.lend());
        (library, answers.lend().to_vec())
    }
}

/// A row by single ticks of the library.
fn one_by_one(row: &mut [Core], answers: &mut [u8]) -> RowAnswer {
    let refused = |refusal: u8, place: usize| RowAnswer {
        refusal,
        place: place as u64,
    };
    if answers.len() < row.len() {
        return refused(24, 0);
    }
    let foreign = |&core: &Core| binding::tick(core).refusal == 21;
    if let Some(first) = row.iter().position(foreign) {
        return refused(21, first);
    }
    for (core, answer) in row.iter_mut().zip(answers) {
        let ticked = binding::tick(*core);
        (*core, *answer) = (ticked.core, ticked.task);
    }
    RowAnswer::default()
}

fn same_states(input: impl Fn() -> String, expected: &[Core], library: &[Core]) {
    for (position, (expected, library)) in expected.iter().zip(library).enumerate() {
        let at = || format!("{} at position {position}", input());
        same("tick_row", at, expected, library);
    }
}

/// The states of a row; of a long one the first.
fn row_hex(row: &[Core]) -> String {
    let states: Vec<String> = row.iter().take(64).map(state_hex).collect();
    format!("row of {} states {}", row.len(), states.join(" "))
}

fn kinds(session: &mut Session, row: &[Core], answer: &RowAnswer, answers: &[u8]) {
    let (count, room) = (row.len(), answers.len());
    let place = answer.place as usize;
    // the last position of an accepted row, the place of a refused one
    let (mut kinds, far) = match answer.refusal {
        0 => (accepted_kinds(row, answers), count.saturating_sub(1)),
        21 => (foreign_kinds(row, place), place),
        _ => (short_kinds(row, room), place),
    };
    if room == 0 {
        kinds.push(NO_BYTES);
    }
    if far > 255 {
        kinds.push(PAST_A_BYTE);
    }
    if far > 65_535 {
        kinds.push(PAST_TWO_BYTES);
    }
    for kind in kinds {
        session.saw("tick_row", (answer.refusal, kind));
    }
}

fn accepted_kinds(row: &[Core], answers: &[u8]) -> Vec<&'static str> {
    let (written, kept) = answers.split_at(row.len());
    let mut kinds = vec![if kept.is_empty() { EXACT } else { LONGER }];
    if row.is_empty() {
        kinds.push(NO_STATES);
    }
    if written.contains(&IDLE) && written.iter().any(|&task| task != IDLE) {
        kinds.push(BOTH);
    }
    if row.iter().any(|core| core.count == 0) && row.iter().any(|core| core.count > 0) {
        kinds.push(NO_TASKS);
    }
    kinds
}

fn is_foreign(core: &Core) -> bool {
    reference::tick(*core).refusal == 21
}

fn foreign_kinds(row: &[Core], place: usize) -> Vec<&'static str> {
    let mut kinds = Vec::new();
    if row.len() > 2 {
        kinds.push(match place {
            0 => FIRST,
            _ if place + 1 == row.len() => LAST,
            _ => MIDDLE,
        });
    }
    if row[place + 1..].iter().any(is_foreign) {
        kinds.push(SEVERAL);
    }
    kinds.extend(form::only_reason(&row[place]));
    kinds
}

fn short_kinds(row: &[Core], room: usize) -> Vec<&'static str> {
    let mut kinds = vec![if room + 1 == row.len() {
        ONE_SHORT
    } else {
        MANY_SHORT
    }];
    if row.iter().any(is_foreign) {
        kinds.push(FOREIGN_TOO);
    }
    kinds
}

/// A core in a run of rows: its sheet, what that promises, and the calls on it.
struct Running {
    sheet: Vec<u8>,
    version: &'static str,
    style: u64,
    number: usize,
    tasks: Vec<Promise>,
    log: Vec<Entry>,
}

/// All cores of one to three sheets in a row, from their starts: releases,
/// finishes and now and then a tick on each by itself, then a row, again and
/// again; some rows are refused.
fn run(session: &mut Session, rng: &mut Rng) {
    let (mut cores, states) = started(session, rng);
    let count = states.len();
    let mut row = Row::new(rng, states);
    for _ in 0..rng.range(0, 300) {
        for (position, core) in cores.iter_mut().enumerate() {
            calls_between(session, rng, &mut row, position, core);
        }
        if count > 0 && rng.once_in(8) {
            let room = short_room(rng, count);
            beat(session, rng, &mut row, &mut cores, room);
        }
        if count > 0 && rng.once_in(8) {
            let position = rng.index(count);
            let kept = row.alone[position];
            row.put(position, foreign_core(rng));
            beat(session, rng, &mut row, &mut cores, count);
            row.put(position, kept);
        }
        let room = any_room(rng, count);
        beat(session, rng, &mut row, &mut cores, room);
    }
    for core in &cores {
        let input = || format!("rows, {} core {}", hex(&core.sheet), core.number);
        if on_time(session, &core.log, &core.tasks, input) > 0 {
            session.saw("job on time by rows", (0, core.version));
        }
        strokes(session, "strokes by rows", &core.log, &core.tasks, input);
    }
}

/// All cores of one to three sheets, and their fresh states.
fn started(session: &mut Session, rng: &mut Rng) -> (Vec<Running>, Vec<Core>) {
    let (mut cores, mut states) = (Vec::new(), Vec::new());
    for _ in 0..rng.range(1, 3) {
        let (bytes, version, style) = sheet_to_run(rng);
        let sheet = reference::accept(&bytes).expect("the sheet is accepted");
        for number in 0..sheet.cores.len() {
            states.push(start_sheet(session, &bytes, number as u64).core);
            cores.push(Running {
                sheet: bytes.clone(),
                version,
                style,
                number,
                tasks: promises(&sheet, number),
                log: Vec::new(),
            });
        }
    }
    (cores, states)
}

/// Releases and finishes on one core of a row, and ticks of it by itself.
fn calls_between(
    session: &mut Session,
    rng: &mut Rng,
    row: &mut Row,
    position: usize,
    running: &mut Running,
) {
    loop {
        let core = row.theirs.states()[position];
        let call = random_call(rng, &core, running.style);
        let (refusal, task, next) = match call {
            Call::Release(number) => parts(release(session, core, number)),
            Call::Finish(number) => parts(finish(session, core, number)),
            Call::Tick if rng.once_in(8) => own_tick(session, core),
            Call::Tick => return,
        };
        row.put(position, next);
        running.log.push(Entry {
            call,
            refusal,
            task,
        });
    }
}

/// A tick of one core by itself, between rows.
fn own_tick(session: &mut Session, core: Core) -> (u8, u8, Core) {
    let answer = tick(session, core);
    let kind = match answer.task {
        IDLE => OWN_IDLE,
        _ => OWN_SERVED,
    };
    session.saw("row in a run", (answer.refusal, kind));
    parts_of_tick(answer)
}

/// One row of a run: a tick of each core, or of none where it is refused.
fn beat(session: &mut Session, rng: &mut Rng, row: &mut Row, cores: &mut [Running], room: usize) {
    let (answer, answers) = row.tick(session, rng, room);
    session.saw("row in a run", (answer.refusal, "a row"));
    if answer.refusal == 0 {
        for (core, &task) in cores.iter_mut().zip(&answers) {
            core.log.push(Entry {
                call: Call::Tick,
                refusal: 0,
                task,
            });
        }
    }
}

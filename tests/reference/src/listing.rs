//! The listing: the text of one sheet.

use crate::sheet::version;
use crate::{accept, refuse_if, ListAnswer, Refusal, Sheet};

/// The least output that the listing call takes.
pub const LISTING_ROOM: usize = 8192;

/// The text of a sheet, or its one line of refusal.
pub fn list(bytes: &[u8]) -> Vec<u8> {
    let text = match accept(bytes) {
        Err(Refusal { number, place }) => format!("refused {number} place {place}\n"),
        Ok(sheet) => text(version(bytes), &sheet),
    };
    text.into_bytes()
}

/// The listing into a lent buffer. A small buffer is 16, the only refusal.
pub fn list_into(sheet: &[u8], out: &mut [u8]) -> ListAnswer {
    if let Err(refusal) = refuse_if(16, out.len() < LISTING_ROOM) {
        return refusal.into();
    }
    let text = list(sheet);
    out[..text.len()].copy_from_slice(&text);
    ListAnswer {
        length: text.len() as u16,
        ..ListAnswer::default()
    }
}

/// The tasks by number, in every version; no stroke lengths.
fn text(version: u64, sheet: &Sheet) -> String {
    let (n, c) = (sheet.tasks.len(), sheet.cores.len());
    let mut text = format!("TSH {version} tasks {n} cores {c}\n");
    for (i, task) in sheet.tasks.iter().enumerate() {
        text += &format!(
            "task {i} core {} period {} budget {} factor {} within {}\n",
            task.core,
            task.period,
            task.budget,
            task.factor,
            sheet.within(i)
        );
    }
    for (k, core) in sheet.cores.iter().enumerate() {
        text += &format!(
            "core {k} pivot {} divisor {} load {}\n",
            core.pivot,
            core.divisor,
            sheet.load(k).times(1000).ceil()
        );
    }
    text
}

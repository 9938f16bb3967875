//! The mover: a sheet of version 1 as one of version 2, and back.

use crate::checker::accept_versions;
use crate::sheet::{version, LONGEST_SHEET};
use crate::{refuse_if, MoveAnswer, Outcome};

/// The sheet of the other version: the checker's refusals, 3 for version 3 too,
/// then 16.
pub fn move_sheet(sheet: &[u8], out: &mut [u8]) -> MoveAnswer {
    match moved(sheet, out.len()) {
        Err(refusal) => refusal.into(),
        Ok(bytes) => {
            out[..bytes.len()].copy_from_slice(&bytes);
            MoveAnswer {
                length: bytes.len() as u16,
                ..MoveAnswer::default()
            }
        }
    }
}

fn moved(bytes: &[u8], room: usize) -> Outcome<Vec<u8>> {
    let sheet = accept_versions(&[1, 2], bytes)?;
    refuse_if(16, room < LONGEST_SHEET)?;
    Ok(match version(bytes) {
        1 => sheet.write_grouped(),
        _ => sheet.write(),
    })
}

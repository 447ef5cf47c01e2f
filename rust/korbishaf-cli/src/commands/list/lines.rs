//! The library's cutting list, in memory.

use crate::failure::Failure;
use crate::progress::Progress;
use crate::releasing::{self, Stopped};
use korbishaf::{CuttingLine, bytes};

/// The lines, in room that is asked for when file and sheet have passed.
pub fn of(file: &[u8], sheet: &[u8], progress: &Progress) -> Result<Vec<CuttingLine>, Stopped> {
    releasing::begin_counting(file, progress);
    let most = bytes::most_lines(file, sheet)?;
    let mut list = Vec::new();
    list.try_reserve_exact(most).map_err(|_| {
        let words = format!("a list of up to {most} parts does not fit into memory");
        Stopped::Failed(Failure::Io(words))
    })?;
    list.resize(most, CuttingLine::default());
    progress.begin("listing", None);
    let lines = bytes::cutting_list_into(file, sheet, &mut list)?;
    list.truncate(lines);
    Ok(list)
}

//! Cutting lists of `las_plain`, and its releases by them.

use crate::answers::{Line, Listed, Released};

pub fn cutting_list(file: &[u8], sheet: &[u8], list: &mut [Line]) -> Listed {
    let mut lines = lines_of(list);
    let result = las_plain::cutting_list(file, sheet, &mut lines);
    put(&lines, list);
    match result {
        Ok(lines) => Listed {
            number: 0,
            lines: lines as u64,
        },
        Err(refusal) => Listed {
            number: refusal.number(),
            lines: 0,
        },
    }
}

pub fn release_by_list(file: &[u8], sheet: &[u8], out: &mut [u8], list: &mut [Line]) -> Released {
    let mut lines = lines_of(list);
    let result = las_plain::release_by_list(file, sheet, out, &mut lines);
    put(&lines, list);
    super::released_answer(result)
}

fn lines_of(list: &[Line]) -> Vec<las_plain::Line> {
    let line = |line: &Line| las_plain::Line {
        place: line.place,
        length: line.length,
    };
    list.iter().map(line).collect()
}

/// Writes back what the lines are then.
fn put(lines: &[las_plain::Line], list: &mut [Line]) {
    for (to, line) in list.iter_mut().zip(lines) {
        *to = Line {
            place: line.place,
            length: line.length,
        };
    }
}

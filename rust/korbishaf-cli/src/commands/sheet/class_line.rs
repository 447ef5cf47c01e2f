//! The line of a sheet that answers for a class.

use crate::facts::class::{self, CLASSES};
use crate::keep_sheet::KeepSheet;
use crate::shown::counted;
use korbishaf::{Sheet, class_test};

/// What is said behind a line that has a class above those of points.
const NO_POINT: &str = "; in point formats 0 to 3 no point has this class";

/// Which line keeps a class, in words, and how many lines the library looked at for it.
pub fn words(keep_sheet: &KeepSheet, sheet: &Sheet, class: u8) -> String {
    let (title, answer) = (title(class), class_test(sheet, class));
    let all = counted(sheet.lines().count(), "line");
    let looked_at = format!("({} of {all} looked at)", answer.lines);
    if !answer.kept {
        return format!("{title}: not kept {looked_at}");
    }
    let index = answer.lines - 1;
    let line = sheet.lines().nth(index);
    let line = line.expect("the line that answers is one of the sheet");
    let place = keep_sheet.place(index);
    let hint = if class < CLASSES { "" } else { NO_POINT };
    format!("{title}: kept by {place}: {line} {looked_at}{hint}")
}

/// The class, with its name where points can have it.
fn title(class: u8) -> String {
    match class {
        ..CLASSES => format!("class {class} ({})", class::name(class)),
        _ => format!("class {class}"),
    }
}

//! Every function that takes a sheet, called with one and the same.

use crate::answers::Line;
use crate::compared::{Compared, Function};
use crate::spec::FileSpec;

/// Those that take nothing else but a class or a name.
pub const SHEET_FUNCTIONS: [Function; 4] = [
    Function::CheckSheet,
    Function::ClassKept,
    Function::ClassTest,
    Function::RecordKept,
];

/// Calls these, and those that take a file too: all give the sheet's number, since the file passes, and list and output
/// are long enough.
pub fn call_all(compared: &mut Compared, sheet: &[u8]) -> u64 {
    let number = compared.check_sheet(sheet);
    let class = compared.class_kept(sheet, 2);
    let line = compared.class_test(sheet, 2);
    let record = compared.record_kept(sheet, b"user", 7);
    assert_eq!([class.number, line.number, record.number], [number; 3]);
    let file = FileSpec {
        points: vec![vec![2; 20]],
        ..FileSpec::bare(0)
    }
    .bytes();
    let (room, list) = ([0xEE; 250], [Line::default()]);
    let (released, _) = compared.release(&file, sheet, &room);
    let (listed, _) = compared.cutting_list(&file, sheet, &list);
    let (by_list, ..) = compared.release_by_list(&file, sheet, &room, &list);
    assert_eq!(
        [released.number, listed.number, by_list.number],
        [number; 3]
    );
    number
}

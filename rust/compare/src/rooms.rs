//! Releases into outputs of all telling lengths.

use crate::answers::Released;
use crate::compared::Compared;
use crate::rng::Rng;

/// The numbers, and what the output holds.
pub type Answer = (Released, Vec<u8>);

/// How much longer than the released file an output is that is long enough.
pub const MORE: usize = 70;

/// Releases a file into outputs that are long enough, exact and too short, with any bytes in them. The last has no
/// bytes in the answer, since it holds what it held.
pub fn release(compared: &mut Compared, rng: &mut Rng, file: &[u8], sheet: &[u8]) -> [Answer; 3] {
    let (refused, _) = compared.release(file, sheet, &[]);
    assert_eq!(refused.number, 30);
    let needed = refused.length as usize;
    let [long, exact, (short, _)] = [needed + MORE, needed, needed - 1].map(|length| {
        let junk = rng.bytes(length);
        compared.release(file, sheet, &junk)
    });
    assert_eq!([long.0.number, exact.0.number], [0; 2]);
    assert_eq!(short, refused);
    [long, exact, (short, Vec::new())]
}

//! The fields of points, as they are given to be encoded.

use super::classification::HIGHEST_CLASS;
use crate::answers::Point;
use crate::rng::Rng;

/// What a flag may be given as; anything but 0 is yes.
const FLAGS: [u8; 6] = [0, 0, 1, 2, 128, 255];

/// Fields of any values that encode; flags are any bytes.
pub fn random_fields(rng: &mut Rng) -> Point {
    let stored = |rng: &mut Rng| rng.next() as i32;
    Point {
        number: rng.next(),
        place: rng.next(),
        gps_time: rng.next(),
        x: stored(rng),
        y: stored(rng),
        z: stored(rng),
        intensity: rng.next() as u16,
        source_id: rng.next() as u16,
        red: rng.next() as u16,
        green: rng.next() as u16,
        blue: rng.next() as u16,
        return_number: rng.below(8) as u8,
        returns: rng.below(8) as u8,
        classification: rng.byte() & HIGHEST_CLASS,
        user_data: rng.byte(),
        scan_direction: rng.pick(&FLAGS),
        edge: rng.pick(&FLAGS),
        scan_angle: rng.byte() as i8,
        synthetic: rng.pick(&FLAGS),
        key_point: rng.pick(&FLAGS),
        withheld: rng.pick(&FLAGS),
    }
}

/// What decoding gives for encoded fields: flags 0 or 1, absent fields 0.
pub fn as_decoded(format: u8, fields: &Point) -> Point {
    let flag = |byte: u8| u8::from(byte != 0);
    let mut point = Point {
        number: 0,
        place: 0,
        scan_direction: flag(fields.scan_direction),
        edge: flag(fields.edge),
        synthetic: flag(fields.synthetic),
        key_point: flag(fields.key_point),
        withheld: flag(fields.withheld),
        ..*fields
    };
    if format & 1 == 0 {
        point.gps_time = 0;
    }
    if format < 2 {
        (point.red, point.green, point.blue) = (0, 0, 0);
    }
    point
}

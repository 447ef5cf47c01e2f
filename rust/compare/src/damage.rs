//! Single fields of a file changed, and single bytes of a sheet.

use crate::rng::Rng;

/// A field of the public header block.
#[derive(Debug, Clone, Copy, PartialEq, Eq)]
pub struct Field {
    pub name: &'static str,
    pub place: usize,
    pub width: usize,
}

pub const MAJOR: Field = Field::new("version major", 24, 1);
pub const MINOR: Field = Field::new("version minor", 25, 1);
pub const HEADER_SIZE: Field = Field::new("header size", 94, 2);
pub const POINT_OFFSET: Field = Field::new("offset to points", 96, 4);
pub const VLR_COUNT: Field = Field::new("number of VLRs", 100, 4);
pub const FORMAT: Field = Field::new("point format", 104, 1);
pub const RECORD_LENGTH: Field = Field::new("record length", 105, 2);
pub const POINT_COUNT: Field = Field::new("number of points", 107, 4);
/// The fields that a mending sets, in the order of its marks.
pub const MENDED: [Field; 12] = [
    POINT_COUNT,
    Field::new("points by return 1", 111, 4),
    Field::new("points by return 2", 115, 4),
    Field::new("points by return 3", 119, 4),
    Field::new("points by return 4", 123, 4),
    Field::new("points by return 5", 127, 4),
    Field::new("max X", 179, 8),
    Field::new("min X", 187, 8),
    Field::new("max Y", 195, 8),
    Field::new("min Y", 203, 8),
    Field::new("max Z", 211, 8),
    Field::new("min Z", 219, 8),
];
/// X, Y, Z scale, then X, Y, Z offset.
pub const SCALING: [Field; 6] = [
    Field::new("X scale", 131, 8),
    Field::new("Y scale", 139, 8),
    Field::new("Z scale", 147, 8),
    Field::new("X offset", 155, 8),
    Field::new("Y offset", 163, 8),
    Field::new("Z offset", 171, 8),
];

/// The fields that the file checks look at, but for signature and scaling.
const CHECKED: [Field; 8] = [
    MAJOR,
    MINOR,
    HEADER_SIZE,
    POINT_OFFSET,
    VLR_COUNT,
    FORMAT,
    RECORD_LENGTH,
    POINT_COUNT,
];

impl Field {
    const fn new(name: &'static str, place: usize, width: usize) -> Self {
        Self { name, place, width }
    }

    pub fn get(&self, file: &[u8]) -> u64 {
        let mut bytes = [0; 8];
        bytes[..self.width].copy_from_slice(&file[self.place..self.place + self.width]);
        u64::from_le_bytes(bytes)
    }

    /// Sets the field to the value's low bytes.
    pub fn set(&self, file: &mut [u8], value: u64) {
        let bytes = value.to_le_bytes();
        file[self.place..self.place + self.width].copy_from_slice(&bytes[..self.width]);
    }

    /// A copy of the file with the field set.
    pub fn with(&self, file: &[u8], value: u64) -> Vec<u8> {
        let mut file = file.to_vec();
        self.set(&mut file, value);
        file
    }
}

/// Does one to three random damages to a file.
pub fn damage(rng: &mut Rng, file: &mut Vec<u8>) {
    for _ in 0..rng.pick(&[1, 1, 1, 2, 3]) {
        if file.len() < 227 {
            return;
        }
        match rng.below(9) {
            0 => shorten(rng, file),
            1 => {
                let place = rng.below(file.len());
                file[place] ^= 1 << rng.below(8);
            }
            2 => {
                let bits = random_double_bits(rng);
                rng.pick(&SCALING).set(file, bits);
            }
            3 => damage_record_length(rng, file),
            4 => file[rng.below(4)] ^= 1 << rng.below(8),
            _ => {
                let value = telling_value(rng, file);
                rng.pick(&CHECKED).set(file, value);
            }
        }
    }
}

/// Damages a sound file so that its checks give this number, 1 to 10. Of
/// several numbers, spoiled from the highest to the lowest, the lowest is given.
pub fn spoil(file: &mut Vec<u8>, number: u64) {
    match number {
        1 => file.truncate(226),
        2 => file[0] = b'l',
        3 => MINOR.set(file, 3),
        4 => HEADER_SIZE.set(file, 226),
        5 => FORMAT.set(file, 4),
        6 => RECORD_LENGTH.set(file, 19),
        7 => POINT_OFFSET.set(file, 226),
        8 => VLR_COUNT.set(file, u32::MAX.into()),
        9 => POINT_COUNT.set(file, u32::MAX.into()),
        _ => SCALING[5].set(file, f64::NAN.to_bits()),
    }
}

/// Does one random damage to a sheet: behind it, at its end or within. Some sheets are left as they were.
pub fn damage_sheet(rng: &mut Rng, sheet: &mut Vec<u8>) {
    if sheet.is_empty() || rng.chance(30) {
        sheet.extend(rng.some_bytes(6));
    } else if rng.chance(40) {
        sheet.truncate(rng.below(sheet.len()));
    } else {
        let place = rng.below(sheet.len());
        sheet[place] = rng.pick(&[0, 1, 2, 3, 4, 0x4B, 0x53, 0x80, 255]);
    }
}

/// Bits of a double near the ends of the ranges, of a special one, or of any.
pub fn random_double_bits(rng: &mut Rng) -> u64 {
    let any = f64::from_bits(rng.next());
    let double: f64 = rng.pick(&[
        2f64.powi(-40),
        2f64.powi(20),
        2f64.powi(40),
        0.0,
        1.0,
        f64::INFINITY,
        f64::NAN,
        f64::from_bits(0x7FF0_0000_0000_0001),
        f64::MIN_POSITIVE,
        f64::MAX,
        any,
    ]);
    let near = double
        .to_bits()
        .wrapping_add(rng.below(3) as u64)
        .wrapping_sub(1);
    near ^ (u64::from(rng.chance(30)) << 63)
}

fn shorten(rng: &mut Rng, file: &mut Vec<u8>) {
    let places = [
        HEADER_SIZE.get(file),
        POINT_OFFSET.get(file),
        227,
        file.len() as u64,
    ];
    let near = rng.pick(&places).saturating_sub(rng.below(2) as u64);
    let length = if rng.chance(70) {
        near
    } else {
        rng.next() % (file.len() as u64 + 1)
    };
    file.truncate(length as usize);
}

/// Changes the payload length of what should be the first record.
fn damage_record_length(rng: &mut Rng, file: &mut [u8]) {
    let field = Field::new("payload length", HEADER_SIZE.get(file) as usize + 20, 2);
    if field.place + field.width <= file.len() {
        let value = field
            .get(file)
            .wrapping_add(rng.pick(&[1, u64::MAX, 0xFFFF, 54, 256]));
        field.set(file, value);
    }
}

/// A value that stands at an edge of some check.
fn telling_value(rng: &mut Rng, file: &[u8]) -> u64 {
    let own = rng.pick(&CHECKED).get(file);
    let edge = rng.pick(&[
        0,
        3,
        20,
        26,
        28,
        34,
        54,
        227,
        file.len() as u64,
        HEADER_SIZE.get(file),
        POINT_OFFSET.get(file),
        own,
        1 << 16,
        1 << 31,
        1 << 32,
    ]);
    edge.wrapping_add(rng.below(3) as u64).wrapping_sub(1)
}

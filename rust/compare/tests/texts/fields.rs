//! The text fields of a file, where they are read and where a release writes them.

use compare::answers::Released;
use compare::compared::Compared;
use compare::spec::{FileSpec, LineSpec, RecordSpec, SheetSpec, padded};

use super::table::{self, Case};

/// The texts of one file.
struct Texts {
    user: Case<16>,
    description: Case<32>,
    system: Case<32>,
    software: Case<32>,
}

impl Texts {
    /// Files in which each case stands in each field once at least, beside many others.
    fn all() -> impl Iterator<Item = Self> {
        let (short, long) = (table::all(), table::all());
        assert_eq!(short.len(), long.len());
        let turns = short.len();
        (0..turns).map(move |turn| Self {
            user: short[turn].clone(),
            description: long[(turn + 1) % turns].clone(),
            system: long[(turn + turns / 2) % turns].clone(),
            software: long[turns - 1 - turn].clone(),
        })
    }

    fn name(&self) -> String {
        let user = self.user.field.escape_ascii();
        let texts = [&self.description, &self.system, &self.software];
        let [description, system, software] = texts.map(|text| text.field.escape_ascii());
        format!("user {user}, description {description}, system {system}, software {software}")
    }

    fn file(&self) -> Vec<u8> {
        let record = RecordSpec {
            reserved: *b"  ",
            user: self.user.field,
            record_id: 0x2020,
            description: self.description.field,
            payload: b" payload  ".to_vec(),
        };
        FileSpec {
            system: self.system.field,
            software: self.software.field,
            records: vec![record],
            points: vec![vec![b' '; 20]],
            trailing: b"   ".to_vec(),
            ..FileSpec::bare(0)
        }
        .bytes()
    }

    /// A sheet for the record and all points.
    fn sheet(&self) -> Vec<u8> {
        let record = LineSpec::Record(padded(&self.user.cut), 0x2020);
        SheetSpec::new([record, LineSpec::Classes(0, 255)]).bytes()
    }
}

#[test]
fn every_text_is_read_cut() {
    let mut compared = Compared::new();
    for texts in Texts::all() {
        let file = texts.file();
        let part = |place: u64, length: u64| &file[place as usize..(place + length) as usize];
        compared.case(texts.name());
        let header = compared.read_header(&file);
        assert_eq!(part(26, header.system_length), texts.system.cut);
        assert_eq!(part(58, header.software_length), texts.software.cut);
        let record = compared.vlr_step(&file, 0, 227);
        let places = [record.user_place, record.description_place];
        assert_eq!(places, [229, 249]);
        assert_eq!(part(229, record.user_length), texts.user.cut);
        assert_eq!(part(249, record.description_length), texts.description.cut);
        assert_eq!(part(281, record.payload_length), b" payload  ");
    }
}

#[test]
fn a_release_writes_every_cut_text_padded_with_zeros() {
    let mut compared = Compared::new();
    let due = Released {
        number: 0,
        length: 311,
        points: 1,
        records: 1,
    };
    for texts in Texts::all() {
        let (file, sheet) = (texts.file(), texts.sheet());
        compared.case(texts.name());
        let (answer, out) = compared.release(&file, &sheet, &[0xEE; 320]);
        assert_eq!(answer, due);
        assert_eq!(out[26..58], padded::<32>(&texts.system.cut));
        assert_eq!(out[58..90], padded::<32>(&texts.software.cut));
        assert_eq!(out[227..229], [0, 0]);
        assert_eq!(out[229..245], padded::<16>(&texts.user.cut));
        assert_eq!(out[245..249], [0x20, 0x20, 10, 0]);
        assert_eq!(out[249..281], padded::<32>(&texts.description.cut));
        assert_eq!(out[281..291], *b" payload  ");
        assert_eq!(out[291..311], [b' '; 20]);
        assert_eq!(out[311..], [0; 9]);
        let again = compared.release(&out, &sheet, &[0xDD; 320]);
        assert_eq!(again, (due, out));
    }
}

#[test]
fn the_maker_s_spaces_leave_as_zeros() {
    let record = RecordSpec {
        reserved: [0; 2],
        user: *b"AB  \0 x         ",
        record_id: 7,
        description: *b"A B                             ",
        payload: b"AB  ".to_vec(),
    };
    let spec = FileSpec {
        system: *b" A \0 private text of the maker. ",
        software: [b' '; 32],
        records: vec![record],
        ..FileSpec::bare(1)
    };
    let sheet = b"KS\x02AB              \x07\0";
    let (answer, out) = Compared::new().release(&spec.bytes(), sheet, &[0xEE; 285]);
    assert_eq!((answer.length, answer.records), (285, 1));
    let (system, software) = (&out[26..58], &out[58..90]);
    assert_eq!(system[..4], *b" A\0\0");
    assert_eq!([&system[4..], software].concat(), [0; 60]);
    assert_eq!(
        out[227..249],
        *b"\0\0AB\0\0\0\0\0\0\0\0\0\0\0\0\0\0\x07\0\x04\0"
    );
    assert_eq!(out[249..253], *b"A B\0");
    assert_eq!(out[253..281], [0; 28]);
    assert_eq!(out[281..], *b"AB  ");
}

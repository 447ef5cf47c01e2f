//! What a file and a sheet make due, and both functions asked for it with lists and outputs of any length.

use compare::answers::{Line, Listed, Released};
use compare::compared::Compared;
use compare::rng::Rng;
use compare::spec::{FileSpec, RecordSpec, SheetSpec};

/// A file and a sheet, with what is due of them.
pub struct Case {
    pub file: Vec<u8>,
    pub sheet: Vec<u8>,
    pub lines: Vec<Line>,
    pub released: Released,
}

pub fn line(place: usize, length: usize) -> Line {
    Line {
        place: place as u64,
        length: length as u64,
    }
}

pub fn listed(lines: usize) -> Listed {
    Listed {
        number: 0,
        lines: lines as u64,
    }
}

/// A refusal of a list, which has no other number.
pub fn not_listed(number: u64) -> Listed {
    Listed { number, lines: 0 }
}

/// A refusal of a release; all but 30 have the length 0.
pub fn refused(number: u64, length: u64) -> Released {
    Released {
        number,
        length,
        ..Released::default()
    }
}

impl Case {
    pub fn new(spec: &FileSpec, sheet: &SheetSpec) -> Self {
        let (records, points) = (record_lines(spec, sheet), point_lines(spec, sheet));
        let kept = spec.records.iter().filter(|it| sheet.keeps_record(it));
        let records_size: usize = kept.map(RecordSpec::size).sum();
        let points_size = points.len() * usize::from(spec.record_length);
        Self {
            file: spec.bytes(),
            sheet: sheet.bytes(),
            released: Released {
                number: 0,
                length: (227 + records_size + points_size) as u64,
                points: points.len() as u64,
                records: records.len() as u64,
            },
            lines: [records, points].concat(),
        }
    }

    /// The length of the released file.
    pub fn needed(&self) -> usize {
        self.released.length as usize
    }

    /// Asks for the list, in one of this length that holds junk: it is the one that is due, with what was behind it, or
    /// too short and as it was.
    pub fn assert_listed(&self, compared: &mut Compared, rng: &mut Rng, length: usize) {
        let before = junk(rng, length);
        let (answer, list) = compared.cutting_list(&self.file, &self.sheet, &before);
        match before.get(self.lines.len()..) {
            None => assert_eq!((answer, list), (not_listed(31), before)),
            Some(behind) => {
                assert_eq!(answer, listed(self.lines.len()));
                assert_eq!(list, [&self.lines, behind].concat());
            }
        }
    }

    /// Releases by a list of this length into an output of that one, both with junk in them; gives the number. Where
    /// the list is long enough, answer and output are those of the first way.
    pub fn assert_released(
        &self,
        compared: &mut Compared,
        rng: &mut Rng,
        length: usize,
        room: usize,
    ) -> u64 {
        let (file, sheet) = (&self.file, &self.sheet);
        let (before, list_before) = (rng.bytes(room), junk(rng, length));
        let (answer, out, list) = compared.release_by_list(file, sheet, &before, &list_before);
        let Some(behind) = list_before.get(self.lines.len()..) else {
            assert_eq!((answer, list), (refused(31, 0), list_before));
            assert!(out == before, "31 changed the output");
            return 31;
        };
        let (first, first_out) = compared.release(file, sheet, &before);
        assert_eq!(answer, first);
        assert!(out == first_out, "the outputs differ");
        if room < self.needed() {
            assert_eq!(
                (answer, list),
                (refused(30, self.released.length), list_before)
            );
        } else {
            assert_eq!(answer, self.released);
            assert_eq!(list, [&self.lines, behind].concat());
        }
        answer.number
    }
}

/// A line for the payload of each kept record.
fn record_lines(spec: &FileSpec, sheet: &SheetSpec) -> Vec<Line> {
    let mut lines = Vec::new();
    let mut place = spec.header_size();
    for record in &spec.records {
        if sheet.keeps_record(record) {
            lines.push(line(place + 54, record.payload.len()));
        }
        place += record.size();
    }
    lines
}

/// A line for each kept point.
fn point_lines(spec: &FileSpec, sheet: &SheetSpec) -> Vec<Line> {
    let places = (spec.point_offset()..).step_by(spec.record_length.into());
    let points = places.zip(&spec.points);
    points
        .filter(|(_, point)| sheet.keeps_point(point))
        .map(|(place, point)| line(place, point.len()))
        .collect()
}

/// So many lines of any numbers; some of them could be lines of a file.
pub fn junk(rng: &mut Rng, lines: usize) -> Vec<Line> {
    let junk = |_| {
        if rng.chance(40) {
            line(227 + rng.below(500), rng.below(100))
        } else {
            Line {
                place: rng.next(),
                length: rng.pick(&[0, 20, 1 << 63, u64::MAX]) ^ rng.next() >> 40,
            }
        }
    };
    (0..lines).map(junk).collect()
}

/// Lengths of a list on both sides of one that has so many lines: just enough, more, one too few, fewer, none.
pub fn list_lengths(rng: &mut Rng, lines: usize) -> Vec<usize> {
    let mut lengths = vec![lines, lines + 1, lines + rng.from_to(2, 40)];
    if lines > 0 {
        lengths.extend([lines - 1, rng.below(lines), 0]);
    }
    lengths
}

/// Lengths of an output on both sides of the released file's.
pub fn rooms(rng: &mut Rng, needed: usize) -> [usize; 4] {
    [needed, needed + 1, needed + rng.from_to(2, 200), needed - 1]
}

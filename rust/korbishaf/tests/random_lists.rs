//! Cutting lists of random files under random sheets, from a fixed seed, against lines that are worked out while the
//! files are made; and the releases from them.

use korbishaf::{CuttingLine, Line, Sheet, cutting_list, cutting_list_into, release};

/// How many files are made.
const FILES: usize = 5000;

/// Names of records. A field has no room behind the last.
const NAMES: [&[u8]; 4] = [b"", b"yard", b"yard crew", b"sixteen letters!"];

/// Random numbers (SplitMix64).
struct Random(u64);

impl Random {
    fn next(&mut self) -> u64 {
        self.0 = self.0.wrapping_add(0x9E37_79B9_7F4A_7C15);
        let mixed = (self.0 ^ (self.0 >> 30)).wrapping_mul(0xBF58_476D_1CE4_E5B9);
        let mixed = (mixed ^ (mixed >> 27)).wrapping_mul(0x94D0_49BB_1331_11EB);
        mixed ^ (mixed >> 31)
    }

    fn below(&mut self, limit: usize) -> usize {
        (self.next() % limit as u64) as usize
    }

    /// Fewer than so many bytes, one time out of three none.
    fn bytes(&mut self, limit: usize) -> Vec<u8> {
        let length = self.below(limit) * self.below(3).min(1);
        (0..length).map(|_| self.next() as u8).collect()
    }

    /// A name, and the field that has it: behind it spaces, or a zero and anything.
    fn name(&mut self) -> (&'static [u8], [u8; 16]) {
        let name = NAMES[self.below(NAMES.len())];
        let mut field = [0; 16];
        field.fill_with(|| self.next() as u8);
        let zero = name.len() + self.below(17 - name.len());
        field[name.len()..zero].fill(b' ');
        if zero < 16 {
            field[zero] = 0;
        }
        field[..name.len()].copy_from_slice(name);
        (name, field)
    }

    fn sheet(&mut self) -> Sheet {
        let lines: Vec<_> = (0..self.below(6)).map(|_| self.line()).collect();
        Sheet::from_lines(lines).unwrap()
    }

    fn line(&mut self) -> Line {
        match self.below(5) {
            0..2 => {
                let name = NAMES[self.below(NAMES.len())];
                Line::record(name, self.below(3) as u16).unwrap()
            }
            2..4 => {
                let lowest = self.below(40) as u8;
                Line::classes(lowest, lowest + self.below(20) as u8)
            }
            _ => self.bounding_box(),
        }
    }

    /// A box that bounds one axis, or two.
    fn bounding_box(&mut self) -> Line {
        let (mut low, mut high) = ([i32::MIN; 3], [i32::MAX; 3]);
        for _ in 0..2 {
            low[self.below(3)] = self.next() as i32 / 2 - i32::MAX / 2;
            high[self.below(3)] = self.next() as i32 / 2 + i32::MAX / 2;
        }
        Line::bounding_box(low, high)
    }
}

/// A file, and what is in it.
struct Scan {
    file: Vec<u8>,
    /// The name, the record ID and the payload of each record.
    records: Vec<(&'static [u8], u16, CuttingLine)>,
    /// The classification byte, the stored X, Y and Z and the record of each point.
    points: Vec<(u8, [i32; 3], CuttingLine)>,
}

impl Scan {
    fn random(random: &mut Random) -> Self {
        let format = random.below(4);
        let record_length = [20, 28, 26, 34][format] + random.below(3) * random.below(9);
        let header_extra = random.bytes(20);
        let mut scan = Scan {
            file: header(format as u8, record_length as u16),
            records: Vec::new(),
            points: Vec::new(),
        };
        scan.file.extend(&header_extra);
        scan.set(94, &(scan.file.len() as u16).to_le_bytes());
        for _ in 0..random.below(7) {
            scan.add_record(random);
        }
        scan.set(100, &(scan.records.len() as u32).to_le_bytes());
        scan.file.extend(random.bytes(10));
        scan.set(96, &(scan.file.len() as u32).to_le_bytes());
        for _ in 0..random.below(40) {
            scan.add_point(random, record_length);
        }
        scan.set(107, &(scan.points.len() as u32).to_le_bytes());
        scan.file.extend(random.bytes(60));
        scan
    }

    fn set(&mut self, place: usize, bytes: &[u8]) {
        self.file[place..place + bytes.len()].copy_from_slice(bytes);
    }

    fn add_record(&mut self, random: &mut Random) {
        let ((name, field), record_id) = (random.name(), random.below(3) as u16);
        let payload = random.bytes(30);
        let place = self.file.len() + 54;
        self.file.extend([0xAA, 0xBB]);
        self.file.extend(field);
        self.file.extend(record_id.to_le_bytes());
        self.file.extend((payload.len() as u16).to_le_bytes());
        self.file.extend([b' '; 32]);
        self.file.extend(&payload);
        let line = CuttingLine {
            place: place as u64,
            length: payload.len() as u64,
        };
        self.records.push((name, record_id, line));
    }

    fn add_point(&mut self, random: &mut Random, record_length: usize) {
        let line = CuttingLine {
            place: self.file.len() as u64,
            length: record_length as u64,
        };
        let mut point: Vec<u8> = (0..record_length).map(|_| random.next() as u8).collect();
        point[15] &= [0x1F, 0x7F, 0xFF][random.below(3)];
        let stored = [0, 4, 8].map(|place| {
            let bytes = point[place..].first_chunk().unwrap();
            i32::from_le_bytes(*bytes)
        });
        self.points.push((point[15], stored, line));
        self.file.extend(point);
    }

    /// The lines of what a sheet keeps.
    fn lines(&self, sheet: &Sheet) -> Vec<CuttingLine> {
        let records = self.records.iter().filter(|(name, id, _)| {
            sheet.lines().any(|line| match line {
                Line::Record { user_id, record_id } => {
                    user_id.as_bytes() == *name && record_id == *id
                }
                _ => false,
            })
        });
        let points = self.points.iter().filter(|(byte, stored, _)| {
            *byte < 128
                && in_one_of_the_boxes(sheet, *stored)
                && sheet.lines().any(|line| match line {
                    Line::Classes { lowest, highest } => (lowest..=highest).contains(&(byte % 32)),
                    _ => false,
                })
        });
        let records = records.map(|(_, _, line)| *line);
        records.chain(points.map(|(_, _, line)| *line)).collect()
    }
}

/// Whether a point lies in a box of a sheet, or the sheet has none.
fn in_one_of_the_boxes(sheet: &Sheet, [x, y, z]: [i32; 3]) -> bool {
    let mut boxes = sheet
        .lines()
        .filter_map(|line| match line {
            Line::Box { low, high } => Some((low, high)),
            _ => None,
        })
        .peekable();
    boxes.peek().is_none()
        || boxes.any(|(low, high)| {
            (low[0]..=high[0]).contains(&x)
                && (low[1]..=high[1]).contains(&y)
                && (low[2]..=high[2]).contains(&z)
        })
}

/// A header that passes but for what is set later: its size, the offset to the points and the two counts.
fn header(format: u8, record_length: u16) -> Vec<u8> {
    let mut header = vec![0; 227];
    header[..4].copy_from_slice(b"LASF");
    header[24..26].copy_from_slice(&[1, 2]);
    header[104] = format;
    header[105..107].copy_from_slice(&record_length.to_le_bytes());
    for scale in [131, 139, 147] {
        header[scale..scale + 8].copy_from_slice(&0.01f64.to_le_bytes());
    }
    header
}

/// The lines of a sheet that are no boxes.
fn without_boxes(sheet: &Sheet) -> Sheet {
    let others = sheet
        .lines()
        .filter(|line| !matches!(line, Line::Box { .. }));
    Sheet::from_lines(others).unwrap()
}

#[test]
fn every_kept_record_and_point_has_its_line() {
    let mut random = Random(5);
    let mut seen = [0; 4];
    for file in 0..FILES {
        let (scan, sheet) = (Scan::random(&mut random), random.sheet());
        let lines = scan.lines(&sheet);
        assert_eq!(
            cutting_list(&scan.file, &sheet),
            Ok(lines.clone()),
            "{file}"
        );
        let spare = CuttingLine {
            place: random.next(),
            length: random.next(),
        };
        let mut list = vec![spare; lines.len() + 2];
        let answer = cutting_list_into(&scan.file, &sheet, &mut list);
        assert_eq!(answer, Ok(lines.len()), "{file}");
        assert_eq!(list, [&lines[..], &[spare; 2]].concat(), "{file}");
        if let Some(short) = lines.len().checked_sub(1) {
            list.fill(spare);
            let refused = cutting_list_into(&scan.file, &sheet, &mut list[..short]);
            assert_eq!(refused.unwrap_err().number(), 31, "{file}");
            assert!(list.iter().all(|line| *line == spare), "{file}");
        }
        let empty = lines.iter().filter(|line| line.length == 0).count();
        let left_out = scan.lines(&without_boxes(&sheet)).len() - lines.len();
        let counts = [lines.len(), empty, usize::from(lines.is_empty()), left_out];
        seen = std::array::from_fn(|count| seen[count] + counts[count]);
    }
    assert!(seen.iter().all(|&count| count > FILES / 20), "{seen:?}");
}

#[test]
fn a_release_by_its_list_is_the_release() {
    let mut random = Random(6);
    let mut seen = [0; 3];
    for file in 0..FILES {
        let (scan, sheet) = (Scan::random(&mut random), random.sheet());
        let lines = scan.lines(&sheet);
        let mut wanted = vec![0xEE; 220 + random.below(scan.file.len() - 219)];
        let answer = release(&scan.file, &sheet, &mut wanted);
        let spare = CuttingLine {
            place: random.next(),
            length: random.next(),
        };
        let mut list = vec![spare; (lines.len() + random.below(4)).saturating_sub(1)];
        let (long_enough, before) = (list.len() >= lines.len(), list.clone());
        let mut out = vec![0xEE; wanted.len()];
        let found = korbishaf::release_by_list(&scan.file, &sheet, &mut out, &mut list);
        if long_enough {
            assert_eq!(found, answer, "{file}");
            assert!(out == wanted, "{file}");
        } else {
            assert_eq!(found.unwrap_err().number(), 31, "{file}");
            assert!(out.iter().all(|&byte| byte == 0xEE), "{file}");
        }
        let filled = found.map_or(0, |_| lines.len());
        assert_eq!(list[..filled], lines[..filled], "{file}");
        assert_eq!(list[filled..], before[filled..], "{file}");
        let kind = match found.map_err(|refused| refused.number()) {
            Ok(_) => 0,
            Err(30) => 1,
            Err(_) => 2,
        };
        seen[kind] += 1;
    }
    assert!(seen.iter().all(|&count| count > FILES / 20), "{seen:?}");
}

//! Random sheets and texts, from a fixed seed: round trips, and bytes of any kind, none of which panics.

use korbishaf::{ClassLine, Line, Sheet, SheetError, bytes, class_kept, class_test, record_kept};

/// How many inputs each test tries.
const INPUTS: usize = 100_000;

/// What texts are made of.
const WORDS: [&[u8]; 37] = [
    b"class",
    b"record",
    b"box",
    b" X ",
    b" y ",
    b"-5..3",
    b"3..-5",
    b"..",
    b"2147483648",
    b"\nbox X 1..2 Y 3..4 ",
    b"clas",
    b"2",
    b"3-5",
    b"5-3",
    b"256",
    b"65535",
    b"65536",
    b"ground",
    b"Low_Point",
    b"yard",
    b"\"",
    b"\\",
    b"\\x41",
    b"\"my survey\"",
    b"\"yard  \"",
    b"#",
    b"\n",
    b"\n",
    b"\r\n",
    b" ",
    b" ",
    b" ",
    b"\t",
    b"\xFF",
    b"\0",
    b"-",
    b"class 2\nrecord yard ",
];

/// Random numbers (SplitMix64).
struct Random(u64);

impl Random {
    fn next(&mut self) -> u64 {
        self.0 = self.0.wrapping_add(0x9E37_79B9_7F4A_7C15);
        let mixed = (self.0 ^ (self.0 >> 30)).wrapping_mul(0xBF58_476D_1CE4_E5B9);
        let mixed = (mixed ^ (mixed >> 27)).wrapping_mul(0x94D0_49BB_1331_11EB);
        mixed ^ (mixed >> 31)
    }

    fn below(&mut self, limit: usize) -> usize {
        (self.next() % limit as u64) as usize
    }

    fn byte(&mut self) -> u8 {
        self.next() as u8
    }

    fn bytes(&mut self, length: usize) -> Vec<u8> {
        (0..length).map(|_| self.byte()).collect()
    }

    fn pick<'a>(&mut self, from: &[&'a [u8]]) -> &'a [u8] {
        from[self.below(from.len())]
    }

    /// A line of any kind, whose user ID has any bytes.
    fn line(&mut self) -> Line {
        match self.below(5) {
            0..2 => {
                let (one, other) = (self.byte(), self.byte());
                Line::classes(one.min(other), one.max(other))
            }
            2..4 => {
                let length = self.below(17);
                Line::record(self.bytes(length), self.next() as u16).unwrap()
            }
            _ => self.bounding_box(),
        }
    }

    /// A box, whose axes are often whole or of one value.
    fn bounding_box(&mut self) -> Line {
        let ranges = [(); 3].map(|()| {
            let (one, other) = (self.next() as i32, self.next() as i32);
            match self.below(4) {
                0 => (i32::MIN, i32::MAX),
                1 => (one, one),
                _ => (one.min(other), one.max(other)),
            }
        });
        Line::bounding_box(ranges.map(|(low, _)| low), ranges.map(|(_, high)| high))
    }

    fn lines(&mut self) -> Vec<Line> {
        let most = if self.below(20) == 0 { 65 } else { 6 };
        (0..self.below(most)).map(|_| self.line()).collect()
    }

    /// A text of words that belong into one, in any order.
    fn text(&mut self) -> Vec<u8> {
        let length = self.below(12);
        (0..length)
            .flat_map(|_| self.pick(&WORDS))
            .copied()
            .collect()
    }
}

#[test]
fn lines_to_text_to_lines() {
    let mut random = Random(1);
    for _ in 0..INPUTS / 10 {
        let lines = random.lines();
        let sheet = Sheet::from_lines(lines.iter().copied()).unwrap();
        assert!(sheet.lines().eq(lines));
        let text = sheet.to_text();
        assert_eq!(Sheet::from_text(&text), Ok(sheet.clone()), "{text}");
        assert_eq!(Sheet::read(&text), Ok(sheet.clone()), "{text}");
        assert_eq!(Sheet::read(sheet.as_bytes()), Ok(sheet));
    }
}

/// Bytes of lines whose user IDs have spaces before their first zero and other bytes behind it.
#[test]
fn bytes_to_text_to_bytes_keep_the_same() {
    let mut random = Random(2);
    for _ in 0..INPUTS / 10 {
        let (mut field, record_id) = (random.bytes(16), random.next() as u16);
        let zero = random.below(16);
        let spaces = random.below(zero + 1);
        field[zero - spaces..zero].fill(b' ');
        field[zero] = 0;
        let name = &field[..zero - spaces];
        let (lowest, highest) = (random.byte() / 2, 128 + random.byte() / 2);
        let mut bytes = [&b"KS\x01"[..], &[lowest, highest], b"KS\x02", &field].concat();
        bytes.extend(record_id.to_le_bytes());
        let sheet = Sheet::from_bytes(&*bytes).unwrap();
        let again = Sheet::read(sheet.to_text()).unwrap();
        assert!(again.lines().eq(sheet.lines()));
        assert!((0..=255).all(|class| class_kept(&again, class) == class_kept(&sheet, class)));
        for id in [record_id, record_id ^ 1] {
            for user_id in [&*field, name] {
                assert_eq!(record_kept(&again, user_id, id), id == record_id);
                assert_eq!(record_kept(&sheet, user_id, id), id == record_id);
            }
        }
    }
}

/// The answer for a class, worked out from the lines.
fn class_line(sheet: &Sheet, class: u8) -> ClassLine {
    let place = sheet.lines().position(|line| match line {
        Line::Classes { lowest, highest } => (lowest..=highest).contains(&class),
        _ => false,
    });
    ClassLine {
        kept: place.is_some(),
        lines: place.map_or(sheet.lines().count(), |place| place + 1),
    }
}

#[test]
fn the_first_line_that_holds_a_class_answers() {
    let mut random = Random(6);
    // how often no line answers, the first does, and a later one does
    let mut seen = [0; 3];
    for _ in 0..INPUTS / 10 {
        let sheet = Sheet::from_lines(random.lines()).unwrap();
        for class in 0..=255 {
            let answer = class_test(&sheet, class);
            assert_eq!(answer, class_line(&sheet, class), "{class}: {sheet}");
            assert_eq!(bytes::class_test(sheet.as_bytes(), class), Ok(answer));
            let later = usize::from(answer.lines > 1);
            seen[usize::from(answer.kept) * (1 + later)] += 1;
        }
    }
    assert!(seen.iter().all(|&count| count > INPUTS), "{seen:?}");
}

/// A sheet that was read gives the same lines and the same text again; one that was not says where.
fn try_any(input: &[u8]) -> bool {
    match Sheet::read(input) {
        Ok(sheet) => {
            assert_eq!(bytes::check_sheet(sheet.as_bytes()), Ok(()));
            let text = sheet.to_text();
            let again = Sheet::from_text(&text).unwrap();
            assert!(again.lines().eq(sheet.lines()));
            assert_eq!(again.to_text(), text);
            true
        }
        Err(SheetError::Text(mistake)) => {
            let line = input.split(|&byte| byte == b'\n').nth(mistake.line() - 1);
            let length = line.expect("the line of a mistake is there").len();
            assert!((1..=length + 1).contains(&mistake.column()), "{mistake}");
            assert!(mistake.words().starts_with("expected "), "{mistake}");
            assert!(
                mistake
                    .words()
                    .bytes()
                    .all(|byte| (b' '..=b'~').contains(&byte))
            );
            false
        }
        Err(refused) => {
            assert!(
                matches!(refused, SheetError::Bytes(refused) if (20..=24).contains(&refused.number()))
            );
            false
        }
    }
}

#[test]
fn random_bytes() {
    let mut random = Random(3);
    for _ in 0..INPUTS {
        let length = random.below(40);
        let mut input = random.bytes(length);
        try_any(&input);
        input.splice(..0, *b"KS\x01\x01\x02KS");
        try_any(&input);
    }
    assert!(try_any(b"class 2"));
}

#[test]
fn random_texts() {
    let mut random = Random(4);
    let mut good = 0;
    for _ in 0..INPUTS {
        good += usize::from(try_any(&random.text()));
    }
    assert!((INPUTS / 100..INPUTS * 99 / 100).contains(&good), "{good}");
}

#[test]
fn damaged_texts_and_sheets() {
    let mut random = Random(5);
    let mut good = 0;
    for _ in 0..INPUTS {
        let sheet = Sheet::from_lines(random.lines()).unwrap();
        let mut input = match random.below(2) {
            0 => sheet.as_bytes().to_vec(),
            _ => sheet.to_text().into_bytes(),
        };
        if !input.is_empty() {
            let place = random.below(input.len());
            match random.below(3) {
                0 => input.truncate(place),
                1 => input[place] = random.byte(),
                _ => input[place] ^= 1 << random.below(8),
            }
        }
        good += usize::from(try_any(&input));
    }
    assert!((INPUTS / 100..INPUTS * 99 / 100).contains(&good), "{good}");
}

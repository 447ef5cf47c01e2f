//! Both sides called on one case: equal answers, equal bytes, whole guards.

mod boxes;
mod lists;
mod lookups;

use std::collections::{BTreeMap, BTreeSet};
use std::fmt::Debug;

use crate::answers::{ClassLine, Header, Kept, Mended, Point, Record, Released};
use crate::lent::Lent;
use crate::spec::ByBoxes;
use crate::{ours, plain};

/// The functions of the interface that answer with the specification's numbers.
#[derive(Debug, Clone, Copy, PartialEq, Eq, PartialOrd, Ord)]
pub enum Function {
    CheckFile,
    ReadHeader,
    VlrStep,
    PointAt,
    Decode,
    Encode,
    CheckSheet,
    ClassKept,
    ClassTest,
    RecordKept,
    GeoKeyFind,
    GeoKeyHalve,
    Release,
    Mend,
    CuttingList,
    ReleaseByList,
}

impl Function {
    /// Every number that the function can give, 0 among them.
    pub fn numbers(self) -> BTreeSet<u64> {
        let file = 1..=10;
        let sheet = 20..=24;
        let mut numbers: BTreeSet<u64> = match self {
            Self::CheckFile | Self::ReadHeader => file.collect(),
            Self::VlrStep => file.chain([18]).collect(),
            Self::PointAt => file.chain([11]).collect(),
            Self::Decode => [12].into(),
            Self::Encode => [12, 13].into(),
            Self::CheckSheet | Self::ClassKept | Self::ClassTest | Self::RecordKept => {
                sheet.collect()
            }
            Self::GeoKeyFind | Self::GeoKeyHalve => file.chain(40..=46).collect(),
            Self::Release => file.chain(sheet).chain([30]).collect(),
            Self::Mend => file.filter(|&number| number != 9).collect(),
            Self::CuttingList => file.chain(sheet).chain([31]).collect(),
            Self::ReleaseByList => file.chain(sheet).chain([30, 31]).collect(),
        };
        numbers.insert(0);
        numbers
    }

    /// Whether it goes by which points of a file a sheet keeps.
    fn keeps_points(self) -> bool {
        matches!(
            self,
            Self::Release | Self::CuttingList | Self::ReleaseByList
        )
    }
}

/// Calls both sides and remembers which numbers each function gave, and what boxes decided.
#[derive(Debug, Default)]
pub struct Compared {
    case: String,
    reached: BTreeMap<Function, BTreeSet<u64>>,
    decided: BTreeMap<Function, BTreeSet<ByBoxes>>,
}

impl Compared {
    pub fn new() -> Self {
        Self::default()
    }

    /// Names the case that the next calls belong to, for a failure's message.
    pub fn case(&mut self, name: impl Into<String>) -> &mut Self {
        self.case = name.into();
        self
    }

    /// Fails if a function did not give every number it has, or goes by kept points and boxes decided about none.
    pub fn assert_all_reached(&self, functions: &[Function]) {
        for function in functions {
            let reached = self.reached.get(function).cloned().unwrap_or_default();
            assert_eq!(
                reached,
                function.numbers(),
                "numbers reached by {function:?}"
            );
        }
        let keeping = functions.iter().filter(|function| function.keeps_points());
        self.assert_boxes_decided(&keeping.copied().collect::<Vec<_>>());
    }

    pub fn check_file(&mut self, file: &[u8]) -> u64 {
        let mut lent = Lent::new(file);
        let answer = ours::check_file(&mut lent);
        self.agree(Function::CheckFile, answer, answer, plain::check_file(file));
        self.untouched(&[&lent]);
        answer
    }

    pub fn read_header(&mut self, file: &[u8]) -> Header {
        let mut lent = Lent::new(file);
        let answer = ours::read_header(&mut lent);
        self.agree(
            Function::ReadHeader,
            answer.number,
            answer,
            plain::read_header(file),
        );
        self.untouched(&[&lent]);
        answer
    }

    pub fn vlr_step(&mut self, file: &[u8], index: u64, position: u64) -> Record {
        let mut lent = Lent::new(file);
        let answer = ours::vlr_step(&mut lent, index, position);
        let other = plain::vlr_step(file, index, position);
        self.agree(Function::VlrStep, answer.number, answer, other);
        self.untouched(&[&lent]);
        answer
    }

    pub fn point_at(&mut self, file: &[u8], index: u64) -> Point {
        let mut lent = Lent::new(file);
        let answer = ours::point_at(&mut lent, index);
        self.agree(
            Function::PointAt,
            answer.number,
            answer,
            plain::point_at(file, index),
        );
        self.untouched(&[&lent]);
        answer
    }

    pub fn decode(&mut self, format: u8, record_length: u16, bytes: &[u8]) -> Point {
        let mut lent = Lent::new(bytes);
        let answer = ours::decode(format, record_length, &mut lent);
        let other = plain::decode(format, record_length, bytes);
        self.agree(Function::Decode, answer.number, answer, other);
        self.untouched(&[&lent]);
        answer
    }

    /// Encodes into a room that held `before`; gives the number and the room.
    pub fn encode(
        &mut self,
        format: u8,
        record_length: u16,
        point: &Point,
        before: &[u8],
    ) -> (u64, Vec<u8>) {
        let mut lent = Lent::new(before);
        let answer = ours::encode(format, record_length, point, &mut lent);
        let mut room = before.to_vec();
        let other = plain::encode(format, record_length, point, &mut room);
        self.agree(Function::Encode, answer, answer, other);
        self.written(&lent, &room, answer);
        (answer, lent.content().to_vec())
    }

    pub fn coordinate(&mut self, stored: i32, scale: u64, offset: u64) -> u64 {
        let answer = ours::coordinate(stored, scale, offset);
        let other = plain::coordinate(stored, scale, offset);
        assert_eq!(
            answer, other,
            "coordinate({stored}, {scale:#x}, {offset:#x}) on {}",
            self.case
        );
        answer
    }

    pub fn check_sheet(&mut self, sheet: &[u8]) -> u64 {
        let mut lent = Lent::new(sheet);
        let answer = ours::check_sheet(&mut lent);
        self.agree(
            Function::CheckSheet,
            answer,
            answer,
            plain::check_sheet(sheet),
        );
        self.untouched(&[&lent]);
        answer
    }

    pub fn class_kept(&mut self, sheet: &[u8], class: u8) -> Kept {
        let mut lent = Lent::new(sheet);
        let answer = ours::class_kept(&mut lent, class);
        self.agree(
            Function::ClassKept,
            answer.number,
            answer,
            plain::class_kept(sheet, class),
        );
        self.untouched(&[&lent]);
        answer
    }

    pub fn class_test(&mut self, sheet: &[u8], class: u8) -> ClassLine {
        let mut lent = Lent::new(sheet);
        let answer = ours::class_test(&mut lent, class);
        self.agree(
            Function::ClassTest,
            answer.number,
            answer,
            plain::class_test(sheet, class),
        );
        self.untouched(&[&lent]);
        answer
    }

    pub fn record_kept(&mut self, sheet: &[u8], user: &[u8], record_id: u16) -> Kept {
        let (mut lent, mut lent_user) = (Lent::new(sheet), Lent::new(user));
        let answer = ours::record_kept(&mut lent, &mut lent_user, record_id);
        let other = plain::record_kept(sheet, user, record_id);
        self.agree(Function::RecordKept, answer.number, answer, other);
        self.untouched(&[&lent, &lent_user]);
        answer
    }

    /// Releases into an output that held `before`; gives the answer and the output. The second way has to give the same
    /// by a list that is just long enough.
    pub fn release(&mut self, file: &[u8], sheet: &[u8], before: &[u8]) -> (Released, Vec<u8>) {
        let (mut lent_file, mut lent_sheet) = (Lent::new(file), Lent::new(sheet));
        let mut lent_out = Lent::new(before);
        let answer = ours::release(&mut lent_file, &mut lent_sheet, &mut lent_out);
        let mut out = before.to_vec();
        let other = plain::release(file, sheet, &mut out);
        self.agree(Function::Release, answer.number, answer, other);
        self.untouched(&[&lent_file, &lent_sheet]);
        self.written(&lent_out, &out, answer.number);
        if answer.number == 0 {
            self.remember_boxes(Function::Release, file, sheet);
        }
        self.second_way(file, sheet, before, (answer, lent_out.content()));
        (answer, lent_out.content().to_vec())
    }

    /// Mends a copy of the file; gives the answer and what the copy holds then.
    pub fn mend(&mut self, file: &[u8]) -> (Mended, Vec<u8>) {
        let mut lent = Lent::new(file);
        let answer = ours::mend(&mut lent);
        let mut mended = file.to_vec();
        let other = plain::mend(&mut mended);
        self.agree(Function::Mend, answer.number, answer, other);
        self.written(&lent, &mended, answer.number);
        (answer, lent.content().to_vec())
    }

    fn agree<A: PartialEq + Debug>(&mut self, function: Function, number: u64, ours: A, plain: A) {
        assert_eq!(
            ours, plain,
            "{function:?}, ours and plain, on {}",
            self.case
        );
        self.reached.entry(function).or_default().insert(number);
    }

    fn untouched(&self, lent: &[&Lent]) {
        let all = lent.iter().all(|lent| lent.is_as_it_was());
        assert!(all, "a buffer lent for reading changed on {}", self.case);
    }

    fn written(&self, lent: &Lent, plain: &[u8], number: u64) {
        assert!(
            lent.guards_hold(),
            "a byte beside the output changed on {}",
            self.case
        );
        let refused_whole = number == 0 || lent.is_as_it_was();
        assert!(
            refused_whole,
            "a refusal changed the output on {}",
            self.case
        );
        let differs = lent
            .content()
            .iter()
            .zip(plain)
            .position(|(ours, plain)| ours != plain);
        assert_eq!(
            differs, None,
            "first byte that differs in the output on {}",
            self.case
        );
    }
}

//! Cutting lists by both sides, releases by them, and that these are the releases of the first way.

use super::{Compared, Function};
use crate::answers::{Line, Listed, Released};
use crate::cuttings;
use crate::lent::Lent;
use crate::lent_list::LentList;
use crate::{ours, plain};

/// No kept item has fewer bytes: a record of any file has 54 and more, a point 20 and more.
const SMALLEST_ITEM: usize = 20;

impl Compared {
    /// Fills a list that held `before`; gives the answer and the list.
    pub fn cutting_list(
        &mut self,
        file: &[u8],
        sheet: &[u8],
        before: &[Line],
    ) -> (Listed, Vec<Line>) {
        let (mut lent_file, mut lent_sheet) = (Lent::new(file), Lent::new(sheet));
        let mut lent = LentList::new(before);
        let answer = ours::cutting_list(&mut lent_file, &mut lent_sheet, &mut lent);
        if before.is_empty() {
            let mut nowhere = LentList::nowhere();
            let by_null = ours::cutting_list(&mut lent_file, &mut lent_sheet, &mut nowhere);
            assert_eq!(answer, by_null, "a null list on {}", self.case);
        }
        let mut list = before.to_vec();
        let other = plain::cutting_list(file, sheet, &mut list);
        self.agree(Function::CuttingList, answer.number, answer, other);
        self.untouched(&[&lent_file, &lent_sheet]);
        self.filled(file, &lent, &list, (answer.number, answer.lines));
        if answer.number == 0 {
            self.remember_boxes(Function::CuttingList, file, sheet);
        }
        (answer, lent.content())
    }

    /// Releases by the second way into an output and a list that held these; gives the answer, the output and the list.
    pub fn release_by_list(
        &mut self,
        file: &[u8],
        sheet: &[u8],
        before: &[u8],
        list_before: &[Line],
    ) -> (Released, Vec<u8>, Vec<Line>) {
        let (mut lent_file, mut lent_sheet) = (Lent::new(file), Lent::new(sheet));
        let (mut lent_out, mut lent) = (Lent::new(before), LentList::new(list_before));
        let answer =
            ours::release_by_list(&mut lent_file, &mut lent_sheet, &mut lent_out, &mut lent);
        if list_before.is_empty() {
            let (mut again, mut nowhere) = (Lent::new(before), LentList::nowhere());
            let by_null =
                ours::release_by_list(&mut lent_file, &mut lent_sheet, &mut again, &mut nowhere);
            assert_eq!(answer, by_null, "a null list on {}", self.case);
            self.written(&again, lent_out.content(), by_null.number);
        }
        let (mut out, mut list) = (before.to_vec(), list_before.to_vec());
        let other = plain::release_by_list(file, sheet, &mut out, &mut list);
        self.agree(Function::ReleaseByList, answer.number, answer, other);
        self.untouched(&[&lent_file, &lent_sheet]);
        self.written(&lent_out, &out, answer.number);
        let lines = answer.records + answer.points;
        self.filled(file, &lent, &list, (answer.number, lines));
        if answer.number == 0 {
            self.remember_boxes(Function::ReleaseByList, file, sheet);
        }
        (answer, lent_out.content().to_vec(), lent.content())
    }

    /// The second way gives the answer and the output of the first, by a list that is just long enough; what the list
    /// has is what was released.
    pub(super) fn second_way(
        &mut self,
        file: &[u8],
        sheet: &[u8],
        before: &[u8],
        first: (Released, &[u8]),
    ) {
        let enough = junk(file.len() / SMALLEST_ITEM);
        let (listed, lines) = self.cutting_list(file, sheet, &enough);
        let lines = &lines[..listed.lines as usize];
        let (answer, out, list) = self.release_by_list(file, sheet, before, &junk(lines.len()));
        let same = (answer, out.as_slice()) == first;
        assert!(
            same,
            "both ways, {answer:?} and {:?}, on {}",
            first.0, self.case
        );
        if answer.number == 0 {
            assert_eq!(list, lines, "the list of a release on {}", self.case);
            let named = cuttings::name_released(file, lines, &answer, &out);
            assert!(named, "what {lines:?} name on {}", self.case);
        }
    }

    /// The list is that of the other side, of so many lines; those behind the last and, on a refusal, all are as they
    /// were.
    fn filled(&self, file: &[u8], lent: &LentList, plain: &[Line], (number, lines): (u64, u64)) {
        let case = &self.case;
        assert!(
            lent.guards_hold(),
            "a line beside the list changed on {case}"
        );
        let refused_whole = number == 0 || lent.is_as_it_was();
        assert!(refused_whole, "a refusal changed the list on {case}");
        let (list, last) = (lent.content(), lines as usize);
        assert!(
            last <= list.len(),
            "{last} lines in a shorter list on {case}"
        );
        let behind = list[last..] == lent.before()[last..];
        assert!(behind, "a line behind the last changed on {case}");
        let differs = list
            .iter()
            .zip(plain)
            .position(|(ours, plain)| ours != plain);
        assert_eq!(
            differs, None,
            "first line that differs in the list on {case}"
        );
        if number == 0 {
            let lines = &list[..last];
            assert!(cuttings::are_sound(file, lines), "{lines:?} on {case}");
        }
    }
}

/// So many lines that no file has.
fn junk(lines: usize) -> Vec<Line> {
    let line = |index: usize| Line {
        place: u64::MAX - index as u64,
        length: !(index as u64) << 7,
    };
    (0..lines).map(line).collect()
}

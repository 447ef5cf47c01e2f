//! Both ways to release, by las_plain and by a build, each with a list of its own.

use std::cell::RefCell;

use korbishaf::sys::{las_line, las_released};

use crate::library::{Library, Lister};

/// The calls of one side. Each takes file and sheet, and some an output; the list is the side's own.
pub trait Ways {
    /// Has nothing left in the list of the call before.
    fn clear(&self);
    fn release(&self, file: &[u8], sheet: &[u8], out: &mut [u8]) -> las_released;
    /// The number of lines.
    fn cutting_list(&self, file: &[u8], sheet: &[u8]) -> u64;
    fn release_by_list(&self, file: &[u8], sheet: &[u8], out: &mut [u8]) -> las_released;
    /// What the list holds.
    fn lines(&self) -> Vec<las_line>;
}

pub struct OfBuild<'a> {
    build: &'a Library,
    lister: Lister,
    list: RefCell<Vec<las_line>>,
}

impl<'a> OfBuild<'a> {
    /// With a list of so many lines; none where the build is older than lists.
    pub fn new(build: &'a Library, lines: usize) -> Option<Self> {
        let lister = build.lister()?;
        let list = RefCell::new(vec![las_line::default(); lines]);
        Some(Self {
            build,
            lister,
            list,
        })
    }
}

impl Ways for OfBuild<'_> {
    fn clear(&self) {
        self.list.borrow_mut().fill(las_line::default());
    }

    fn release(&self, file: &[u8], sheet: &[u8], out: &mut [u8]) -> las_released {
        self.build.release(file, sheet, out)
    }

    fn cutting_list(&self, file: &[u8], sheet: &[u8]) -> u64 {
        let list = &mut self.list.borrow_mut();
        self.lister.cutting_list(file, sheet, list).lines
    }

    fn release_by_list(&self, file: &[u8], sheet: &[u8], out: &mut [u8]) -> las_released {
        let list = &mut self.list.borrow_mut();
        self.lister.release_by_list(file, sheet, out, list)
    }

    fn lines(&self) -> Vec<las_line> {
        self.list.borrow().clone()
    }
}

pub struct OfPlain {
    list: RefCell<Vec<las_plain::Line>>,
}

impl OfPlain {
    /// With a list of so many lines.
    pub fn new(lines: usize) -> Self {
        let list = RefCell::new(vec![las_plain::Line::default(); lines]);
        Self { list }
    }
}

impl Ways for OfPlain {
    fn clear(&self) {
        self.list.borrow_mut().fill(las_plain::Line::default());
    }

    fn release(&self, file: &[u8], sheet: &[u8], out: &mut [u8]) -> las_released {
        numbers(las_plain::release(file, sheet, out))
    }

    fn cutting_list(&self, file: &[u8], sheet: &[u8]) -> u64 {
        let list = &mut self.list.borrow_mut();
        las_plain::cutting_list(file, sheet, list).map_or(0, |lines| lines as u64)
    }

    fn release_by_list(&self, file: &[u8], sheet: &[u8], out: &mut [u8]) -> las_released {
        let list = &mut self.list.borrow_mut();
        numbers(las_plain::release_by_list(file, sheet, out, list))
    }

    fn lines(&self) -> Vec<las_line> {
        let line = |line: &las_plain::Line| las_line {
            place: line.place,
            length: line.length,
        };
        self.list.borrow().iter().map(line).collect()
    }
}

/// The numbers of a release; of a refusal the number alone.
fn numbers(answer: Result<las_plain::Released, las_plain::Refusal>) -> las_released {
    match answer {
        Ok(released) => las_released {
            number: 0,
            length: released.length,
            points: released.points,
            records: released.records,
        },
        Err(refusal) => las_released {
            number: refusal.number(),
            ..las_released::default()
        },
    }
}

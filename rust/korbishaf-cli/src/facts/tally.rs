//! Counts and extremes of the points.

use super::boxes::Boxes;
use super::class::{CLASSES, ClassByte, FLAGS, Flag};
use super::group::Group;
use korbishaf::{Point, Points};

/// How many points are counted before it is said how far the pass is.
const STEP: u64 = 1 << 16;

/// What one pass over the points gives.
#[derive(Debug, PartialEq, Eq)]
pub struct Tally {
    /// The number of points of each group.
    counts: [u64; Group::COUNT],
    /// The index of the first point of each group, from 0, where there is one.
    first: [u64; Group::COUNT],
    /// Which classification bytes the points in each box have.
    in_boxes: Vec<[bool; 256]>,
    /// The number of points of each return number, 0 to 7.
    pub by_return: [u64; 8],
    /// The smallest and the largest stored X, Y and Z; none without points.
    pub extremes: Option<[(i32, i32); 3]>,
}

impl Tally {
    /// The tally of these points under boxes. Now and then it is said how many were counted.
    pub fn of(points: Points<'_>, boxes: &Boxes, advance: impl Fn(u64)) -> Self {
        let mut tally = Tally {
            counts: [0; Group::COUNT],
            first: [0; Group::COUNT],
            in_boxes: vec![[false; 256]; boxes.count()],
            by_return: [0; 8],
            extremes: None,
        };
        for (counted, placed) in (0u64..).zip(points) {
            tally.add(counted, &placed.point, boxes);
            if counted % STEP == 0 {
                advance(counted);
            }
        }
        tally
    }

    /// Adds the point of that index. As a call of its own, it would make the pass take twice as long.
    #[inline(always)]
    fn add(&mut self, index: u64, point: &Point, boxes: &Boxes) {
        let (byte, stored) = (ClassByte::of(point), [point.x, point.y, point.z]);
        let outside = self.add_to_boxes(byte, stored, boxes);
        let place = Group { byte, outside }.place();
        if self.counts[place] == 0 {
            self.first[place] = index;
        }
        self.counts[place] += 1;
        self.by_return[usize::from(point.return_number & 7)] += 1;
        match &mut self.extremes {
            Some(extremes) => {
                for ((smallest, largest), stored) in extremes.iter_mut().zip(stored) {
                    *smallest = stored.min(*smallest);
                    *largest = stored.max(*largest);
                }
            }
            None => self.extremes = Some(stored.map(|stored| (stored, stored))),
        }
    }

    /// Adds a point to the boxes that it lies in, and gives whether it lies outside all.
    fn add_to_boxes(&mut self, byte: ClassByte, stored: [i32; 3], boxes: &Boxes) -> bool {
        let mut outside = boxes.count() > 0;
        for (bytes, bounds) in self.in_boxes.iter_mut().zip(boxes.iter()) {
            if bounds.hold(stored) {
                bytes[usize::from(byte.0)] = true;
                outside = false;
            }
        }
        outside
    }

    /// The groups that there are points of.
    pub fn groups(&self) -> impl Iterator<Item = Group> {
        Group::all().filter(|group| self.counts[group.place()] > 0)
    }

    /// The groups of the points in the box with that index, which is that among the boxes.
    pub fn groups_in(&self, box_index: usize) -> impl Iterator<Item = Group> {
        let bytes = self.in_boxes.get(box_index).into_iter().flatten();
        let found = (0..=255).zip(bytes).filter(|&(_, found)| *found);
        found.map(|(byte, _)| Group {
            byte: ClassByte(byte),
            outside: false,
        })
    }

    /// The number of points of such groups.
    pub fn points(&self, such: impl Fn(Group) -> bool) -> u64 {
        let found = self.groups().filter(|&group| such(group));
        found.map(|group| self.counts[group.place()]).sum()
    }

    /// The index of the first point of such groups, if there is one.
    pub fn first(&self, such: impl Fn(Group) -> bool) -> Option<u64> {
        let found = self.groups().filter(|&group| such(group));
        found.map(|group| self.first[group.place()]).min()
    }

    /// The classes of the points of such groups, with the numbers of these.
    pub fn classes<F: Fn(Group) -> bool>(
        &self,
        such: F,
    ) -> impl Iterator<Item = (u8, u64)> + Clone + use<F> {
        let mut by_class = [0; CLASSES as usize];
        for group in self.groups().filter(|&group| such(group)) {
            by_class[usize::from(group.class())] += self.counts[group.place()];
        }
        let counts = (0..CLASSES).zip(by_class);
        counts.filter(|&(_, points)| points > 0)
    }

    /// Each flag, with the number of points of such groups that have it.
    pub fn flags(&self, such: impl Fn(Group) -> bool) -> [(Flag, u64); 3] {
        FLAGS.map(|flag| (flag, self.points(|group| group.has(flag) && such(group))))
    }
}

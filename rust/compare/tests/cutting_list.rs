//! Cutting lists (E5), and releases that write from them: a line for each kept payload and point, by its place in the
//! file; 31 exactly where the list is too short; and the output and numbers of the first way wherever it is not. What
//! is due follows from the description of a file and a sheet, or is written down, so that both sides cannot share a
//! misreading.

mod cutting_list {
    mod boundary;
    mod damaged;
    mod large;
    mod order;
    mod pairs;
    mod places;
    mod point_offset;
    mod random;
    mod table;
}

//! Boxes on a sheet (E7): where any stands, a point is kept only in one of them, its faces included, besides being of a
//! kept class and not withheld. What is due follows from how places are put together, or is written down, so that both
//! sides cannot share a misreading.

mod boxes {
    mod cells;
    mod classes;
    mod extremes;
    mod faults;
    mod inside;
    mod lengths;
    mod lines;
    mod many;
    mod outside;
    mod places;
    mod random;
    mod several;
    mod table;
    mod written;
}

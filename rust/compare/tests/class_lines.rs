//! The class test: whether a line of a sheet holds a class, and the number of lines up to and with the first that does,
//! or of all if none does. What each sheet answers is known by the places of its lines, so that both sides cannot share
//! a misreading.

mod class_lines {
    mod classes;
    mod damaged;
    mod faults;
    mod many;
    mod places;
    mod random;
    mod table;
}

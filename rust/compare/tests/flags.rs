//! The flags of a classification byte: they stand apart from the class, wherever a point is read or written, and a
//! withheld point is never released. What each byte means and what each sheet keeps is written down, so that both sides
//! cannot share a misreading.

mod flags {
    mod bytes;
    mod classes;
    mod encoding;
    mod kept;
    mod mending;
    mod random;
    mod shown;
    mod table;
    mod withheld;
}

//! Text fields: the spaces at the end of a text do not count, wherever a text is read, and no other byte goes with
//! them. What each text means is written down, so that both sides cannot share a misreading.

mod texts {
    mod fields;
    mod geokeys;
    mod names;
    mod pairs;
    mod random;
    mod table;
}

//! Each number on both sides of its boundary, with the entries read beside it; none of them is left out.

use compare::compared::{Compared, Function};

use super::file_numbers::assert_file_number;
use super::{directories, values};

type Boundary = fn(&mut Compared);

const BOUNDARIES: [(u64, Boundary); 7] = [
    (40, directories::number_40),
    (41, directories::number_41),
    (42, directories::number_42),
    (43, values::number_43),
    (44, values::number_44),
    (45, values::number_45),
    (46, values::number_46),
];

#[test]
fn each_number_is_given_exactly_on_its_side_of_the_boundary_beside_its_reads() {
    let mut compared = Compared::new();
    for number in 1..=10 {
        assert_file_number(&mut compared, number);
    }
    for (number, boundary) in BOUNDARIES {
        compared.case(format!("number {number}"));
        boundary(&mut compared);
    }
    compared.assert_all_reached(&[Function::GeoKeyHalve]);
}

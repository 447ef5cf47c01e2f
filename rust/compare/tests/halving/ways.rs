//! Which entries are read, one by one: the key that is asked for, put into another entry as well, ends the search there
//! if that entry is read, and changes nothing if it is not.

use compare::compared::Compared;

use super::table::{due, file_of, found, rising, way};

/// Puts the key into each entry in turn, and asks for it. Gives how often it was read there, and how often not.
fn assert_way(compared: &mut Compared, keys: &[u16], key: u16) -> [usize; 2] {
    let (way, own) = (way(keys, key), due(keys, key));
    let mut times = [0; 2];
    for place in 0..keys.len() {
        let mut other = keys.to_vec();
        other[place] = key;
        let case = format!("{keys:?} with {key} at {place}");
        compared.case(&case);
        let answer = compared.geokey_halve(&file_of(&other), key);
        let read = way.iter().position(|&at| at == place);
        let expected = read.map_or(own, |before| found(place, before + 1));
        assert_eq!(answer, expected, "{case}");
        times[usize::from(read.is_none())] += 1;
    }
    times
}

#[test]
fn each_entry_on_the_way_to_a_key_is_read_in_its_turn_and_no_other_is() {
    let mut compared = Compared::new();
    for count in 1..=40 {
        let keys = rising(11, 2, count);
        for key in 10..=11 + 2 * count as u16 {
            let [read, passed] = assert_way(&mut compared, &keys, key);
            assert_eq!(read, way(&keys, key).len());
            assert_eq!(read + passed, count);
        }
    }
}

#[test]
fn the_ways_to_all_keys_of_seven_are_read_as_it_is_written_here() {
    let keys = [10, 20, 30, 40, 50, 60, 70];
    let ways: [(u16, &[usize]); 9] = [
        (10, &[3, 1, 0]),
        (20, &[3, 1]),
        (30, &[3, 1, 2]),
        (40, &[3]),
        (50, &[3, 5, 4]),
        (60, &[3, 5]),
        (70, &[3, 5, 6]),
        (5, &[3, 1, 0]),
        (65, &[3, 5, 6]),
    ];
    let mut compared = Compared::new();
    for (key, written) in ways {
        assert_eq!(way(&keys, key), written, "{key}");
        let times = assert_way(&mut compared, &keys, key);
        assert_eq!(times, [written.len(), 7 - written.len()]);
    }
}

//! GeoKeys looked up by halving (E6), and the entries read for them. What is due follows from the keys of a directory
//! by the words of the request, or is written down, so that both sides cannot share a misreading.

mod halving {
    mod any_entries;
    mod boundary;
    mod damaged;
    mod directories;
    mod equal_keys;
    mod file_numbers;
    mod first;
    mod largest;
    mod order;
    mod random;
    mod sizes;
    mod table;
    mod unordered;
    mod values;
    mod ways;
}

//! The names of classes in LAS 1.2.

/// The classes that LAS 1.2 names. 10, 11 and those above 12 are reserved.
const NAMES: [(u8, &str); 11] = [
    (0, "created-never-classified"),
    (1, "unclassified"),
    (2, "ground"),
    (3, "low-vegetation"),
    (4, "medium-vegetation"),
    (5, "high-vegetation"),
    (6, "building"),
    (7, "low-point"),
    (8, "model-key-point"),
    (9, "water"),
    (12, "overlap"),
];

/// The name of a class in LAS 1.2; none for those that it reserves.
///
/// ```
/// assert_eq!(korbishaf::class_name(2), Some("ground"));
/// assert_eq!(korbishaf::class_name(10), None);
/// ```
#[must_use]
pub fn class_name(class: u8) -> Option<&'static str> {
    let found = NAMES.iter().find(|&&(named, _)| named == class);
    found.map(|&(_, name)| name)
}

/// All names.
pub(super) fn all() -> impl Iterator<Item = &'static str> {
    NAMES.iter().map(|&(_, name)| name)
}

/// The class of a name in any case, with `-` or `_`.
pub(super) fn class_named(word: &[u8]) -> Option<u8> {
    let named = |&&(_, name): &&(u8, &str)| plain(word).eq(name.bytes());
    NAMES.iter().find(named).map(|&(class, _)| class)
}

/// A word in small letters with `-` for `_`, by which names are compared.
pub(super) fn plain(word: &[u8]) -> impl Iterator<Item = u8> {
    word.iter().map(|byte| match byte {
        b'_' => b'-',
        _ => byte.to_ascii_lowercase(),
    })
}

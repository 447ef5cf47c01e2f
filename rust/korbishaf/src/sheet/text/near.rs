//! Words that are nearly right.

use super::class_names::plain;

/// How many letters may be wrong, missing or too many in a word that is nearly right.
const MOST_WRONG: usize = 2;

/// A question for the candidate nearest to a word; empty where none is near.
pub(super) fn did_you_mean(
    word: &[u8],
    candidates: impl IntoIterator<Item = &'static str>,
) -> String {
    let near = candidates
        .into_iter()
        .filter(|candidate| candidate.len().abs_diff(word.len()) <= MOST_WRONG)
        .map(|candidate| (distance(word, candidate.as_bytes()), candidate))
        .filter(|(distance, _)| *distance <= MOST_WRONG)
        .min_by_key(|(distance, _)| *distance);
    near.map_or(String::new(), |(_, candidate)| {
        format!("; did you mean '{candidate}'?")
    })
}

/// How many letters have to be changed, put in or taken out to make the one of the other, whatever their case.
fn distance(word: &[u8], candidate: &[u8]) -> usize {
    // The distances of the word as far as it is read from each start of the candidate.
    let mut row: Vec<usize> = (0..=candidate.len()).collect();
    for letter in plain(word) {
        let mut diagonal = row[0];
        row[0] += 1;
        for (place, &other) in candidate.iter().enumerate() {
            let changed = diagonal + usize::from(letter != other);
            diagonal = row[place + 1];
            row[place + 1] = changed.min(row[place] + 1).min(diagonal + 1);
        }
    }
    row[candidate.len()]
}

#[cfg(test)]
mod tests {
    use super::*;

    #[test]
    fn distances() {
        for (word, candidate, wanted) in [
            ("class", "class", 0),
            ("CLASS", "class", 0),
            ("clas", "class", 1),
            ("klass", "class", 1),
            ("classes", "class", 2),
            ("recrod", "record", 2),
            ("low_vegetation", "low-vegetation", 0),
            ("", "class", 5),
        ] {
            let found = distance(word.as_bytes(), candidate.as_bytes());
            assert_eq!(found, wanted, "{word} {candidate}");
        }
    }

    #[test]
    fn only_a_near_candidate_is_asked_for() {
        let ask = |word: &str| did_you_mean(word.as_bytes(), ["class", "record"]);
        assert_eq!(ask("Clas"), "; did you mean 'class'?");
        assert_eq!(ask("rekord"), "; did you mean 'record'?");
        assert_eq!(ask("point"), "");
        assert_eq!(ask(&"class".repeat(1000)), "");
    }
}

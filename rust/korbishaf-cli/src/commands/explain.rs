//! `korbishaf explain`

use crate::arguments::Arguments;
use crate::command::Command;
use crate::console;
use crate::failure::Failure;
use crate::shown;
use korbishaf::refusal_words;

pub const COMMAND: Command = Command {
    name: "explain",
    operands: "[NUMBER]",
    count: (0, 1),
    flags: &[],
    summary: "say what the number of a refusal means, and what to do",
    details: "\
Says what the number of a refusal means and what can be done about it; without a number it lists all of
them. The numbers are the same for this tool, the library and the program las_release.
",
    run,
};

/// What can be done about each number.
const ADVICE: [(u64, &str); 30] = [
    (
        1,
        "The file is too short to have a LAS header. Was it copied whole?",
    ),
    (
        2,
        "This is no LAS file. LAZ, E57 and text files have to be converted first.",
    ),
    (
        3,
        "Files of LAS 1.0, 1.1, 1.3 and 1.4 are not taken; other tools can convert them to LAS 1.2.",
    ),
    (4, "The header is damaged, or the file was cut short."),
    (
        5,
        "LAS 1.2 has the point formats 0 to 3. A file with another one is mislabelled or damaged.",
    ),
    (
        6,
        "The header is damaged: a record of that format does not fit into the stated length.",
    ),
    (
        7,
        "The header is damaged, or the file was cut short before its points.",
    ),
    (
        8,
        "The records before the points are damaged, or the header states too many of them.",
    ),
    (
        9,
        "The file was cut short, or the header states too many points; 'korbishaf mend' sets their number right.",
    ),
    (
        10,
        "The header's scales or offsets are damaged; with these no coordinate could be trusted.",
    ),
    (
        11,
        "Indices count from 0. Only calls of the library for a single point give this number.",
    ),
    (
        12,
        "Only calls of the library for the bytes of a single point give this number.",
    ),
    (
        13,
        "Return numbers go up to 7, and classes up to 31. Only calls of the library give this number.",
    ),
    (
        18,
        "Only calls of the library for a single record give this number.",
    ),
    (
        20,
        "Every line of a sheet's bytes begins with 4B 53. Is this a sheet? 'korbishaf sheet' makes one of a text.",
    ),
    (
        21,
        "Lines of kind 1 keep classes, lines of kind 2 records, lines of kind 3 are boxes; there are no others.",
    ),
    (
        22,
        "A line of kind 1 has 5 bytes, one of kind 2 has 21, one of kind 3 has 27. \
         The sheet was cut short or has a byte too many.",
    ),
    (
        23,
        "A line of kind 1 has the lowest class first, one of kind 3 the low value before the high one on each axis.",
    ),
    (
        24,
        "A sheet has at most 64 lines, boxes among them. One line can keep a range of classes.",
    ),
    (
        30,
        "Only calls of the library give this number: the answer has the length that the output needs.",
    ),
    (
        31,
        "Only calls of the library give this number: lend as many lines as the file has records and points.",
    ),
    (
        40,
        "The file does not say where on Earth it is, or the record with that was not kept.",
    ),
    (41, "The record LASF_Projection 34735 is damaged."),
    (
        42,
        "The file's GeoKey directory has other keys: 'korbishaf show' lists them.",
    ),
    (
        43,
        "The GeoKey directory is damaged, or of a kind that LAS 1.2 does not have.",
    ),
    (
        44,
        "The GeoKey directory is damaged: a number or a double is one value.",
    ),
    (
        45,
        "A key points to the record LASF_Projection 34736 or 34737, which is not there. Keep them together.",
    ),
    (46, "The GeoKey directory or its parameters are damaged."),
    (
        50,
        "Only the program las_release gives this number; 'korbishaf release' takes files of any length.",
    ),
    (
        51,
        "Only the program las_release gives this number: look at the folder's and the files' permissions.",
    ),
];

fn run(arguments: &Arguments) -> Result<(), Failure> {
    let Some(word) = arguments.operands.first() else {
        let lines: Vec<_> = ADVICE
            .iter()
            .filter_map(|&(number, _)| line(number))
            .collect();
        return console::print(lines.concat().as_bytes());
    };
    let number = word.to_str().and_then(|word| word.parse().ok());
    match number.and_then(explained) {
        Some(text) => console::print(text.as_bytes()),
        None => Err(COMMAND.misused(&format!(
            "expected a number from 1 to 13, 18, 20 to 24, 30, 31, 40 to 46, 50 or 51, found '{}'",
            shown::name(word)
        ))),
    }
}

/// The number and its words.
fn line(number: u64) -> Option<String> {
    Some(format!("{number:2}  {}\n", refusal_words(number)?))
}

/// The number, its words, and what can be done.
fn explained(number: u64) -> Option<String> {
    let (_, advice) = ADVICE.iter().find(|(known, _)| *known == number)?;
    Some(format!(
        "refused {number}: {}\n{advice}\n",
        refusal_words(number)?
    ))
}

#[cfg(test)]
mod tests {
    use super::*;

    #[test]
    fn every_number_with_words_has_advice_and_no_other() {
        for number in 0..1000 {
            assert_eq!(
                explained(number).is_some(),
                refusal_words(number).is_some(),
                "{number}"
            );
        }
    }
}

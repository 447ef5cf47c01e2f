//! The text of an edit.

use super::{Change, WrongProgram};
use crate::files::Result;

const DIFFERS: &str = "; differs where ";

/// NAME and the rest of a line '# NAME: what is wrong'.
fn named(line: &str) -> Option<(&str, &str)> {
    let rest = line.strip_prefix("# ")?;
    let (name, what) =
        rest.split_at(rest.find(|c: char| !c.is_ascii_alphanumeric() && !"_:.+-".contains(c))?);
    let (name, what) = (name.strip_suffix(':')?, what.strip_prefix(' ')?);
    (!name.is_empty() && !what.is_empty()).then_some((name, what))
}

/// The wrong programs of an edit. A pair that stands under no name is an error: nothing would judge it.
pub fn read_edit(in_crate: &str, label: &str, text: &str) -> Result<Vec<WrongProgram>> {
    let (mut programs, mut file, mut old) = (Vec::<WrongProgram>::new(), None, None);
    for line in text.split('\n') {
        if let Some((name, rest)) = named(line) {
            let (what, differs) = rest.split_once(DIFFERS).unwrap_or((rest, ""));
            programs.push(WrongProgram {
                in_crate: in_crate.to_string(),
                label: label.to_string(),
                name: name.to_string(),
                what: what.to_string(),
                differs: differs.to_string(),
                changes: Vec::new(),
            });
        } else if let Some(rest) = line.strip_prefix("file: ") {
            file = Some(rest);
        } else if let Some(rest) = line.strip_prefix("old: ") {
            old = Some(rest.to_string());
        } else if let Some(rest) = line.strip_prefix("new:") {
            let (Some(program), Some(file), Some(old)) = (programs.last_mut(), file, old.take())
            else {
                return Err("a 'new:' with no name, no 'file:' or no 'old:' before it".to_string());
            };
            let new = rest.strip_prefix(' ').unwrap_or(rest).to_string();
            program.changes.push(Change {
                file: file.to_string(),
                old,
                new,
            });
        }
    }
    Ok(programs)
}

fn comment(program: &WrongProgram) -> String {
    let differs = if program.differs.is_empty() {
        ""
    } else {
        DIFFERS
    };
    format!(
        "# {}: {}{differs}{}",
        program.name, program.what, program.differs
    )
}

fn first_file(program: &WrongProgram) -> &str {
    program.changes.first().map_or("", |change| &change.file)
}

/// An edit's text: file by file, each wrong program under its comment.
pub fn text_of(in_crate: &str, group: &[&WrongProgram]) -> String {
    let mut lines = vec![format!(
        "# Wrong programs and statements of {in_crate}, at most one for each function or law."
    )];
    let mut last = "";
    let mut sorted = group.to_vec();
    sorted.sort_by_key(|program| first_file(program));
    for program in sorted {
        if first_file(program) != last {
            last = first_file(program);
            lines.push(format!("file: {last}"));
        }
        lines.push(comment(program));
        for change in &program.changes {
            if change.file != last {
                last = &change.file;
                lines.push(format!("file: {last}"));
            }
            lines.push(format!("old: {}", change.old));
            lines.push(if change.new.is_empty() {
                "new:".to_string()
            } else {
                format!("new: {}", change.new)
            });
        }
    }
    lines.join("\n") + "\n"
}

#[cfg(test)]
mod tests {
    use super::*;
    use crate::edits::{edits_of, programs_of};
    use crate::files;
    use std::path::Path;

    #[test]
    fn names() {
        assert_eq!(named("# a::b: what: more"), Some(("a::b", "what: more")));
        assert_eq!(named("# m::Laws.a-b: what"), Some(("m::Laws.a-b", "what")));
        assert_eq!(named("# A+u8::f: what"), Some(("A+u8::f", "what")));
        for line in [
            "# Wrong programs of a: all",
            "#a: b",
            "# a:b",
            "# : b",
            "# a: ",
            "# a",
            "old: # a: b",
        ] {
            assert_eq!(named(line), None, "{line}");
        }
    }

    #[test]
    fn programs_and_their_changes() {
        let text = "# of c.\nfile: a\n# f: one; differs where 1; differs where 2\nold:  x\nnew:  y\nold: z\nnew:\n\
            file: b\n# g: two\nold: u\nnew: v\n";
        let programs = read_edit("c", "l", text).unwrap();
        assert_eq!(programs.len(), 2);
        assert_eq!(
            (programs[0].what.as_str(), programs[0].differs.as_str()),
            ("one", "1; differs where 2")
        );
        let change = |file: &str, old: &str, new: &str| Change {
            file: file.into(),
            old: old.into(),
            new: new.into(),
        };
        assert_eq!(
            programs[0].changes,
            [change("a", " x", " y"), change("a", "z", "")]
        );
        assert_eq!(programs[1].changes, [change("b", "u", "v")]);
    }

    #[test]
    fn a_pair_without_a_name_a_file_or_an_old_text_is_an_error() {
        for text in [
            "file: a\nold: x\nnew: y",
            "# f: w\nold: x\nnew: y",
            "file: a\n# f: w\nnew: y",
        ] {
            assert!(read_edit("c", "l", text).is_err(), "{text}");
        }
        assert!(read_edit("c", "l", "file: a\n# f: w\nold: x\nnew: y\nnew: z").is_err());
    }

    #[test]
    fn what_is_read_is_written_as_it_was() {
        let root = Path::new(env!("CARGO_MANIFEST_DIR")).join("../..");
        let mut read = 0;
        for in_crate in files::crate_names(&root).unwrap() {
            let programs = programs_of(&root, &in_crate).unwrap();
            for edit in edits_of(&root, &in_crate).unwrap() {
                let label = files::name(&edit.with_extension(""));
                let own: Vec<&WrongProgram> = programs
                    .iter()
                    .filter(|program| program.label == label)
                    .collect();
                assert_eq!(
                    text_of(&in_crate, &own),
                    files::read(&root, &edit).unwrap(),
                    "{}",
                    edit.display()
                );
                read += own.len();
            }
        }
        assert!(read > 200);
    }
}

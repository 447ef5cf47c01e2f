//! What ends beyond column 120: comments, contracts and the prose of papers; and rows of their tables beyond 130.

use super::promises::PAPER;
use super::repository::Repository;
use crate::files::{self, Result};
use crate::scan;
use crate::sources::{self, Function};
use std::fs;
use std::os::unix::fs::PermissionsExt;
use std::path::Path;

const WIDTH: usize = 120;
const TABLE_WIDTH: usize = 130;
/// What cargo and git write.
const LEFT_OUT: [&str; 2] = ["target", ".git"];

/// A line that may be too wide, with its number.
type Line<'a> = (usize, &'a str);

fn columns(line: &str) -> usize {
    line.chars().count()
}

/// How a comment begins, by the file's suffix; scripts without a suffix are of the shell, and *.in are parts of a *.rt.
fn mark(suffix: &str) -> Option<&'static str> {
    match suffix {
        "rt" | "rs" | "c" | "h" | "in" => Some("//"),
        "antt" => Some("--"),
        "sh" | "py" | "" => Some("#"),
        _ => None,
    }
}

/// How a block of text begins and ends, in C and Python.
fn block(suffix: &str) -> Option<(&'static str, &'static str)> {
    match suffix {
        "c" | "h" => Some(("/*", "*/")),
        "py" => Some(("\"\"\"", "\"\"\"")),
        _ => None,
    }
}

/// What stands behind the mark of a block that begins in a line, and the code before it. In Python it begins the line:
/// behind code it is a string.
fn block_in<'a>(line: &'a str, begin: &str) -> Option<(&'a str, &'a str)> {
    let code = match begin {
        "/*" => scan::before_comment(line, begin),
        _ => "",
    };
    Some((code, line[code.len()..].trim_start().strip_prefix(begin)?))
}

/// The lines that are a comment or end in one behind code that is not too wide itself, and those of a block of text.
fn comments<'a>(text: &'a str, suffix: &str) -> Vec<Line<'a>> {
    let (mark, block) = (mark(suffix).unwrap_or("#"), block(suffix));
    let (mut found, mut inside) = (Vec::new(), false);
    for (number, line) in (1..).zip(text.lines()) {
        let in_block = block.and_then(|(begin, _)| match inside {
            true => Some(("", line)),
            false => block_in(line, begin),
        });
        let before = scan::before_comment(line, mark);
        let in_block = in_block.filter(|(code, _)| code.len() <= before.len());
        let code = in_block.map_or(before, |(code, _)| code);
        if in_block.is_some() || code != line {
            found.extend(Some((number, line)).filter(|_| columns(code) <= WIDTH));
        }
        inside = in_block
            .zip(block)
            .is_some_and(|((_, rest), (begin, end))| match rest.rsplit_once(end) {
                Some((_, behind)) => behind.contains(begin),
                None => true,
            });
    }
    found
}

/// The lines of a paper that are no code: its prose, and the rows of its tables.
fn prose_and_rows(text: &str) -> (Vec<Line<'_>>, Vec<Line<'_>>) {
    let (mut prose, mut rows, mut fenced) = (Vec::new(), Vec::new(), false);
    for (number, line) in (1..).zip(text.lines()) {
        if line.trim_start().starts_with("```") {
            fenced = !fenced;
        } else if !fenced && line.trim_start().starts_with('|') {
            rows.push((number, line));
        } else if !fenced {
            prose.push((number, line));
        }
    }
    (prose, rows)
}

/// Whether a table's row has to be narrow: docs/PROMISES.md is generated, and lists of many lines are in one row.
fn is_narrow(path: &Path, row: &str) -> bool {
    path != Path::new(PAPER) && !row.contains("<br>")
}

/// Whether a file's owner may run it.
fn runs(path: &Path) -> bool {
    fs::metadata(path).is_ok_and(|about| about.permissions().mode() & 0o100 != 0)
}

/// The wide lines of a file.
fn in_file(root: &Path, path: &Path) -> Result<Vec<String>> {
    let suffix = files::suffix(path);
    if suffix != "md" && (mark(suffix).is_none() || suffix.is_empty() && !runs(&root.join(path))) {
        return Ok(Vec::new());
    }
    let text = files::read(root, path)?;
    let wide = |kind: &str, lines: Vec<Line>, most: usize| -> Vec<String> {
        let wide = lines.into_iter().filter(|(_, line)| columns(line) > most);
        wide.map(|(number, line)| {
            let (path, width) = (path.display(), columns(line));
            format!("{path}:{number}: {kind} of {width} columns")
        })
        .collect()
    };
    if suffix != "md" {
        return Ok(wide("a comment", comments(&text, suffix), WIDTH));
    }
    let (prose, mut rows) = prose_and_rows(&text);
    rows.retain(|(_, row)| is_narrow(path, row));
    Ok([
        wide("prose", prose, WIDTH),
        wide("a table's row", rows, TABLE_WIDTH),
    ]
    .concat())
}

/// The wide lines of a function's contract.
fn in_contract(root: &Path, function: &Function) -> Result<Vec<String>> {
    let lines = files::lines(root, &function.source)?;
    let (source, name) = (function.source.display(), &function.name);
    let mut found = Vec::new();
    for clause in &function.clauses {
        for number in clause.first..=clause.last {
            let width = columns(&lines[number - 1]);
            if width > WIDTH {
                found.push(format!(
                    "{source}:{number}: `{}` of {name} of {width} columns",
                    clause.kind
                ));
            }
        }
    }
    Ok(found)
}

/// All that is too wide.
pub fn too_wide(repository: &Repository) -> Result<Vec<String>> {
    let root = &repository.root;
    let mut found = Vec::new();
    for path in files::below(root, Path::new(""), &LEFT_OUT)? {
        found.extend(in_file(root, &path)?);
    }
    for (in_crate, _) in &repository.crates {
        for function in sources::declared(root, in_crate)? {
            found.extend(in_contract(root, &function)?);
        }
    }
    Ok(found)
}

#[cfg(test)]
mod tests {
    use super::super::tests::{PROMISES, SOURCE, objections};
    use super::*;

    fn numbers(lines: Vec<Line>) -> Vec<usize> {
        lines.into_iter().map(|(number, _)| number).collect()
    }

    #[test]
    fn comments_of_each_language() {
        assert_eq!(
            numbers(comments(
                "// a\nlet b = 1; // c\nlet d = \"e://f\";\n",
                "rs"
            )),
            [1, 2]
        );
        assert_eq!(numbers(comments("a = b -- c\nd--e\n", "antt")), [1]);
        assert_eq!(
            numbers(comments("/* a\nb */\nint c; /* d\n// e\n", "c")),
            [1, 2, 3, 4]
        );
        assert_eq!(
            numbers(comments("int a; /* b */\nint c; // d\nint e;\n", "c")),
            [1, 2]
        );
        assert_eq!(
            numbers(comments(
                "int a; // b /* c\nint d;\n/* e // f */\nint g;\n",
                "c"
            )),
            [1, 3]
        );
        assert_eq!(
            numbers(comments("/* a */ int b; /* c\nd */ int e;\nint f;\n", "c")),
            [1, 2]
        );
        assert_eq!(numbers(comments("a = \"\"\"b\"\"\"\n", "py")), []);
        assert_eq!(numbers(comments("/* a */\nint b;\n", "h")), [1]);
        assert_eq!(
            numbers(comments(
                "\"\"\"a\"\"\"\nb = 1\n    \"\"\"c\n    d\n    \"\"\"\ne = 1  # f\n",
                "py"
            )),
            [1, 3, 4, 5, 6]
        );
    }

    #[test]
    fn prose_and_tables_are_no_code() {
        let (prose, rows) = prose_and_rows("a\n| b |\n```\nc\n| d |\n```\ne\n");
        assert_eq!((numbers(prose), numbers(rows)), (vec![1, 7], vec![2]));
    }

    #[test]
    fn wide_comments_and_prose_are_objected_to() {
        let (good, bad) = ("≡".repeat(118), "≡".repeat(119));
        let files = [
            "a.rs",
            "tests/b.c",
            "c.sh",
            "d.rt.in",
            "crates/c/specs/D.antt",
        ];
        for file in files {
            let mark = mark(files::suffix(Path::new(file))).unwrap();
            let fill = " ".repeat(2 - mark.len());
            let said = format!("{file}:1: a comment of 121 columns");
            assert_eq!(objections(&[(file, &format!("{mark}{fill}{bad}"))]), [said]);
            assert!(objections(&[(file, &format!("{mark}{fill}{good}"))]).is_empty());
        }
        let paper = format!("{bad}aa\n| {bad}\n{good}aa\n");
        assert_eq!(
            objections(&[("docs/A.md", &paper)]),
            ["docs/A.md:1: prose of 121 columns"]
        );
    }

    #[test]
    fn a_wide_comment_behind_code_is_objected_to() {
        let line = |length: usize| format!("int a; /* {} */\n", "b".repeat(length));
        assert!(objections(&[("a.c", &line(107))]).is_empty());
        assert_eq!(
            objections(&[("a.c", &line(108))]),
            ["a.c:1: a comment of 121 columns"]
        );
        let code = format!("int {}; /* b */\n", "a".repeat(130));
        assert!(objections(&[("a.c", &code)]).is_empty());
    }

    #[test]
    fn a_wide_row_of_a_table_is_objected_to() {
        let row = |length: usize| format!("| {} |\n", "a".repeat(length));
        let text = row(126) + &row(127) + &row(127).replace("aaaa ", "<br> ");
        assert_eq!(
            objections(&[("docs/A.md", &text)]),
            ["docs/A.md:2: a table's row of 131 columns"]
        );
        assert!(objections(&[(PAPER, &(PROMISES.to_string() + "\n" + &text))]).is_empty());
    }

    #[test]
    fn code_edits_and_built_files_may_be_wide() {
        let wide = "x".repeat(130);
        let code = format!("let a = {wide}; // b\n");
        let files = [
            ("a.rs", &code),
            ("target/a.rs", &format!("// {wide}")),
            ("crates/c/out/a.rs", &format!("// {wide}")),
            ("a.edit", &format!("# {wide}")),
        ];
        assert!(objections(&files.map(|(name, text)| (name, text.as_str()))).is_empty());
    }

    #[test]
    fn a_script_without_a_suffix_counts_where_it_can_be_run() {
        let sample = crate::sample::Sample::new(&[("tools/a", &format!("# {}", "x".repeat(119)))]);
        let path = Path::new("tools/a");
        assert!(in_file(sample.root(), path).unwrap().is_empty());
        fs::set_permissions(sample.root().join(path), fs::Permissions::from_mode(0o755)).unwrap();
        assert_eq!(
            in_file(sample.root(), path).unwrap(),
            ["tools/a:1: a comment of 121 columns"]
        );
    }

    #[test]
    fn a_wide_contract_is_objected_to() {
        let source = SOURCE.replace("next a", &format!("next\n{}", "a".repeat(121)));
        let wanted = "crates/c/src/lib.rt:4: `ensures` of f of 123 columns";
        assert_eq!(objections(&[("crates/c/src/lib.rt", &source)]), [wanted]);
    }

    #[test]
    fn a_wide_attribute_is_not_objected_to_and_a_wide_contract_of_a_trait_is() {
        let wide = "a".repeat(121);
        let attributes = format!("{SOURCE}#[tactic(auto, unfolding({wide}))]\nimpl A for B {{}}\n");
        assert!(objections(&[("crates/c/src/lib.rt", &attributes)]).is_empty());
        let asked = format!("{SOURCE}trait A {{\n    fn f()\n        ensures {{ {wide} }};\n}}\n");
        let wanted = "crates/c/src/lib.rt:9: `ensures` of f of 142 columns";
        assert_eq!(objections(&[("crates/c/src/lib.rt", &asked)]), [wanted]);
    }
}

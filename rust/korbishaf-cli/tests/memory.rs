//! How much memory the command takes: `release` and `verify` the file, the released file and at most 16 MiB, `list` the
//! file, the list and at most 16 MiB, `show`, `geokey`, `report` and `mend` the file and at most 16 MiB.
//!
//! A list takes 16 bytes for each line that it has room for. Those are as many as the file has records and points, or
//! fewer where the released file has no room for so many: a record takes at least 54 bytes of it and a point its whole
//! length, and the smaller of the two is taken for each line.

mod common;

use common::{Ran, Scratch};
use compare::damage::{POINT_COUNT, POINT_OFFSET, VLR_COUNT};
use compare::spec::{FileSpec, directory, projection};
use std::fs;
use std::io::Write;
use std::process::{Command, Stdio};

const POINTS: usize = 2_000_000;

/// A folder with a file of two million points of format 0, of which one of so many is kept: 40 MB. Gives the bytes that
/// the file and its release have, too.
fn folder(one_of: usize) -> (Scratch, usize) {
    let scratch = Scratch::new();
    let mut file = FileSpec::bare(0).bytes();
    POINT_COUNT.set(&mut file, POINTS as u64);
    for index in 0..POINTS {
        let mut point = [index as u8; 20];
        point[15] = if index % one_of == 0 { 2 } else { 5 };
        file.extend(point);
    }
    scratch.write("in.las", &file);
    scratch.write("sheet.txt", "class 2");
    let released = 227 + 20 * POINTS.div_ceil(one_of);
    (scratch, file.len() + released)
}

/// The program with these words, which may have so many bytes of memory, all of its own code and the system's included.
fn within(scratch: &Scratch, bytes: usize, words: &str) -> Command {
    let mut command = Command::new("sh");
    let script = format!("ulimit -v {}; exec \"$0\" {words}", bytes / 1024);
    command
        .args(["-c", &script, env!("CARGO_BIN_EXE_korbishaf")])
        .current_dir(scratch.path(""));
    command
}

fn release_within(scratch: &Scratch, bytes: usize, input: &str) -> Command {
    let words = format!("release -f {input} sheet.txt out.las");
    within(scratch, bytes, &words)
}

#[test]
fn a_release_takes_the_two_files_and_little_more() {
    for one_of in [1, 2, POINTS] {
        let (scratch, both) = folder(one_of);
        for input in ["in.las", "-"] {
            let mut command = release_within(&scratch, both + (16 << 20), input);
            command.stdin(fs::File::open(scratch.path("in.las")).unwrap());
            let ran = Ran::of(command.output().unwrap());
            assert_eq!(
                (ran.status, ran.err.as_str()),
                (Some(0), ""),
                "{one_of} {input}"
            );
            assert!(ran.out.starts_with("released "));
        }
    }
}

/// The length of what comes through a pipe is not known beforehand.
#[test]
fn a_pipe_takes_no_more() {
    let (scratch, both) = folder(2);
    let mut command = release_within(&scratch, both + (16 << 20), "-");
    let mut child = command
        .stdin(Stdio::piped())
        .stdout(Stdio::null())
        .stderr(Stdio::piped())
        .spawn()
        .unwrap();
    child
        .stdin
        .take()
        .unwrap()
        .write_all(&scratch.read("in.las"))
        .unwrap();
    let output = child.wait_with_output().unwrap();
    assert_eq!((output.status.code(), output.stderr), (Some(0), vec![]));
}

/// One file at a time, however many there are; each differs from its release.
#[test]
fn verify_takes_the_two_files_and_little_more() {
    let (scratch, both) = folder(2);
    let words = "verify in.las in.las in.las sheet.txt";
    let ran = Ran::of(within(&scratch, both + (16 << 20), words).output().unwrap());
    assert_eq!((ran.status, ran.err.as_str()), (Some(1), ""));
    let last = "3 files: 0 verified, 3 not verified, 0 not read\n";
    assert!(ran.out.ends_with(last), "{}", ran.out);
}

/// The bytes that `list` takes of memory for the file and for its points that go out, if that is one of so many.
fn file_and_list(one_of: usize) -> (usize, usize) {
    (227 + 20 * POINTS, 16 * POINTS.div_ceil(one_of))
}

#[test]
fn list_takes_the_file_and_the_list_and_little_more() {
    for (one_of, words) in [
        (1, "list in.las sheet.txt"),
        (1, "list --runs in.las sheet.txt"),
        (8, "list --json in.las sheet.txt"),
        (POINTS, "list in.las sheet.txt"),
    ] {
        let ((scratch, _), (file, list)) = (folder(one_of), file_and_list(one_of));
        let ran = look_within(&scratch, file + list + (16 << 20), words);
        assert_eq!(ran, (Some(0), String::new()), "{words}");
    }
}

/// Points of 300 bytes, all of which go out: by the released file's length alone there would be room for more than five
/// lines for each.
#[test]
fn a_list_of_long_points_has_no_more_room_than_points() {
    const LONG: usize = 350_000;
    let mut file = FileSpec::bare(0);
    file.record_length = 300;
    let mut file = file.bytes();
    POINT_COUNT.set(&mut file, LONG as u64);
    file.resize(227 + 300 * LONG, 0);
    lists_within(&file, "class 0", 16 * LONG);
}

/// Payloads of 60000 bytes, which would have room for three thousand points each.
#[test]
fn a_list_of_long_payloads_has_no_more_room_than_records() {
    let mut file = FileSpec::bare(0);
    file.records = vec![projection(34735, vec![1; 60_000]); 700];
    let sheet = "record LASF_Projection 34735";
    lists_within(&file.bytes(), sheet, 16 * file.records.len());
}

/// Asserts that all lists of a file take the file, so many bytes for the list and 16 MiB.
fn lists_within(file: &[u8], sheet: &str, list: usize) {
    let scratch = Scratch::new();
    scratch.write("in.las", file);
    scratch.write("sheet.txt", sheet);
    for options in ["", "--runs", "--json"] {
        let words = format!("list {options} in.las sheet.txt");
        let ran = look_within(&scratch, file.len() + list + (16 << 20), &words);
        assert_eq!(ran, (Some(0), String::new()), "{words}");
    }
}

/// However little memory there is, words say that it is too little: for the file, for the list, or beside both.
#[test]
fn a_list_without_room_is_said() {
    let ((scratch, _), (file, list)) = (folder(1), file_and_list(1));
    let short = [
        "in.las: it does not fit into memory\n",
        "a list of up to 2000000 parts does not fit into memory\n",
        "in.las: no memory is left beside it\n",
    ];
    let mut seen = [0; 3];
    for bytes in (0..16).step_by(2).map(|step| step << 20) {
        for most in [file, file + list] {
            let (status, said) =
                look_within(&scratch, most + bytes, "list --runs in.las sheet.txt");
            match short.iter().position(|words| *words == said) {
                Some(place) => {
                    assert_eq!(status, Some(3), "{said}");
                    seen[place] += 1;
                }
                None => assert_eq!((status, said), (Some(0), String::new())),
            }
        }
    }
    assert!(seen.iter().all(|&count| count > 0), "{seen:?}");
}

/// The file is mended where it was read to.
#[test]
fn mend_takes_the_file_and_little_more() {
    let (scratch, both) = folder(1);
    let words = "mend -f in.las out.las";
    let mut command = within(&scratch, both / 2 + (16 << 20), words);
    let ran = Ran::of(command.output().unwrap());
    assert_eq!((ran.status, ran.err.as_str()), (Some(0), ""));
    assert!(ran.out.starts_with("in.las: "));
    let mut command = within(&scratch, both / 2 - 1, words);
    let short = Ran::new(3, "", "in.las: it does not fit into memory\n");
    assert_eq!(Ran::of(command.output().unwrap()), short);
}

/// A second thread sets nothing aside that counts: 150 MB, of which a reserve of 64 MiB would be left for it.
#[test]
fn a_second_thread_takes_no_more() {
    let scratch = Scratch::new();
    let mut file = compare::spec::FileSpec::bare(0).bytes();
    let points = 7_500_000;
    compare::damage::POINT_COUNT.set(&mut file, points);
    scratch.write("in.las", &file);
    let length = file.len() as u64 + 20 * points;
    // points of zeros, which take no room on the disk
    fs::File::options()
        .write(true)
        .open(scratch.path("in.las"))
        .unwrap()
        .set_len(length)
        .unwrap();
    scratch.write("sheet.txt", "class 0");
    let mut command = release_within(&scratch, 2 * length as usize + (16 << 20), "in.las");
    let ran = Ran::of(command.output().unwrap());
    let line = format!("released {length} points {points} records 0\n");
    assert_eq!(ran, Ran::new(0, &line, ""));
}

#[test]
fn too_little_memory_is_said() {
    let (scratch, both) = folder(1);
    for (bytes, input, words) in [
        (
            both / 2 - 1,
            "in.las",
            "in.las: it does not fit into memory\n",
        ),
        (
            both / 2 - 1,
            "-",
            "standard input: it does not fit into memory\n",
        ),
        (
            both,
            "in.las",
            "the released file of 40000227 bytes does not fit into memory\n",
        ),
    ] {
        let mut command = release_within(&scratch, bytes, input);
        let mut child = command
            .stdin(Stdio::piped())
            .stdout(Stdio::piped())
            .stderr(Stdio::piped())
            .spawn()
            .unwrap();
        if input == "-" {
            // it may end before all is written
            let _ = child
                .stdin
                .take()
                .unwrap()
                .write_all(&scratch.read("in.las"));
        }
        assert_eq!(
            Ran::of(child.wait_with_output().unwrap()),
            Ran::new(3, "", words)
        );
    }
    assert_eq!(scratch.names(), ["in.las", "sheet.txt"]);
}

/// How `show` and `report` are tried on a file.
const LOOKS: [&str; 4] = [
    "show in.las",
    "show --json in.las",
    "report in.las sheet.txt",
    "report --json in.las sheet.txt",
];

/// Looks into a file with so much memory, and gives the status and what was said; what is printed may be long.
fn look_within(scratch: &Scratch, bytes: usize, words: &str) -> (Option<i32>, String) {
    let mut command = within(scratch, bytes, words);
    command.stdout(Stdio::null());
    let ran = Ran::of(command.output().unwrap());
    (ran.status, ran.err)
}

/// A folder with that file, and a sheet of as many lines as may be, which match nothing; the file's length too.
fn with_file(file: &[u8]) -> (Scratch, usize) {
    let scratch = Scratch::new();
    scratch.write("in.las", file);
    let lines = (0..64).map(|line| format!("record yard{line} 0\n"));
    scratch.write("sheet.txt", lines.collect::<String>());
    (scratch, file.len())
}

/// Asserts that `show` and `report` take the file and 16 MiB, and say it where there is no room for the file.
fn takes_little_beside((scratch, length): (Scratch, usize)) {
    for words in LOOKS {
        let ran = look_within(&scratch, length + (16 << 20), words);
        assert_eq!(ran, (Some(0), String::new()), "{words}");
        let ran = look_within(&scratch, length - 1, words);
        let said = "in.las: it does not fit into memory\n".to_string();
        assert_eq!(ran, (Some(3), said), "{words}");
    }
}

#[test]
fn many_points_are_looked_at_in_little_memory() {
    let (scratch, both) = folder(1);
    takes_little_beside((scratch, both / 2));
}

#[test]
fn many_records_are_looked_at_in_little_memory() {
    const RECORDS: usize = 1_000_000;
    let mut file = FileSpec::bare(0).bytes();
    file.resize(227 + 54 * RECORDS, 0);
    let length = file.len() as u64;
    POINT_OFFSET.set(&mut file, length);
    VLR_COUNT.set(&mut file, RECORDS as u64);
    takes_little_beside(with_file(&file));
}

/// The file is looked up in where it was read to.
#[test]
fn one_key_is_looked_up_in_little_memory() {
    let (scratch, both) = folder(1);
    for (bytes, status, said) in [
        (
            both / 2 + (16 << 20),
            1,
            "refused 40: there is no GeoKey directory",
        ),
        (both / 2 - 1, 3, "it does not fit into memory"),
    ] {
        let ran = look_within(&scratch, bytes, "geokey in.las 1024");
        assert_eq!(ran, (Some(status), format!("in.las: {said}\n")));
    }
}

/// Only the first of them counts.
#[test]
fn many_directories_are_looked_at_in_little_memory() {
    let mut file = FileSpec::bare(0);
    file.records = vec![projection(34735, vec![1; 65535]); 600];
    takes_little_beside(with_file(&file.bytes()));
}

/// A small file with as many keys as a directory has room for, which all have the longest text. However little memory
/// there is, words say that it is too little.
#[test]
fn many_keys_of_one_text_are_looked_at_in_little_memory() {
    let mut file = FileSpec::bare(0);
    let keys: Vec<_> = (1..=8190).map(|key| [key, 34737, 65535, 0]).collect();
    file.records = vec![
        projection(34735, directory([1, 1, 0, 8190], &keys)),
        projection(34737, vec![0xFC; 65535]),
    ];
    let (scratch, length) = with_file(&file.bytes());
    let one_key = ["geokey in.las 8190", "geokey --json in.las 1"];
    for words in LOOKS.into_iter().chain(one_key) {
        let ran = look_within(&scratch, length + (16 << 20), words);
        assert_eq!(ran, (Some(0), String::new()), "{words}");
    }
    for words in [
        "show in.las",
        "report --json in.las sheet.txt",
        "geokey in.las 8190",
    ] {
        let short = "in.las: no memory is left beside it\n".to_string();
        let mut too_little = 0;
        for mebibytes in 4..16 {
            let ran = look_within(&scratch, length + (mebibytes << 20), words);
            too_little += usize::from(ran.0 == Some(3));
            let is_right = ran == (Some(0), String::new()) || ran == (Some(3), short.clone());
            assert!(is_right, "{words}, {mebibytes}: {ran:?}");
        }
        assert!((1..12).contains(&too_little), "{words}: {too_little}");
    }
}

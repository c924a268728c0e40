//! The program `pair`, run.

use std::collections::BTreeSet;
use std::fs;
use std::os::unix::fs::PermissionsExt;
use std::path::{Path, PathBuf};
use std::process::{Command, Output};

const PAIR: &str = env!("CARGO_BIN_EXE_pair");

/// An empty directory of this name for one test, with two paths in it.
struct Room {
    directory: PathBuf,
    first: PathBuf,
    second: PathBuf,
}

impl Room {
    fn new(name: &str) -> Room {
        let directory = Path::new(env!("CARGO_TARGET_TMPDIR")).join(name);
        if directory.exists() {
            fs::remove_dir_all(&directory).unwrap();
        }
        fs::create_dir_all(&directory).unwrap();
        Room {
            first: directory.join("first"),
            second: directory.join("second"),
            directory,
        }
    }

    fn pair(&self, count: &str) -> Output {
        let mut command = Command::new(PAIR);
        command.arg(count).args([&self.first, &self.second]);
        command.output().unwrap()
    }

    fn files(&self) -> usize {
        fs::read_dir(&self.directory).unwrap().count()
    }
}

fn text(path: &Path) -> String {
    fs::read_to_string(path).unwrap()
}

/// The names of a key file's lines and their values, in order.
fn lines(text: &str) -> (Vec<&str>, Vec<&str>) {
    assert!(text.ends_with('\n'));
    let split = |line| str::rsplit_once(line, ' ').unwrap();
    text.lines().map(split).unzip()
}

/// It failed, said so on standard error alone, and left this many files.
fn assert_failed(output: &Output, room: &Room, files: usize) {
    assert_eq!(output.status.code(), Some(1));
    assert!(output.stdout.is_empty() && !output.stderr.is_empty());
    assert_eq!(room.files(), files);
}

#[test]
fn the_two_files_agree_and_have_every_line() {
    let room = Room::new("agree");
    let output = room.pair("5");
    assert!(output.status.success());
    assert!(output.stdout.is_empty() && output.stderr.is_empty());
    assert_eq!(room.files(), 2);
    let text = text(&room.first);
    assert_eq!(text.as_bytes(), fs::read(&room.second).unwrap());

    let (names, values) = lines(&text);
    let keys = ["key 0", "key 1", "key 2", "key 3", "key 4"];
    let joints = ["joint 0", "joint 1", "joint 2", "joint 3"];
    assert_eq!(names, [["root"].as_slice(), &keys, &joints].concat());
    let is_digit = |byte: u8| matches!(byte, b'0'..=b'9' | b'a'..=b'f');
    for value in &values {
        assert!(value.len() == 64 && value.bytes().all(is_digit), "{value}");
    }
    let different: BTreeSet<&str> = values.into_iter().collect();
    assert_eq!(different.len(), names.len());
}

#[test]
fn two_calls_differ_in_every_value() {
    let (one, other) = (Room::new("one"), Room::new("other"));
    assert!(one.pair("20").status.success());
    assert!(other.pair("20").status.success());
    let (one, other) = (text(&one.first), text(&other.first));
    let ((names, one), (others_names, other)) = (lines(&one), lines(&other));
    assert_eq!(names, others_names);
    assert_eq!(names.len(), 1 + 20 + 19);
    let different: BTreeSet<&str> = one.into_iter().chain(other).collect();
    assert_eq!(different.len(), 2 * names.len());
}

#[test]
fn only_the_owner_reads_them_whatever_the_mask_is() {
    for mask in ["000", "022", "077", "777"] {
        let room = Room::new(&format!("mask-{mask}"));
        let script = r#"umask "$1"; exec "$0" 2 "$2" "$3""#;
        let mut shell = Command::new("sh");
        shell.args(["-c", script, PAIR, mask]);
        shell.args([&room.first, &room.second]);
        assert!(shell.status().unwrap().success());
        for path in [&room.first, &room.second] {
            let mode = fs::metadata(path).unwrap().permissions().mode();
            assert_eq!(mode & 0o7777, 0o600, "mask {mask}");
        }
    }
}

#[test]
fn a_file_that_is_there_is_not_touched_and_none_is_made() {
    for there in ["first", "second"] {
        let room = Room::new(&format!("there-{there}"));
        let path = room.directory.join(there);
        fs::write(&path, "mine").unwrap();
        assert_failed(&room.pair("2"), &room, 1);
        assert_eq!(text(&path), "mine");
    }
}

#[test]
fn a_link_that_leads_nowhere_is_not_followed() {
    let room = Room::new("nowhere");
    let target = room.directory.join("target");
    std::os::unix::fs::symlink(&target, &room.second).unwrap();
    assert_failed(&room.pair("2"), &room, 1);
    assert!(!target.exists());
}

#[test]
fn one_path_twice_makes_nothing() {
    let mut room = Room::new("twice");
    room.second = room.first.clone();
    assert_failed(&room.pair("2"), &room, 0);
}

#[test]
fn a_path_that_cannot_be_made_makes_nothing() {
    let mut room = Room::new("no-directory");
    room.second = room.directory.join("none").join("second");
    assert_failed(&room.pair("2"), &room, 0);
}

#[test]
fn bad_arguments_make_nothing() {
    let room = Room::new("arguments");
    for count in ["", "0", "1", "1000001", "-2", "+2", "two"] {
        assert_failed(&room.pair(count), &room, 0);
    }
    let (first, second) = (room.first.as_os_str(), room.second.as_os_str());
    let two = "2".as_ref();
    for arguments in [
        vec![],
        vec![two],
        vec![two, first],
        vec![two, first, second, second],
    ] {
        let output = Command::new(PAIR).args(arguments).output().unwrap();
        assert_failed(&output, &room, 0);
    }
}

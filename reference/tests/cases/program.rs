//! Runs of the built program.

use crate::help::*;
use crate::stats::FRESH;
use std::fs;
use std::io::Write;
use std::path::PathBuf;
use std::process::{Command, Output, Stdio};

/// An empty folder of its own for each test.
fn folder(name: &str) -> PathBuf {
    let path = PathBuf::from(env!("CARGO_TARGET_TMPDIR")).join(name);
    let _ = fs::remove_dir_all(&path);
    fs::create_dir_all(&path).unwrap();
    path
}

fn program() -> Command {
    Command::new(env!("CARGO_BIN_EXE_reference"))
}

fn text(bytes: &[u8]) -> String {
    String::from_utf8(bytes.to_vec()).unwrap()
}

fn serve_files(requests: &PathBuf, table: &PathBuf) -> Output {
    program()
        .arg("serve")
        .arg(requests)
        .arg(table)
        .output()
        .unwrap()
}

/// Gives the input to a command and returns what it prints.
fn cases(words: &[&str], input: &str) -> String {
    let mut child = program()
        .args(words)
        .stdin(Stdio::piped())
        .stdout(Stdio::piped())
        .spawn()
        .unwrap();
    child
        .stdin
        .take()
        .unwrap()
        .write_all(input.as_bytes())
        .unwrap();
    text(&child.wait_with_output().unwrap().stdout)
}

#[test]
fn serves_a_file_from_a_fresh_table() {
    let folder = folder("fresh");
    let requests = folder.join("requests");
    fs::write(&requests, FIVE_REQUESTS).unwrap();
    let output = program().arg("serve").arg(&requests).output().unwrap();
    assert_eq!(text(&output.stdout), FIVE_REPLIES);
    assert_eq!(text(&output.stderr), "");
    assert!(output.status.success());
}

#[test]
fn stores_the_table_and_goes_on_from_it() {
    let folder = folder("table");
    let requests = folder.join("requests");
    let table = folder.join("table");
    fs::write(&requests, FIVE_REQUESTS).unwrap();
    let output = serve_files(&requests, &table);
    assert_eq!(text(&output.stdout), FIVE_REPLIES);
    assert_eq!(fs::read_to_string(&table).unwrap(), FIVE_STORED);
    let output = serve_files(&requests, &table);
    assert!(text(&output.stdout).contains("a18001120000000000000000000203496461"));
    assert!(fs::read_to_string(&table)
        .unwrap()
        .starts_with("010000000000000002\n"));
    assert_eq!(fs::read_dir(&folder).unwrap().count(), 2);
}

#[test]
fn an_empty_file_of_requests_stores_a_fresh_table() {
    let folder = folder("empty");
    let requests = folder.join("requests");
    let table = folder.join("table");
    fs::write(&requests, "").unwrap();
    let output = serve_files(&requests, &table);
    assert_eq!(text(&output.stdout), "");
    assert_eq!(fs::read_to_string(&table).unwrap(), "010000000000000000\n");
}

#[test]
fn a_broken_table_is_17_and_stays() {
    let folder = folder("broken");
    let requests = folder.join("requests");
    let table = folder.join("table");
    fs::write(&requests, FIVE_REQUESTS).unwrap();
    let long = FIVE_STORED.to_string() + &"0".repeat(200_000);
    for broken in ["", "01", "010000000000000000", "\n", &long] {
        fs::write(&table, broken).unwrap();
        let output = serve_files(&requests, &table);
        assert_eq!(text(&output.stdout), "");
        assert!(text(&output.stderr).starts_with("refused 17\n"));
        assert!(!output.status.success());
        assert_eq!(fs::read_to_string(&table).unwrap(), broken);
    }
    assert_eq!(fs::read_dir(&folder).unwrap().count(), 2);
}

#[test]
fn a_table_that_cannot_be_read_is_not_taken_for_a_fresh_one() {
    let folder = folder("unreadable");
    let requests = folder.join("requests");
    let table = folder.join("table");
    fs::write(&requests, FIVE_REQUESTS).unwrap();
    fs::create_dir(&table).unwrap();
    let output = serve_files(&requests, &table);
    assert_eq!(text(&output.stdout), "");
    assert!(!output.status.success());
    assert!(table.is_dir());
}

#[test]
fn missing_requests_leave_the_table_alone() {
    let folder = folder("missing");
    let table = folder.join("table");
    fs::write(&table, FIVE_STORED).unwrap();
    let output = serve_files(&folder.join("none"), &table);
    assert!(!output.status.success());
    assert_eq!(text(&output.stdout), "");
    assert_eq!(fs::read_to_string(&table).unwrap(), FIVE_STORED);
}

#[test]
fn number_cases() {
    let input = "00\n\n80\n8001\nffffffff10\nzz\n0";
    let expected = "whole 0 1\nmore\nmore\nwhole 128 2\nrefused 5\nnot a case\nnot a case\n";
    assert_eq!(cases(&["number", "5"], input), expected);
    assert_eq!(
        cases(&["number", "9"], "8000\nffffffff10\n"),
        "refused 2\nwhole 4563402751 5\n"
    );
    let input = "0\n128\n9223372036854775807\n9223372036854775808\n-1\n";
    let expected = "00\n8001\nffffffffffffffff7f\nrefused 16\nnot a case\n";
    assert_eq!(cases(&["write-number"], input), expected);
}

#[test]
fn text_and_length_cases() {
    assert_eq!(cases(&["text"], "\nc3\nc3a9\n"), "text\nno text\ntext\n");
    let input = "00\n024142ff\n03\n04\n8000\n";
    let expected = "whole  1\nwhole 4142 3\nmore\nrefused 6\nrefused 5\n";
    assert_eq!(cases(&["limited", "3"], input), expected);
    assert_eq!(
        cases(&["limited-text", "3"], "01c3\n0141\n"),
        "refused 7\nwhole 41 2\n"
    );
    let input = "0000000000000001\n00\n";
    assert_eq!(cases(&["version"], input), "whole 1 8\nmore\n");
}

#[test]
fn message_cases() {
    let input = "a0020a010000010000026231640003496461\na0\na1\n";
    let expected = "whole 18 id=2 version=10 operation=1 name= flags=0 intelligence=1 topology=0 \
                    key=6231 lifespan=100 max_idle=0 entry_version=0 value=496461\nmore\nrefused 1\n";
    assert_eq!(cases(&["request"], input), expected);
    let input = "a18001120000000000000000000103496461\na10050810009626164206d61676963\n\n";
    let expected = "whole 18 id=128 operation=18 status=0 version=1 value=496461 text=\n\
                    whole 15 id=0 operation=80 status=129 version=0 value= text=626164206d61676963\n\
                    more\n";
    assert_eq!(cases(&["reply", "12", "11", "0"], input), expected);
    assert_eq!(cases(&["reply", "12", "1b", "0"], "\n"), "refused 4\n");
    let input = format!("{}\n", FRESH.replace(' ', ""));
    let expected = "whole 137 id=1 operation=22 status=0 version=0 value= text= \
                    statistics=[0, 0, 0, 0, 0, 0, 0, 0, 0]\n";
    assert_eq!(cases(&["reply", "12", "15", "0"], &input), expected);
    assert_eq!(
        cases(&["reply", "12", "01", "1"], "a10102000000\n"),
        "whole 6 id=1 operation=2 status=0 version=0 value= text=\n"
    );
}

#[test]
fn bulk_message_cases() {
    let input = "a0020c1d000001000002\na0020c1d000001000003\n";
    let expected = "whole 10 id=2 version=12 operation=29 name= flags=0 intelligence=1 topology=0 \
                    key= lifespan=0 max_idle=0 entry_version=0 value= bulk=2\nrefused 8\n";
    assert_eq!(cases(&["request"], input), expected);
    let input = "a1011a000001026231034964610100000\na1011a0000010262310349646101000000\n";
    let expected = "not a case\nwhole 17 id=1 operation=26 status=0 version=0 value= text= \
                    entries=2 6231:496461 :\n";
    assert_eq!(cases(&["reply", "12", "19", "0"], input), expected);
    let input = "a1011e000000\n";
    let expected = "whole 6 id=1 operation=30 status=0 version=0 value= text= entries=0\n";
    assert_eq!(cases(&["reply", "12", "1d", "0"], input), expected);
}

#[test]
fn wrong_words_give_the_usage() {
    for words in [
        &[][..],
        &["number", "6"],
        &["reply", "12", "01", "2"],
        &["serve"],
        &["limited", "x"],
    ] {
        let output = program().args(words).output().unwrap();
        assert!(!output.status.success());
        assert!(text(&output.stderr).starts_with("usage:"));
    }
}

#[test]
fn lists_the_keys_of_a_stored_table() {
    let path = folder("sheet").join("table");
    let stored = "010000000000000003\n\
                  00000000000000010000000000000000026231 03496461\n\
                  000000000000000200000000000000000161 00\n";
    fs::write(&path, stored.replace(' ', "")).unwrap();
    let sheet = |words: &[&str]| {
        let output = program()
            .arg("sheet")
            .arg(&path)
            .args(words)
            .output()
            .unwrap();
        (text(&output.stdout), text(&output.stderr))
    };
    let said = |line: &str| (line.to_string(), String::new());
    assert_eq!(sheet(&[]), said("0101610102623100\n"));
    assert_eq!(sheet(&["", "a\u{1}"]), said("0102623100\n"));
    assert_eq!(sheet(&["", "b1", "9"]), said("0102623100\n"));
    assert_eq!(sheet(&["", "", "1"]), said("01016100\n"));
    assert_eq!(sheet(&["", "", "0"]), said("00\n"));
    assert_eq!(
        sheet(&["cafe"]),
        (
            String::new(),
            "refused 9\nThe keys are not listed.\n".to_string()
        )
    );
    assert!(sheet(&["", "", "01"]).1.starts_with("usage"));
    fs::write(&path, "01\n").unwrap();
    assert_eq!(
        sheet(&[]),
        (
            String::new(),
            "refused 17\nThe keys are not listed.\n".to_string()
        )
    );
}

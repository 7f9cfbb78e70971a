//! The command line over shipped streams: its lines against crates/test_vectors/stdout, which a reading of document 01 in Python made. Its messages and real .pdb
//! files are tested by `tools/test-pdb.sh`.
mod common;

use common::folder;
use std::fs;
use std::process::{Command, Output};

fn yokberd(words: &[&str]) -> Output {
    Command::new(env!("CARGO_BIN_EXE_yokberd")).args(words).output().unwrap()
}

fn streams(name: &str) -> [String; 2] {
    ["types", "ids"].map(|kind| folder("crates/test_vectors/data").join(format!("{name}-{kind}.bin")).display().to_string())
}

// The lines of a section of the expected output in columns: index, refusal, detail, text.
fn section(name: &str, title: &str) -> Vec<String> {
    let expected = fs::read(folder("crates/test_vectors/stdout")).unwrap();
    let expected = String::from_utf8_lossy(&expected).into_owned();
    let part = expected.split("== ").find(|part| part.starts_with(&format!("{name}\n"))).unwrap();
    let lines = part.lines().skip_while(|line| *line != title).skip(1);
    let columns = lines.take_while(|line| line.starts_with("0x")).map(|line| line.splitn(4, ' ').collect::<Vec<_>>().join("\t"));
    columns.map(|line| line.replace('\\', "\\\\").trim_end_matches('\t').to_string()).collect()
}

#[test]
fn every_id_type_and_size() {
    let flags = "NO_MEMBER_FUNCTION_STATIC,SPACE_AFTER_COMMA,SPACE_BEFORE_POINTER,NAME_ONLY";
    for name in ["overloads", "methods", "fnptrs", "arrays", "merged"] {
        let [types, ids] = streams(name);
        for (what, title) in [("ids", "ids flags 0x1e"), ("types", "types flags 0x1e"), ("sizes", "sizes")] {
            let mut words = vec![what, "--types", &types, "--ids", &ids, "--flags", flags, "--tsv"];
            words.extend((what == "ids").then_some("--all"));
            let output = yokberd(&words);
            assert!(output.status.success() && output.stderr.is_empty());
            let lines: Vec<_> = String::from_utf8(output.stdout).unwrap().lines().map(|line| line.trim_end_matches('\t').to_string()).collect();
            assert_eq!(lines, section(name, title), "{what} of {name}");
        }
    }
}

#[test]
fn only_functions_where_all_are_not_asked_for() {
    let [types, ids] = streams("overloads");
    let output = yokberd(&["ids", "--types", &types, "--ids", &ids]);
    let kinds = common::record_kinds(&fs::read(ids).unwrap());
    assert_eq!(output.stdout.iter().filter(|byte| **byte == b'\n').count(), kinds.iter().filter(|kind| matches!(kind, 0x1601 | 0x1602)).count());
    assert!(output.stdout.starts_with(b"0x1001  loom::advance(float)\n0x1002  loom::advance(int)\n"));
}

#[test]
fn statuses() {
    let [types, ids] = streams("overloads");
    let status = |words: &[&str]| {
        let output = yokberd(words);
        (output.status.code(), output.stdout.is_empty(), output.stderr.iter().filter(|byte| **byte == b'\n').count())
    };
    assert_eq!(status(&["ids", "--types", &types, "--ids", &ids, "--index", "0x80001001"]), (Some(0), false, 0), "a refused index");
    assert_eq!(status(&["ids", "--types", &ids, "--ids", &types]), (Some(1), true, 1), "exchanged streams");
    assert_eq!(status(&["ids", &types]), (Some(1), true, 1), "a stream in place of a .pdb file");
    assert_eq!(status(&["ids", "--types", &types, "--ids", "/dev/null"]), (Some(0), true, 1), "no ids, which is said");
    assert_eq!(status(&["ids", "--types", &types, "--ids", "/dev/null", "--index", "0x1001"]), (Some(0), false, 0), "a missing id");
    assert_eq!(status(&["ids", "--types", &ids, "--ids", "/dev/null", "--index", "0x1001"]), (Some(1), true, 1), "ids as types");
    assert_eq!(status(&["ids", "--types", &types, "--ids", &ids, "--pointer-size", "5"]), (Some(2), true, 1), "a bad pointer size");
}

// The functions of the program in docs/FROM-A-PDB.md, as it is written there, in the order of their ids. Their texts by hand: const behind its type, no results.
#[test]
fn shipped_pdb() {
    let done = yokberd(&["ids", &folder("rust/examples/reel.pdb").display().to_string()]);
    let expected = [
        "0x1003  reel::Player::Player(int)",
        "0x1004  reel::Player::seek(reel::Frame const&)",
        "0x1005  reel::Player::seek(int)",
        "0x1006  reel::Player::at(int) const",
        "0x1007  reel::Player::count()",
        "0x1009  reel::each(reel::Player&, void (*)(reel::Frame const*, int))",
        "0x100a  start()",
        "0x100b  visit(reel::Frame const*, int)",
    ];
    assert_eq!(String::from_utf8(done.stdout).unwrap().lines().collect::<Vec<_>>(), expected);
    assert_eq!((done.status.code(), done.stderr), (Some(0), Vec::new()));
}

//! The example program, as a process.

use std::env;
use std::path::PathBuf;
use std::process::{Command, Output};

/// `cargo test` builds the examples beside the folder of the tests.
fn run(arguments: &[&str]) -> Output {
    let tests = env::current_exe().expect("the path of this test");
    let built: PathBuf = tests.ancestors().nth(2).expect("the folder of the build").join("examples/before_upload");
    Command::new(&built).args(arguments).output().unwrap_or_else(|error| panic!("{}: {error}", built.display()))
}

fn text(bytes: &[u8]) -> &str {
    std::str::from_utf8(bytes).expect("text")
}

#[test]
fn over_the_examples() {
    let output = run(&[concat!(env!("CARGO_MANIFEST_DIR"), "/../../examples")]);
    assert_eq!(
        text(&output.stdout),
        "horse.section: ok 13\n\
         horse_cut.section: refused 21: the tag chains differ from those that follow from the bones: \
         the game would not find each bone by its tag\n\
         sections: 2, refused: 1\n"
    );
    assert_eq!(output.status.code(), Some(1));
}

#[test]
fn a_wrong_call() {
    assert_eq!(run(&[]).status.code(), Some(2));
    let output = run(&["no such folder"]);
    assert_eq!(output.status.code(), Some(2));
    assert!(text(&output.stderr).starts_with("before_upload: no such folder: "));
    let output = run(&[concat!(env!("CARGO_MANIFEST_DIR"), "/src")]);
    assert_eq!(output.status.code(), Some(2));
    assert!(text(&output.stderr).ends_with("no .section files\n"));
}

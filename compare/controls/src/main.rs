//! The trial cases and the controls: the fields of `crates/format/specs/TrialCases.antt` and `crates/*/specs/*Controls.antt`, each
//! value computed anew.
//!
//!     controls                   prints them as they stand in the specs, and whence each value comes
//!     controls --hold CRATES     compares them with the specs in that folder: a line for each that differs, and status 1

mod check;
mod control;
mod deriving;
mod float;
mod hold;
mod joints;
mod lent;
mod program;
mod reading;
mod rows;
mod section;
mod sheet;
mod term;
mod trial;
mod writing;

use std::path::Path;
use std::process::ExitCode;

fn main() -> ExitCode {
    let sheets = [
        trial::sheet(),
        float::sheet(),
        control::sheet(),
        reading::sheet(),
        deriving::sheet(),
        writing::sheet(),
        check::sheet(),
        joints::sheet(),
        rows::sheet(),
        program::sheet(),
    ];
    let words: Vec<String> = std::env::args().skip(1).collect();
    match &words[..] {
        [] => sheets.iter().for_each(|sheet| sheet.print()),
        [word, crates] if word == "--hold" => return hold::hold(Path::new(crates), &sheets),
        _ => {
            eprintln!("controls: no words, or --hold CRATES");
            return ExitCode::from(2);
        }
    }
    ExitCode::SUCCESS
}

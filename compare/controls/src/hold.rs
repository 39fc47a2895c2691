//! The sheets against the specs: each line stands in its file just so, but for the form of numbers and the breaks of
//! lines, and each field of a record of controls has a line.

use crate::section::control;
use crate::sheet::{Sheet, Source};
use std::collections::BTreeMap;
use std::path::Path;
use std::process::ExitCode;

/// Fields by their names, and definitions by theirs.
#[derive(Default)]
struct Spec {
    fields: BTreeMap<String, String>,
    definitions: BTreeMap<String, String>,
}

pub fn hold(crates: &Path, sheets: &[Sheet]) -> ExitCode {
    let (mut lines, mut complaints) = (0, Vec::new());
    for sheet in sheets {
        let mut spec = match std::fs::read_to_string(crates.join(sheet.file)) {
            Ok(text) => spec(&text),
            Err(e) => {
                complaints.push(format!("{}: {e}", sheet.file));
                continue;
            }
        };
        for line in &sheet.lines {
            let held = if line.source == Source::Named { &mut spec.definitions } else { &mut spec.fields };
            let stands = held.remove(&line.name);
            lines += 1;
            if stands.as_deref().map(words) != Some(words(&line.term)) {
                let stands = stands.unwrap_or("nothing".into());
                complaints.push(format!("{}: {} must be {}, and is {}", sheet.file, line.name, line.term, stands.trim()));
            }
        }
        complaints.extend(spec.fields.into_keys().map(|name| format!("{}: {name} is computed nowhere", sheet.file)));
    }
    complaints.extend(strangers(crates, sheets));
    complaints.extend(section(crates));
    complaints.iter().for_each(|c| eprintln!("controls: {c}"));
    if complaints.is_empty() {
        println!("controls: {lines} lines of the specs are what the published Rust and docs/FORMAT.md give");
        return ExitCode::SUCCESS;
    }
    ExitCode::FAILURE
}

/// Records of controls that no sheet has.
fn strangers(crates: &Path, sheets: &[Sheet]) -> Vec<String> {
    let folders = std::fs::read_dir(crates).into_iter().flatten().flatten().map(|entry| entry.path().join("specs"));
    let files = folders.flat_map(|folder| std::fs::read_dir(folder).into_iter().flatten().flatten()).map(|entry| entry.path());
    let controls = files.filter(|path| path.to_string_lossy().ends_with("Controls.antt"));
    let unknown = controls.filter(|path| !sheets.iter().any(|sheet| path.ends_with(sheet.file)));
    unknown.map(|path| format!("{}: no sheet computes it", path.display())).collect()
}

/// The words of `ControlSection` are those that the published writer lays.
fn section(crates: &Path) -> Option<String> {
    let file = "format/specs/ControlSection.antt";
    let text = std::fs::read_to_string(crates.join(file)).unwrap_or_default();
    let code: String = text.lines().filter(|line| !line.starts_with("--")).map(|line| format!("{line}\n")).collect();
    let words = words(&code);
    let listed: Vec<&String> = words.windows(2).filter(|pair| pair[1] == "∷" && pair[0] != "_").map(|pair| &pair[0]).collect();
    let bytes = control(&[]).system;
    let laid: Vec<String> = bytes.chunks(4).map(|b| u32::from_le_bytes(b.try_into().expect("four bytes")).to_string()).collect();
    let differs = (0..laid.len().max(listed.len())).find(|&i| laid.get(i) != listed.get(i).copied());
    differs.map(|i| format!("{file}: word {i} must be {:?}, and is {:?}", laid.get(i), listed.get(i)))
}

/// The fields of the file's record, `pub NAME : TERM`, and its definitions, `NAME = TERM`, each with the lines that continue it. The
/// name of a function has its parameters behind it.
fn spec(text: &str) -> Spec {
    let mut spec = Spec::default();
    let mut last: Option<&mut String> = None;
    let mut in_record = false;
    for line in text.lines() {
        if line.trim_start().starts_with("--") || line.trim().is_empty() {
            last = None;
        } else if line.starts_with("pub record") {
            (in_record, last) = (true, None);
        } else if let Some((name, term)) = field(line).filter(|_| in_record) {
            last = Some(spec.fields.entry(name.into()).or_insert(term.into()));
        } else if let Some((name, term)) = line.split_once(" =").filter(|(name, _)| !name.starts_with(' ')) {
            in_record = false;
            last = Some(spec.definitions.entry(name.into()).or_insert(term.into()));
        } else if line.starts_with(' ') {
            if let Some(term) = &mut last {
                term.push(' ');
                term.push_str(line);
            }
        } else {
            (in_record, last) = (false, None);
        }
    }
    spec
}

fn field(line: &str) -> Option<(&str, &str)> {
    line.strip_prefix("  pub ")?.split_once(" :")
}

/// The words of a term, numbers in decimal.
fn words(term: &str) -> Vec<String> {
    let spaced: String = term.chars().flat_map(|c| if "(){};,".contains(c) { vec![' ', c, ' '] } else { vec![c] }).collect();
    spaced.split_whitespace().map(|word| decimal(word).map_or(word.into(), |n| n.to_string())).collect()
}

fn decimal(word: &str) -> Option<u64> {
    let digits = word.replace('_', "");
    match digits.strip_prefix("0x") {
        Some(hex) => u64::from_str_radix(hex, 16).ok(),
        None => digits.parse().ok(),
    }
}

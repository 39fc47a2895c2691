//! What an exporter does before upload: checks every `.section` file of a folder.
//!
//!     cargo run --example before_upload -- FOLDER
//!
//! Prints a line for each file, by name, and a summary. The status is 0 where all are accepted, 1 where one is refused, and 2 where
//! the folder or a file cannot be read. A file is a system section whose skeleton stands at its start.

#![forbid(unsafe_code)]

use rig::{check, Checked, SYSTEM_BASE};
use std::io::{self, Write};
use std::path::{Path, PathBuf};
use std::process::ExitCode;
use std::{env, fs};

fn main() -> ExitCode {
    let mut arguments = env::args_os().skip(1);
    let (Some(folder), None) = (arguments.next(), arguments.next()) else {
        eprintln!("usage: before_upload FOLDER");
        return ExitCode::from(2);
    };
    match report(Path::new(&folder), &mut io::stdout().lock()) {
        Ok(0) => ExitCode::SUCCESS,
        Ok(_) => ExitCode::from(1),
        Err(error) => {
            eprintln!("before_upload: {error}");
            ExitCode::from(2)
        }
    }
}

/// Prints the lines, and gives the number of sections that are refused.
fn report(folder: &Path, out: &mut impl Write) -> io::Result<usize> {
    let files = sections(folder).map_err(|error| naming(folder, error))?;
    let mut refused = 0;
    for file in &files {
        let bytes = fs::read(file).map_err(|error| naming(file, error))?;
        let name = file.file_name().unwrap_or_default().to_string_lossy();
        match check(&bytes, &[], SYSTEM_BASE) {
            Ok(Checked::Accepted { bones }) => writeln!(out, "{name}: ok {bones}")?,
            Ok(Checked::NoSkeleton) => writeln!(out, "{name}: no skeleton")?,
            Err(refusal) => {
                refused += 1;
                writeln!(out, "{name}: {refusal}")?;
            }
        }
    }
    writeln!(out, "sections: {}, refused: {refused}", files.len())?;
    Ok(refused)
}

/// The `.section` files of a folder, by name. A folder without any is most likely not the one that was meant.
fn sections(folder: &Path) -> io::Result<Vec<PathBuf>> {
    let mut files = Vec::new();
    for entry in fs::read_dir(folder)? {
        let path = entry?.path();
        if path.extension().is_some_and(|extension| extension == "section") {
            files.push(path);
        }
    }
    if files.is_empty() {
        return Err(io::Error::new(io::ErrorKind::NotFound, "no .section files"));
    }
    files.sort();
    Ok(files)
}

fn naming(path: &Path, error: io::Error) -> io::Error {
    io::Error::new(error.kind(), format!("{}: {error}", path.display()))
}

//! A sheet has the controls of one file of the specs.

/// Where a value comes from.
#[derive(Clone, Copy, Debug, PartialEq, Eq)]
pub enum Source {
    /// A published function gives it.
    Published,
    /// docs/FORMAT.md's text over published functions: check, lookup, search, and a reading in few rows.
    Joined,
    /// docs/FORMAT.md's text alone: the sizes of the tables for deriving, the words of rows, the order of the writers' refusals, the
    /// program's tables and what it prints.
    Text,
    /// Names what other lines are about, and has no value.
    Named,
}

/// A field of the record, or a definition.
pub struct Line {
    pub name: String,
    pub term: String,
    pub source: Source,
}

pub struct Sheet {
    /// CRATE/specs/FILE.antt
    pub file: &'static str,
    pub lines: Vec<Line>,
}

impl Sheet {
    pub fn new(file: &'static str) -> Self {
        Sheet { file, lines: Vec::new() }
    }

    /// A definition of the file that other lines name.
    pub fn define(&mut self, name: &str, term: String) {
        self.add(name, Source::Named, term);
    }

    pub fn published(&mut self, name: &str, left: impl AsRef<str>, right: impl AsRef<str>) {
        self.equation(name, Source::Published, left.as_ref(), right.as_ref());
    }

    pub fn joined(&mut self, name: &str, left: impl AsRef<str>, right: impl AsRef<str>) {
        self.equation(name, Source::Joined, left.as_ref(), right.as_ref());
    }

    pub fn text(&mut self, name: &str, left: impl AsRef<str>, right: impl AsRef<str>) {
        self.equation(name, Source::Text, left.as_ref(), right.as_ref());
    }

    fn equation(&mut self, name: &str, source: Source, left: &str, right: &str) {
        self.add(name, source, format!("{left} ≡ {right}"));
    }

    /// A line in the words of its file.
    pub fn add(&mut self, name: &str, source: Source, term: String) {
        self.lines.push(Line { name: name.into(), term, source });
    }

    pub fn print(&self) {
        println!("-- {}", self.file);
        for Line { name, term, source } in &self.lines {
            match source {
                Source::Named => println!("{name} = {term}"),
                Source::Published => println!("  pub {name} : {term} -- published"),
                Source::Joined => println!("  pub {name} : {term} -- joined"),
                Source::Text => println!("  pub {name} : {term} -- text"),
            }
        }
    }
}

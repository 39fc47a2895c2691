//! Times our library and the published Rust on the same inputs, in one run, and prints a table in Markdown. Words name the
//! groups to be timed: deriving, skeletons, hostile, checks, joints, hash; none is all. `profile` makes one call of ours alone.

mod checks;
mod derive;
mod hostile;
mod lent;
mod parts;
mod profile;
mod rigs;
mod skeletons;
mod small;
mod timing;

use std::process::ExitCode;
use timing::Table;

const HEAD: &str = "\
Each time is the median of so many calls, the two sides in turn. Our tables are lent and dirty; the Rust makes its lists inside
the call, and what drops them is not timed. \"Of the least\" is the ratio of the least times, which a busy machine disturbs less.
";

const NOTES: &str = "
Sections have a name of 4 to 20 letters for each bone. The longest chain that can be written has 8,192 bones; the others are
nobody's children. The Rust writes by `from_bones`, our placing and `Block::write`. Two rows leave deriving aside: ours is the time
of writing less that of the three derivations, called in turn with it on the same tables. \"Deriving aside\" is the same job on both
sides: the Rust places blocks that were derived beforehand, and writes them. \"Against placed blocks\": the Rust's is `Block::write`
alone; ours still tests and measures the names and finds the places.

What is counted in addresses is the reading of sections without bones whose entries lie where our search of the pool, whose constants
are known, looks at the most rows; each is made for the pool that it is read with. The Rust's pool is a `HashMap`.

A check is timed with a pool half full, against the Rust's reading and its three derivations from the bones read, without any
comparison. A lookup finds the tag of a bone in the section's bytes; the Rust's side is `get` of a `HashMap<u16, u32>` made before.
Limits in a call each are so many calls of ours, and on the Rust's side `Pod::read` into a list, or `Pod::write` with one `Writer`.

Left out: the Rust on bones of one index (memory with the square of the count), and its indices and matrices of a chain of 65,535
bones. Parents are signed: that chain is one of 32,769 bones, and then roots.
";

fn main() -> ExitCode {
    let words: Vec<String> = std::env::args().skip(1).collect();
    let load = || std::fs::read_to_string("/proc/loadavg").unwrap_or_else(|_| "unknown\n".into());
    print!("load before: {}", load());
    let result = match words.split_first() {
        Some((word, rest)) if word == "profile" => profile::run(rest),
        _ => run(&words),
    };
    print!("\nload after: {}", load());
    match result {
        Ok(()) => ExitCode::SUCCESS,
        Err(e) => {
            eprintln!("bench: FAILED: {e}");
            ExitCode::FAILURE
        }
    }
}

fn run(words: &[String]) -> Result<(), String> {
    if !link::LINKED {
        return Err("built without librig.a; start with compare/run --bench".into());
    }
    println!("{HEAD}");
    let wanted = |group: &str| words.is_empty() || words.iter().any(|word| word == group);
    let table = Table::begin();
    if let Some(library) = link::derive().filter(|_| wanted("deriving")) {
        derive::buckets(&table, library);
        derive::rigs(&table, library);
        derive::one_index(&table, library)?;
    }
    if let (Some(library), Some(derive)) = (link::skeletons().filter(|_| wanted("skeletons")), link::derive()) {
        skeletons::rigs(&table, library, derive);
    }
    if let Some(library) = link::skeletons().filter(|_| wanted("hostile")) {
        hostile::sections(&table, library);
    }
    if let Some(library) = link::checks().filter(|_| wanted("checks")) {
        checks::rigs(&table, library);
    }
    if let Some(library) = link::joints().filter(|_| wanted("joints")) {
        small::joints(&table, library);
    }
    if let Some(library) = link::hash().filter(|_| wanted("hash")) {
        small::hash(&table, library);
    }
    table.end();
    print!("{NOTES}");
    let groups = [
        ("deriving", link::derive().is_some()),
        ("skeletons", link::skeletons().is_some()),
        ("hostile", link::skeletons().is_some()),
        ("checks", link::checks().is_some()),
        ("joints", link::joints().is_some()),
        ("hash", link::hash().is_some()),
    ];
    for (group, _) in groups.iter().filter(|(_, present)| !present) {
        println!("Left out: {group}, which librig.a does not export.");
    }
    Ok(())
}

//! Which sections are checked, looked up and searched.

use super::check::{self, CheckInput, Judged, TABLES};
use super::ends::ENDS;
use super::hand;
use super::lookup::{all_tags, LookupInput};
use super::search::SearchInput;
use super::{check_label, Runs};
use crate::difference::Difference;
use crate::extent::Extent;
use crate::hash::hash_of;
use crate::share::share;
use crate::tally::{refusal, Tally};
use cases::records::skeleton;
use cases::rigs::{broad, rig_of};
use cases::scattered::scattered;
use cases::trial::rig_of_chain;
use cases::{damaged, good, Rng, Section};
use link::DONE;
use oracle::{write, Bone, Verdict};

pub fn run(runs: Runs, extent: Extent, threads: u64) -> Result<Tally, Difference> {
    let mut tally = Tally::default();
    runs.sizes(&mut tally, extent)?;
    runs.orders(&mut tally)?;
    runs.by_hand(&mut tally)?;
    if extent > Extent::Test {
        runs.one_index(&mut tally);
    }
    let cut = extent.of([1, 10, 400]);
    tally.merge(&share(runs.seed, cut, threads, |tally, seed| runs.with(seed).truncations(tally))?);
    let accepted = extent.of([10, 400, 20_000]);
    tally.merge(&share(runs.seed, accepted, threads, |tally, seed| runs.with(seed).good(tally))?);
    let sections = extent.of([2_500, 100_000, 5_000_000]);
    tally.merge(&share(runs.seed, sections, threads, |tally, seed| runs.with(seed).damaged(tally))?);
    Ok(tally)
}

/// The most bones with which each table is tried in each length.
const FEW: usize = 800;

impl Runs<'_> {
    /// Sections of the counts at which the format turns: each table exact, a row short, a word short and longer; each list
    /// changed at its last item.
    fn sizes(self, tally: &mut Tally, extent: Extent) -> Result<(), Difference> {
        let mut rng = Rng::new(self.seed);
        let mut rigs: Vec<Vec<Bone>> = [0, 1, 2, 11].map(|n| rig_of(&mut rng, n)).to_vec();
        if extent > Extent::Test {
            rigs.push(rig_of(&mut rng, FEW));
            rigs.extend([10_000, 65_535].map(|n| broad(&mut rng, n, 100)));
        }
        for bones in rigs {
            let mut sections = vec![Section::written(write(&bones, [1, 2, 3, 4]).section())];
            if bones.len() <= FEW {
                sections.push(scattered(&mut rng, &bones, [5, 6, 7, 8]));
            }
            for section in sections {
                let (exact, judged) = CheckInput::exact(section.clone(), rng.next());
                assert_eq!(self.check(tally, &exact, &judged)?.count, bones.len(), "a good section is accepted");
                self.every_tag(tally, "good", &section, &judged)?;
                let lengths = |table| match bones.len() {
                    0..=FEW => vec![-(check::width(table) as isize), -1, 1],
                    ..=10_000 => vec![-(check::width(table) as isize)],
                    _ if extent == Extent::Long => vec![-1],
                    _ => Vec::new(),
                };
                for (table, words) in (0..TABLES).flat_map(|table| lengths(table).into_iter().map(move |words| (table, words))) {
                    self.check(tally, &exact.with(table, words), &judged)?;
                }
                if bones.len() <= FEW || extent == Extent::Long {
                    self.ends(tally, &section)?;
                }
            }
        }
        Ok(())
    }

    /// Each list changed at its last item.
    fn ends(self, tally: &mut Tally, section: &Section) -> Result<(), Difference> {
        // every list stands
        if skeleton::POINTERS.iter().any(|&list| section.pointer(list) == 0) {
            return Ok(());
        }
        for (number, change) in ENDS {
            let mut changed = section.clone();
            change(&mut changed);
            let (exact, judged) = CheckInput::exact(changed, self.seed);
            assert_eq!(judged.verdict, Some(Verdict::Refused(number)), "a list changed at its last item");
            self.check(tally, &exact, &judged)?;
            tally.count("check, at the last item", refusal(number));
        }
        Ok(())
    }

    /// All choices of changes, with tables for deriving that are long enough and not: 1 goes first, then 21 to 25.
    fn orders(self, tally: &mut Tally) -> Result<(), Difference> {
        let good = Section::written(write(&rig_of_chain(11), [0; 4]).section());
        for chosen in 0..1 << ENDS.len() {
            let holding: Vec<_> = (0..ENDS.len()).filter(|c| chosen >> c & 1 == 1).map(|c| ENDS[c]).collect();
            let mut changed = good.clone();
            holding.iter().for_each(|(_, change)| change(&mut changed));
            let (exact, judged) = CheckInput::exact(changed, self.seed);
            let first = holding.first().map_or(DONE, |&(number, _)| number as u32);
            for (input, number) in [(exact.with(8 + chosen % 7, -1), 1), (exact, first)] {
                let answer = self.check(tally, &input, &judged)?;
                assert_eq!(answer.status, number, "the first of the numbers that hold");
                tally.count("check, order of", check_label(number));
            }
        }
        Ok(())
    }

    /// Sections laid for single questions.
    fn by_hand(self, tally: &mut Tally) -> Result<(), Difference> {
        for section in hand::checked() {
            let (exact, judged) = CheckInput::exact(section, self.seed);
            self.check(tally, &exact, &judged)?;
        }
        for section in hand::chains() {
            (0..hand::TAGS).try_for_each(|tag| self.lookup(tally, &LookupInput { section: section.clone(), tag }))?;
        }
        let (exact, judged) = CheckInput::exact(hand::bound_tags(), self.seed);
        self.check(tally, &exact, &judged)?;
        self.every_tag(tally, "good", &exact.read.section, &judged)
    }

    /// 65,535 bones of one index, ours alone.
    fn one_index(self, tally: &mut Tally) {
        let (exact, judged) = CheckInput::judged(hand::one_index(), self.seed, |_| Verdict::Refused(23));
        assert!(check::ours(self.library, &exact) == judged.lent(&exact), "the check of 65,535 bones of one index");
        tally.count("check, ours alone", "23");
    }

    /// Every truncation of either half of a good section.
    fn truncations(self, tally: &mut Tally) -> Result<(), Difference> {
        let whole = good(&mut Rng::new(self.seed)).1;
        for (i, section) in whole.truncations().enumerate() {
            let (exact, judged) = CheckInput::exact(section.clone(), self.seed);
            self.check(tally, &exact, &judged)?;
            self.lookup(tally, &LookupInput { section, tag: i as u16 % 48 })?;
        }
        Ok(())
    }

    /// A good section: every tag, and the hash of every name.
    fn good(self, tally: &mut Tally) -> Result<(), Difference> {
        let (bones, section) = good(&mut Rng::new(self.seed));
        let (exact, judged) = CheckInput::exact(section.clone(), self.seed);
        assert_eq!(self.check(tally, &exact, &judged)?.count, bones.len(), "a good section is accepted");
        self.every_tag(tally, "good", &section, &judged)?;
        for name in bones.iter().filter_map(|b| b.name.as_ref()) {
            let input = SearchInput { read: exact.read.clone(), key: hash_of(name) };
            assert_eq!(self.search(tally, &input, &judged.reading)?.status, DONE, "a name that is there is found");
        }
        Ok(())
    }

    /// Every tag in an accepted section.
    fn every_tag(self, tally: &mut Tally, of: &'static str, section: &Section, judged: &Judged) -> Result<(), Difference> {
        tally.count("lookup of all tags", of);
        match all_tags(self.library, section, judged.bones()) {
            Some((tag, known)) => self.lookup_known(&LookupInput { section: section.clone(), tag }, known).map(drop),
            None => Ok(()),
        }
    }

    /// A damaged section in tables of just the rows that it uses and in others; one tag and one key, and now and then all
    /// tags of an accepted one.
    fn damaged(self, tally: &mut Tally) -> Result<(), Difference> {
        // a generator that draws otherwise than the section's
        let mut rng = Rng::new(!self.seed);
        let section = damaged(self.seed).section;
        let (exact, judged) = CheckInput::exact(section.clone(), rng.next());
        let accepted = self.check(tally, &exact, &judged)?.status == DONE;
        let (table, other) = otherwise(&mut rng, &exact);
        if self.check(tally, &other, &judged)?.status == 1 {
            tally.count("check, too short", check::name(table));
            if let Some(verdict) = judged.verdict.filter(|_| table >= 8) {
                tally.count("check, 1 before", if let Verdict::Refused(number) = verdict { refusal(number) } else { "ok" });
            }
        }
        let key = key(&mut rng, judged.bones());
        let read = if rng.one_in(4) { other.read } else { exact.read };
        self.search(tally, &SearchInput { read, key }, &judged.reading)?;
        if accepted && rng.one_in(50) {
            self.every_tag(tally, "damaged and accepted", &section, &judged)?;
        }
        let tag = if rng.one_in(3) { rng.below(48) as u16 } else { one_of(&mut rng, judged.bones()).map_or(0, |b| b.tag) };
        self.lookup(tally, &LookupInput { section, tag })
    }
}

/// The tables longer, or the table given a row or a word short.
fn otherwise(rng: &mut Rng, exact: &CheckInput) -> (usize, CheckInput) {
    let table = rng.below(TABLES);
    let input = match rng.below(4) {
        0 => (0..TABLES).fold(exact.clone(), |input, table| input.with(table, rng.below(30) as isize)),
        1 => exact.with(table, -1),
        _ => exact.with(table, -(check::width(table) as isize)),
    };
    (table, input)
}

fn one_of<'a>(rng: &mut Rng, bones: &'a [Bone]) -> Option<&'a Bone> {
    bones.get(rng.below(bones.len()))
}

/// The hash of a bone's name, of a name that is mended, of no bytes, or any.
fn key(rng: &mut Rng, bones: &[Bone]) -> u32 {
    let name = one_of(rng, bones).and_then(|b| b.name.as_deref()).unwrap_or(&[]);
    match rng.below(8) {
        0 => 0,
        1 => rng.next() as u32,
        2 => hash_of(String::from_utf8_lossy(name).as_bytes()),
        _ => hash_of(name),
    }
}

//! Seeds and other items shared among threads. What is given is the same however many there are.

use crate::tally::Tally;
use std::panic::resume_unwind;
use std::sync::atomic::{AtomicUsize, Ordering};
use std::thread;

/// Runs `one` on each of `count` seeds from `seed` on, shared among `threads`, and joins the tallies.
pub fn share<E: Send>(
    seed: u64,
    count: u64,
    threads: u64,
    one: impl Fn(&mut Tally, u64) -> Result<(), E> + Sync,
) -> Result<Tally, E> {
    let parts = workers(threads, |first| {
        let mut tally = Tally::default();
        (first..count).step_by(threads as usize).try_for_each(|i| one(&mut tally, seed + i))?;
        Ok(tally)
    })?;
    Ok(joined(&parts))
}

/// The same on each of the items.
pub fn share_items<I: Sync, E: Send>(
    items: &[I],
    threads: u64,
    one: impl Fn(&mut Tally, &I) -> Result<(), E> + Sync,
) -> Result<Tally, E> {
    let parts = each(items, threads, |item| {
        let mut tally = Tally::default();
        one(&mut tally, item).map(|()| tally)
    })?;
    Ok(joined(&parts))
}

fn joined(parts: &[Tally]) -> Tally {
    let mut all = Tally::default();
    parts.iter().for_each(|part| all.merge(part));
    all
}

/// What `one` gives for each item, in their order. A thread takes the next one when it is done with the last.
pub fn each<I: Sync, W: Send, E: Send>(items: &[I], threads: u64, one: impl Fn(&I) -> Result<W, E> + Sync) -> Result<Vec<W>, E> {
    let next = AtomicUsize::new(0);
    let parts = workers(threads, |_| {
        let taken = std::iter::repeat_with(|| next.fetch_add(1, Ordering::Relaxed)).take_while(|&i| i < items.len());
        taken.map(|i| Ok((i, one(&items[i])?))).collect::<Result<Vec<_>, E>>()
    })?;
    let mut given: Vec<(usize, W)> = parts.into_iter().flatten().collect();
    given.sort_by_key(|&(i, _)| i);
    Ok(given.into_iter().map(|(_, given)| given).collect())
}

/// What each of so many threads gives, by its number.
pub fn workers<W: Send, E: Send>(threads: u64, work: impl Fn(u64) -> Result<W, E> + Sync) -> Result<Vec<W>, E> {
    thread::scope(|scope| {
        let work = &work;
        let parts: Vec<_> = (0..threads).map(|number| scope.spawn(move || work(number))).collect();
        parts.into_iter().map(|part| part.join().unwrap_or_else(|panic| resume_unwind(panic))).collect()
    })
}

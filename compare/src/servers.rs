//! The proved server against the plain one: what they tell, and how long they take.

use crate::generator::Numbers;
use crate::playing::{bytes_of, counts, plain, proved, Call, Counts, Site};
use crate::scripts::{day, large_site, random_calls, random_site};
use std::time::{Duration, Instant};

/// How many calls of the day's script are measured at once, at least.
const MEASURED: u64 = 1_000_000;

/// Whether both robots and the plain server answer the calls alike.
fn is_alike(site: &Site, calls: &[Call]) -> bool {
    let script = bytes_of(calls);
    let expected = plain(site, &script, 1);
    proved(site, false, &script, 1) == expected && proved(site, true, &script, 1) == expected
}

fn compare_calls(site: &Site, calls: &[Call]) -> Result<(), String> {
    if is_alike(site, calls) {
        return Ok(());
    }
    let first = (1..=calls.len()).find(|n| !is_alike(site, &calls[..*n])).unwrap_or(calls.len());
    Err(format!("call {first} of {:02X?}", &calls[..first]))
}

/// Random calls to random sites.
pub fn compare(sites: usize) -> Result<(), String> {
    let mut g = Numbers::new(4);
    let mut told = Counts::default();
    for _ in 0..sites {
        let site = random_site(&mut g);
        let calls = random_calls(&mut g, 100);
        compare_calls(&site, &calls)?;
        let now = counts(&site, &bytes_of(&calls));
        told.statuses.iter_mut().zip(now.statuses).for_each(|(sum, n)| *sum += n);
        told.refusals.iter_mut().zip(now.refusals).for_each(|(sum, n)| *sum += n);
    }
    let (statuses, refusals) = (told.statuses, told.refusals);
    // A buffer is never short, so no call is refused by 1.
    if statuses.contains(&0) || refusals[2..].contains(&0) {
        return Err(format!("a status or refusal never told: {statuses:?} {refusals:?}"));
    }
    println!("{sites} sites with 100 calls each served alike, by status 0 to 25: {statuses:?}; calls by refusal 0 to 8: {refusals:?}");
    Ok(())
}

fn median(mut times: Vec<Duration>) -> f64 {
    times.sort();
    times[times.len() / 2].as_secs_f64()
}

/// Runs of the one and of the other take turns, and of each the median counts.
pub fn measure(runs: usize) -> Result<(), String> {
    let site = large_site();
    let script = bytes_of(&day());
    let once = plain(&site, &script, 1).calls;
    let rounds = MEASURED.div_ceil(once) as u32;
    let (mut ours, mut theirs) = (Vec::new(), Vec::new());
    for _ in 0..runs {
        let start = Instant::now();
        let a = proved(&site, false, &script, rounds);
        ours.push(start.elapsed());
        let start = Instant::now();
        let b = plain(&site, &script, rounds);
        theirs.push(start.elapsed());
        if a != b {
            return Err(format!("the day's script, {rounds} rounds: {a:?} and {b:?}"));
        }
    }
    let (a, b) = (median(ours), median(theirs));
    let nanoseconds = 1e9 / (u64::from(rounds) * once) as f64;
    println!("{rounds} rounds of {once} calls over 256 places served alike");
    println!("time of the proved server over that of the plain one: {:.2}", a / b);
    println!("  {:.0} ns and {:.0} ns a call", a * nanoseconds, b * nanoseconds);
    Ok(())
}

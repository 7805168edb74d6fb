//! Compares the proved static libraries with an implementation of its own.
//!
//! `compare COUNT` compares COUNT packets read and COUNT packets written, then the servers, and ends
//! with status 1 at the first difference. `compare COUNT ratio` also measures reader and writer, and
//! the servers longer.

mod bay;
mod generator;
mod library;
mod packets;
mod playing;
mod scripts;
mod server;
mod servers;

use generator::Numbers;
use packets::Values;
use std::hint::black_box;
use std::process::ExitCode;
use std::time::{Duration, Instant};

/// The bytes around a buffer, which no writer may touch.
const AROUND: usize = 8;

/// The longest buffer.
const MOST: usize = 32;

fn compare_read(packet: &[u8], told: &mut [u64; 7]) -> Result<(), String> {
    let ours = library::check(packet).verdict();
    let theirs = packets::check(packet);
    if ours != Some(theirs) {
        return Err(format!("packet {packet:02X?}: {ours:?} and {theirs:?}"));
    }
    told[theirs.status as usize] += 1;
    Ok(())
}

fn compare_write(g: &mut Numbers, told: &mut [u64; 7]) -> Result<(), String> {
    let (map, values) = generator::values(g);
    let length = if g.below(4) == 0 { g.below(MOST + 1) } else { 15 + g.below(4) };
    let mut ours: [u8; AROUND + MOST + AROUND] = std::array::from_fn(|_| g.byte());
    let mut theirs = ours;
    let part = AROUND..AROUND + length;
    let a = library::write(&mut ours[part.clone()], map, &values);
    let b = packets::write(&mut theirs[part], map, &values);
    if (a.status, a.length) != b || ours != theirs {
        let a = (a.status, a.length);
        return Err(format!("map {map:02X}, {values:?}, buffer of {length}: {a:?} {ours:02X?} and {b:?} {theirs:02X?}"));
    }
    if b.0 == 0 && library::check(&ours[AROUND..AROUND + b.1]).status != 0 {
        return Err(format!("map {map:02X}, {values:?}: written, and refused by the check"));
    }
    told[b.0 as usize] += 1;
    Ok(())
}

fn compare(count: usize) -> Result<(), String> {
    let mut g = Numbers::new(1);
    let (mut read, mut written) = ([0; 7], [0; 7]);
    let mut lengths = [0u64; 32];
    for i in 0..count {
        let packet = generator::packet(&mut g, i);
        lengths[packet.len()] += 1;
        compare_read(&packet, &mut read)?;
        compare_write(&mut g, &mut written)?;
    }
    if let Some(n) = (0..=20).find(|n| lengths[*n] == 0) {
        return Err(format!("no packet of {n} bytes"));
    }
    if read.contains(&0) || (2..=6).any(|s| written[s] == 0) {
        return Err(format!("a status never told: {read:?} {written:?}"));
    }
    println!("{count} packets read alike, by status 0 to 6: {read:?}");
    println!("{count} packets written alike, by status 0 to 6: {written:?}");
    Ok(())
}

/// Packets one behind the other, so that neither side waits for memory more than the other.
struct Load {
    bytes: Vec<u8>,
    ends: Vec<usize>,
    values: Vec<(u8, Values)>,
}

impl Load {
    fn new(count: usize) -> Load {
        let mut g = Numbers::new(2);
        let mut load = Load { bytes: Vec::new(), ends: Vec::new(), values: Vec::new() };
        for i in 0..count {
            load.bytes.extend(generator::packet(&mut g, i));
            load.ends.push(load.bytes.len());
            load.values.push(generator::values(&mut g));
        }
        load
    }

    fn read_by<T>(&self, check: impl Fn(&[u8]) -> T) -> Duration {
        let start = Instant::now();
        let mut from = 0;
        for end in &self.ends {
            black_box(check(black_box(&self.bytes[from..*end])));
            from = *end;
        }
        start.elapsed()
    }

    fn write_by<T>(&self, write: impl Fn(&mut [u8], u8, &Values) -> T) -> Duration {
        let mut buffer = [0; MOST];
        let start = Instant::now();
        for (map, values) in &self.values {
            black_box(write(black_box(&mut buffer), *map, black_box(values)));
        }
        start.elapsed()
    }
}

/// Rounds of ours and of theirs by turns; of each the shortest counts, since a machine that does
/// other work besides makes a round longer and never shorter.
fn shortest(rounds: usize, ours: impl Fn() -> Duration, theirs: impl Fn() -> Duration) -> (f64, f64) {
    let (mut a, mut b) = (Duration::MAX, Duration::MAX);
    for _ in 0..rounds {
        a = a.min(ours());
        b = b.min(theirs());
    }
    (a.as_secs_f64(), b.as_secs_f64())
}

fn measure() {
    let load = Load::new(100_000);
    let (a, b) = shortest(60, || load.read_by(library::check), || load.read_by(packets::check));
    let (c, d) = shortest(60, || load.write_by(library::write), || load.write_by(packets::write));
    println!("time of the proved library over that of the plain Rust:");
    println!("  reader {:.2}", a / b);
    println!("  writer {:.2}", c / d);
    println!("  both   {:.2}", (a + c) / (b + d));
}

fn run(count: usize, at_length: bool) -> Result<(), String> {
    compare(count)?;
    servers::compare(if at_length { 50_000 } else { 3_000 })?;
    servers::measure(if at_length { 31 } else { 5 })?;
    if at_length {
        measure();
    }
    Ok(())
}

fn main() -> ExitCode {
    let words: Vec<String> = std::env::args().skip(1).collect();
    let count = words.first().and_then(|w| w.parse().ok());
    let Some(count) = count else {
        eprintln!("compare COUNT [ratio]");
        return ExitCode::from(2);
    };
    if let Err(difference) = run(count, words.get(1).is_some_and(|w| w == "ratio")) {
        eprintln!("they differ: {difference}");
        return ExitCode::from(1);
    }
    ExitCode::SUCCESS
}

//! A plain Rust program that does what `dc429 survey` does, written as a Rust programmer would write it: std alone, buffered input,
//! a line split at its spaces, `println!` for each line. It is the yardstick of run.sh, and no part of the product.
//! usage: survey_peer LIST < capture      where LIST is what made.py prints of the tables
mod listed;
use listed::Tables;
use std::io::{self, BufWriter, Write};

#[derive(Default, Clone)]
struct Pace { words: u64, last: u64, least: Option<u64>, greatest: Option<u64>, over: u64, next: u128, jitter: u128, early: Option<u64> }
#[derive(Default, Clone)]
struct Wire { words: u64, last: u64, least: Option<u64>, broken: Option<u64>, parity: u64, undeclared: u64 }

fn shown(number: Option<u64>) -> String {
    number.map_or("-".to_string(), |number| number.to_string())
}

fn main() -> io::Result<()> {
    let tables = Tables::read(&std::env::args().nth(1).expect("a list of tables"))?;
    let names = tables.names();
    let mut wires = vec![Wire::default(); tables.buses.len()];
    let mut paces = vec![Pace::default(); tables.streams.len()];
    let mut input = io::BufReader::with_capacity(64 * 1024, io::stdin().lock());
    let (mut line, mut number, mut latest) = (String::new(), 0, 0);
    let fault = loop {
        let Some(read) = listed::next(&mut input, &mut line, &names, latest)? else { break None };
        number += 1;
        let word = match read {
            Ok(word) => word,
            Err(code) => break Some(code),
        };
        latest = word.time;
        let (bus, wire) = (&tables.buses[word.bus], &mut wires[word.bus]);
        if word.word.count_ones() % 2 == 0 {
            wire.parity += 1;
            continue;
        }
        let Some(&(_, _, stream)) = bus.streams.iter().find(|s| s.0 == word.word as u8 && s.1.is_none_or(|sdi| sdi == word.word >> 8 & 3)) else {
            wire.undeclared += 1;
            continue;
        };
        if wire.words > 0 {
            let gap = word.time - wire.last;
            wire.least = Some(wire.least.map_or(gap, |least| least.min(gap)));
            if gap < bus.spacing && wire.broken.is_none() {
                wire.broken = Some(number);
            }
        }
        wire.words += 1;
        wire.last = word.time;
        let (row, pace) = (&tables.streams[stream], &mut paces[stream]);
        if pace.words > 0 {
            let gap = word.time - pace.last;
            pace.least = Some(pace.least.map_or(gap, |least| least.min(gap)));
            pace.greatest = Some(pace.greatest.map_or(gap, |greatest| greatest.max(gap)));
            pace.over += u64::from(gap > row.most);
        }
        let late = pace.next.saturating_sub(u128::from(word.time));
        pace.jitter = pace.jitter.max(late);
        if late > u128::from(row.jitter) && pace.early.is_none() {
            pace.early = Some(number);
        }
        pace.words += 1;
        pace.last = word.time;
        pace.next = pace.next.max(u128::from(word.time)) + u128::from(row.least);
    };
    let mut out = BufWriter::new(io::stdout().lock());
    let mut broken = false;
    for (bus, wire) in tables.buses.iter().zip(&wires) {
        write!(out, "bus {} words {} parity {} undeclared {} spacing {} ", bus.name, wire.words, wire.parity, wire.undeclared, shown(wire.least))?;
        match wire.broken {
            _ if bus.police => writeln!(out, "policed")?,
            Some(line) => { broken = true; writeln!(out, "broken at {line}")? }
            None => writeln!(out, "kept")?,
        }
    }
    for (row, pace) in tables.streams.iter().zip(&paces) {
        write!(out, "stream {} words {} least {} greatest {} jitter {} over {} ", row.name, pace.words, shown(pace.least), shown(pace.greatest), pace.jitter, pace.over)?;
        match pace.early {
            Some(line) => { broken |= !tables.buses[row.bus].police; writeln!(out, "early at {line}")? }
            None if pace.words == 0 => writeln!(out, "silent")?,
            None => writeln!(out, "kept")?,
        }
    }
    if let Some(code) = fault {
        writeln!(out, "unreadable {code} at line {number}")?;
    }
    out.flush()?;
    std::process::exit(if fault.is_some() { 2 } else { i32::from(broken) })
}

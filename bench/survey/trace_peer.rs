//! A plain Rust program that does what `dc429 trace` does, written as a Rust programmer would write it: std alone, buffered input, a
//! line split at its spaces, `writeln!` for each line. It is the yardstick of run.sh, and no part of the product.
//! usage: trace_peer LIST [FROM] < capture      where LIST is what made.py prints of the tables
mod listed;
use listed::Tables;
use std::io::{self, BufWriter, Write};

/// The steps of a tick of the steady run, and its end.
fn end_tick(out: &mut impl Write, tables: &Tables, tick: u64) -> io::Result<()> {
    for (name, most) in &tables.routers {
        for _ in 0..*most {
            writeln!(out, "R {name}")?;
        }
    }
    for (name, gap) in &tables.outputs {
        if tick % gap == 0 {
            writeln!(out, "S {name}")?;
        }
    }
    writeln!(out, "T")
}

fn main() -> io::Result<()> {
    let mut arguments = std::env::args().skip(1);
    let tables = Tables::read(&arguments.next().expect("a list of tables"))?;
    let mut from: Option<u64> = arguments.next().map(|from| from.parse().expect("a time"));
    let names = tables.names();
    let mut out = BufWriter::with_capacity(64 * 1024, io::stdout().lock());
    let mut input = io::BufReader::with_capacity(64 * 1024, io::stdin().lock());
    let (mut line, mut number, mut latest, mut tick) = (String::new(), 0, from.unwrap_or(0), None);
    let fault = loop {
        let Some(read) = listed::next(&mut input, &mut line, &names, latest)? else { break None };
        number += 1;
        let word = match read {
            Ok(word) => word,
            Err(code) => break Some(code),
        };
        latest = word.time;
        let wanted = (word.time - *from.get_or_insert(word.time)) / tables.tick;
        let mut running = tick.unwrap_or(0);
        while running < wanted {
            end_tick(&mut out, &tables, running)?;
            running += 1;
        }
        tick = Some(running);
        writeln!(out, "A {} {:08X}", tables.buses[word.bus].name, word.word)?;
    };
    if let Some(tick) = tick {
        end_tick(&mut out, &tables, tick)?;
    }
    if let Some(code) = fault {
        writeln!(out, "unreadable {code} at line {number}")?;
    }
    out.flush()?;
    std::process::exit(if fault.is_some() { 2 } else { 0 })
}

//! A plain Rust program that reads the same traces into the same events: std alone, one line buffer, names in maps.
use std::collections::HashMap;
use std::io::{self, BufRead};
use std::time::Instant;

enum Event {
    Tick,
    Arrive(usize, u32),
    Route(usize),
    Send(usize),
}

fn word(text: &[u8]) -> Option<u32> {
    let text = std::str::from_utf8(text).ok()?;
    if text.len() != 8 || !text.bytes().all(|c| c.is_ascii_hexdigit()) {
        return None;
    }
    u32::from_str_radix(text, 16).ok()
}

fn event(
    line: &[u8],
    buses: &HashMap<Vec<u8>, usize>,
    routers: &HashMap<Vec<u8>, usize>,
    outputs: &HashMap<Vec<u8>, usize>,
) -> Option<Event> {
    let mut fields = line.split(|c| *c == b' ');
    let event = match fields.next()? {
        b"A" => Event::Arrive(*buses.get(fields.next()?)?, word(fields.next()?)?),
        b"R" => Event::Route(*routers.get(fields.next()?)?),
        b"S" => Event::Send(*outputs.get(fields.next()?)?),
        b"T" => Event::Tick,
        _ => return None,
    };
    if fields.next().is_some() { None } else { Some(event) }
}

fn main() -> io::Result<()> {
    let buses = HashMap::from([(b"A".to_vec(), 0)]);
    let routers = HashMap::from([(b"R1".to_vec(), 0)]);
    let outputs = HashMap::from([(b"O".to_vec(), 0)]);
    let start = Instant::now();
    let mut input = io::BufReader::with_capacity(32 * 1024, io::stdin().lock());
    let mut line = Vec::with_capacity(65);
    let (mut lines, mut sum) = (0u64, 0u64);
    loop {
        line.clear();
        if input.read_until(b'\n', &mut line)? == 0 {
            break;
        }
        if line.pop() != Some(b'\n') || line.len() > 64 {
            std::process::exit(2);
        }
        let number = match event(&line, &buses, &routers, &outputs) {
            Some(Event::Tick) => 1,
            Some(Event::Arrive(bus, word)) => bus as u64 * 31 + word as u64,
            Some(Event::Route(router)) => router as u64 + 2,
            Some(Event::Send(output)) => output as u64 + 3,
            None => std::process::exit(2),
        };
        sum = sum.wrapping_mul(3).wrapping_add(number);
        lines += 1;
    }
    let micros = (start.elapsed().as_micros() as u64).max(1);
    println!("trace {lines} lines {micros} us {} lines/s sum {sum}", lines * 1_000_000 / micros);
    Ok(())
}

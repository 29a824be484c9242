//! Calls on a plain Rust concentrator with a list of entries under a `Mutex`, long rounds and short ones: of one thread that
//! makes a lap of four calls again and again (argument `laps`), or of a thread for each of four wires (`wires`); or plain
//! atomic loads (`reads`). With `receipts` behind it each actor keeps what it was answered, as the seats of the hub do.
#[allow(dead_code)]
#[path = "../core/concentrator.rs"]
mod concentrator;

use concentrator::{core, number_of, Core, Event, Fault, Reply};
use std::hint::black_box;
use std::sync::atomic::{AtomicU64, Ordering};
use std::sync::Mutex;
use std::time::Instant;

const LONG: u64 = 4_000_000;
const SHORT: u64 = 100_000;

#[derive(Clone, Copy)]
struct Entry { event: Event, reply: Reply }

#[derive(Clone, Copy)]
struct Receipt { index: u64, event: Event, reply: Reply }

struct Book { core: Core, entries: Vec<Entry> }

/// What an actor was answered, where it keeps it, and the sum of it.
struct Seat { keeps: bool, receipts: Vec<Receipt>, sum: u64 }

impl Seat {
    fn new(keeps: bool) -> Seat { Seat { keeps, receipts: Vec::new(), sum: 0 } }
}

fn act(book: &Mutex<Book>, event: Event) -> Result<Receipt, Fault> {
    let mut book = book.lock().unwrap();
    let reply = book.core.apply(event)?;
    book.entries.push(Entry { event, reply });
    Ok(Receipt { index: book.entries.len() as u64, event, reply })
}

fn call(book: &Mutex<Book>, seat: &mut Seat, event: Event) {
    let said = act(book, event);
    if let (true, Ok(receipt)) = (seat.keeps, &said) { seat.receipts.push(*receipt); }
    seat.sum = seat.sum.wrapping_mul(3).wrapping_add(number_of(said.map(|receipt| receipt.reply)));
}

fn report(what: &str, calls: u64, start: Instant, sum: u64) {
    println!("{what}-{calls} {} sum {sum}", start.elapsed().as_nanos());
}

fn laps(keeps: bool, word: u32, calls: u64) {
    let book = Mutex::new(Book { core: core(1, &black_box([0o203, 0o204]), 2, 1, 22), entries: Vec::new() });
    let start = Instant::now();
    let mut seat = Seat::new(keeps);
    for _ in 0..calls / 4 {
        for event in [Event::Arrive(0, word), Event::Route(0), Event::Send(0), Event::Tick] { call(&book, &mut seat, event); }
    }
    report("laps", calls, start, seat.sum);
    black_box(book.lock().unwrap().entries.last().map(|entry| (entry.event, entry.reply)));
    black_box(seat.receipts.last().map(|receipt| (receipt.index, receipt.event, receipt.reply)));
}

fn wires(keeps: bool, word: u32, calls: u64) {
    let book = Mutex::new(Book { core: core(4, &black_box([0o203, 0o204]), 2, 1, 22), entries: Vec::new() });
    let start = Instant::now();
    let seats: Vec<Seat> = std::thread::scope(|scope| {
        let threads: Vec<_> = (0..4).map(|bus| {
            let book = &book;
            scope.spawn(move || {
                let mut seat = Seat::new(keeps);
                for _ in 0..calls / 4 { call(book, &mut seat, Event::Arrive(bus, word)); }
                seat
            })
        }).collect();
        threads.into_iter().map(|thread| thread.join().unwrap()).collect()
    });
    report("wires", calls, start, seats.iter().fold(0, |sum, seat| sum.wrapping_add(seat.sum)));
    black_box(book.lock().unwrap().entries.last().map(|entry| (entry.event, entry.reply)));
    black_box(seats);
}

fn reads(calls: u64) {
    let words: [AtomicU64; 64] = black_box(std::array::from_fn(|_| AtomicU64::new(0)));
    let start = Instant::now();
    let mut sum = 0u64;
    for read in 0..calls { sum = sum.wrapping_add(words[(read % 64) as usize].load(Ordering::SeqCst)); }
    report("reads", calls, start, sum);
}

fn main() {
    let words: Vec<String> = std::env::args().collect();
    let keeps = words.iter().any(|word| word == "receipts");
    for round in 0..55 {
        let calls = if round < 5 { LONG } else { SHORT };
        match words[1].as_str() {
            "laps" => laps(keeps, black_box(0x6000_00C1), calls),
            "wires" => wires(keeps, black_box(0x6000_00C1), calls),
            _ => reads(calls),
        }
    }
}

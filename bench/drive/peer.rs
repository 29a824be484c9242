//! A plain Rust concentrator with a list of entries under a `Mutex`, driven by a thread for each actor but the clock, of 64
//! buses of 16 streams, for 1,000 ticks: with the threads, the pace and the words of `drive`. Each actor keeps what it was
//! answered.
#[allow(dead_code)]
#[path = "../core/concentrator.rs"]
mod concentrator;

use concentrator::{core, Core, Event, Reply};
use std::hint::black_box;
use std::sync::{Condvar, Mutex};
use std::time::Instant;

const ROUNDS: usize = 7;
const TICKS: u64 = 1000;
const BUSES: usize = 64;
/// The input spacing of a fast bus, and the least ticks between two words of a stream.
const SPACING_US: u64 = 350;
const MINIMUM: u64 = 10;

#[derive(Clone, Copy)]
struct Entry { event: Event, reply: Reply }

#[derive(Clone, Copy)]
struct Receipt { index: u64, event: Event, reply: Reply }

struct Book { core: Core, entries: Vec<Entry> }

struct Pace { tick: u64, done: u64 }

/// What the threads wait with: the actors for the next tick, the clock for all actors.
struct Meter { pace: Mutex<Pace>, next: Condvar, all_done: Condvar }

impl Meter {
    fn end_tick(&self, tick: u64, actors: u64) {
        let mut pace = self.pace.lock().unwrap();
        pace.done += 1;
        if pace.done == actors { self.all_done.notify_all(); }
        drop(self.next.wait_while(pace, |pace| pace.tick <= tick).unwrap());
    }

    fn wait_for_all(&self, actors: u64) {
        drop(self.all_done.wait_while(self.pace.lock().unwrap(), |pace| pace.done < actors).unwrap());
    }

    fn next_tick(&self) {
        let mut pace = self.pace.lock().unwrap();
        pace.tick += 1;
        pace.done = 0;
        self.next.notify_all();
    }
}

fn call(book: &Mutex<Book>, receipts: &mut Vec<Receipt>, event: Event) {
    let mut book = book.lock().unwrap();
    if let Ok(reply) = book.core.apply(event) {
        book.entries.push(Entry { event, reply });
        receipts.push(Receipt { index: book.entries.len() as u64, event, reply });
    }
}

fn odd(word: u32) -> u32 { word | ((word.count_ones() + 1) % 2) << 31 }

/// The words of a bus with their ticks, as many as its streams and its wire let come.
fn script(labels: &[u8]) -> Vec<(u64, u32)> {
    let (mut free, mut lasts, mut words) = (0, vec![None; labels.len()], Vec::new());
    for tick in 0..TICKS {
        for (stream, label) in labels.iter().enumerate() {
            let time = (tick * 1000).max(free);
            if lasts[stream].is_some_and(|last| tick - last < MINIMUM) || time >= (tick + 1) * 1000 { continue; }
            words.push((tick, odd(3 << 29 | (tick as u32 % 1024) << 10 | label.reverse_bits() as u32)));
            free = time + SPACING_US;
            lasts[stream] = Some(tick);
        }
    }
    words
}

/// Each actor's events, by tick.
fn parts(words: &[(u64, u32)]) -> Vec<Vec<Vec<Event>>> {
    let mut parts = Vec::new();
    for bus in 0..BUSES {
        let mut ticks = vec![Vec::new(); TICKS as usize];
        for (tick, word) in words { ticks[*tick as usize].push(Event::Arrive(bus, *word)); }
        parts.push(ticks);
    }
    for router in 0..BUSES { parts.push(vec![vec![Event::Route(router); 2]; TICKS as usize]); }
    parts.push(vec![vec![Event::Send(0)]; TICKS as usize]);
    parts
}

fn round(labels: &[u8], parts: &[Vec<Vec<Event>>]) {
    let book = Mutex::new(Book { core: core(BUSES, labels, 16, 2, 26), entries: Vec::new() });
    let meter = Meter { pace: Mutex::new(Pace { tick: 0, done: 0 }), next: Condvar::new(), all_done: Condvar::new() };
    let actors = parts.len() as u64;
    let start = Instant::now();
    let receipts: Vec<Vec<Receipt>> = std::thread::scope(|scope| {
        let threads: Vec<_> = parts.iter().map(|ticks| {
            let (book, meter) = (&book, &meter);
            scope.spawn(move || {
                let mut receipts = Vec::new();
                for (tick, events) in ticks.iter().enumerate() {
                    for event in events { call(book, &mut receipts, *event); }
                    meter.end_tick(tick as u64, actors);
                }
                receipts
            })
        }).collect();
        let mut clock = Vec::new();
        for _ in 0..TICKS {
            meter.wait_for_all(actors);
            call(&book, &mut clock, Event::Tick);
            meter.next_tick();
        }
        let mut all: Vec<_> = threads.into_iter().map(|thread| thread.join().unwrap()).collect();
        all.push(clock);
        all
    });
    let nanos = start.elapsed().as_nanos();
    let book = book.lock().unwrap();
    let overruns = book.entries.iter().filter(|entry| matches!(entry.reply, Reply::Overrun)).count();
    println!("{nanos} {} overruns {overruns}", book.entries.len());
    black_box(receipts.iter().map(|r| r.last().map(|r| (r.index, r.event, r.reply))).count());
    black_box(book.entries.last().map(|entry| entry.event));
}

fn main() {
    let labels: Vec<u8> = black_box((0o201..=0o220).collect());
    let parts = parts(&script(&labels));
    for _ in 0..ROUNDS { round(&labels, &parts); }
}

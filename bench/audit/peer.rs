//! The audit of a recording in plain Rust, for the tables of made.py: the same histories, as a Rust programmer would keep
//! them, and the same three lines.
use std::collections::{HashMap, VecDeque};
use std::io::{self, Read};

const BUSES: usize = 64;
const OUTPUTS: usize = 32;
const STREAMS: usize = 16;
const QUEUE: usize = 16;
const MINIMUM: u64 = 10;
const MAXIMUM: u64 = 60;
const LEAST: u64 = 11;
const GREATEST: u64 = 59;
const STALE: u64 = 70;
const FRAME: u64 = 40;

#[derive(Clone, Copy)]
enum Event { Tick, Arrive(usize, u32), Route(usize), Send(usize) }

struct Waiting { word: u32, arrived: u64, stream: usize }

#[derive(Clone)]
struct Stream { arrivals: Vec<u64>, since: u64, latest: Option<(u32, u64, u64)> }

struct Bus { queue: VecDeque<Waiting>, latched: bool, streams: Vec<Stream>, load: (u64, u64) }

fn read(text: &str) -> Vec<Event> {
    let names: HashMap<String, usize> = (0..BUSES).flat_map(|n| [(format!("B{n}"), n), (format!("R{n}"), n), (format!("O{n}"), n)]).collect();
    let mut run = Vec::new();
    for line in text.lines() {
        let mut fields = line.split(' ');
        run.push(match (fields.next(), fields.next(), fields.next()) {
            (Some("A"), Some(bus), Some(word)) => Event::Arrive(names[bus], u32::from_str_radix(word, 16).unwrap()),
            (Some("R"), Some(router), None) => Event::Route(names[router]),
            (Some("S"), Some(output), None) => Event::Send(names[output]),
            _ => Event::Tick,
        });
    }
    run
}

fn stream_of(word: u32) -> Option<usize> {
    let label = (word as u8).reverse_bits();
    (0o201..=0o220).contains(&label).then(|| label as usize - 0o201)
}

fn lacks(ticks: &[u64], steps: usize, tick: u64) -> bool {
    ticks.len() < steps || ticks[ticks.len() - steps] < tick
}

fn budgets(run: &[Event]) -> Option<usize> {
    let (mut tick, mut routed, mut sent) = (0u64, vec![Vec::new(); BUSES], vec![Vec::new(); OUTPUTS]);
    run.iter().position(|event| match *event {
        Event::Arrive(..) => false,
        Event::Route(router) => {
            let ticks: &mut Vec<u64> = &mut routed[router];
            ticks.push(tick);
            ticks.len() > 2 && ticks[ticks.len() - 3] == tick
        }
        Event::Send(output) => {
            let ticks: &mut Vec<u64> = &mut sent[output];
            let soon = ticks.last().is_some_and(|last| tick < last + 1);
            ticks.push(tick);
            soon
        }
        Event::Tick => {
            let owed = routed.iter().any(|t| lacks(t, 2, tick)) || sent.iter().any(|t| lacks(t, 1, tick));
            tick += 1;
            owed
        }
    }).map(|at| at + 1)
}

fn sources(run: &[Event]) -> Option<usize> {
    let mut tick = 0u64;
    let mut streams = vec![vec![Vec::new(); STREAMS]; BUSES];
    let mut wires = vec![(0u64, 0u64); BUSES];
    run.iter().position(|event| match *event {
        Event::Arrive(bus, word) if word.count_ones() % 2 == 1 => {
            let Some(stream) = stream_of(word) else { return false };
            let ticks: &mut Vec<u64> = &mut streams[bus][stream];
            let soon = ticks.last().is_some_and(|last| tick - last < MINIMUM);
            ticks.push(tick);
            let (last, load) = wires[bus];
            let left = load.saturating_sub((tick - last) * 1000);
            wires[bus] = (tick, left + 350);
            soon || left > 1000
        }
        Event::Tick => { tick += 1; false }
        _ => false,
    }).map(|at| at + 1)
}

fn claims(run: &[Event], age: u64) -> Option<(u8, usize)> {
    let mut tick = 0u64;
    let stream = Stream { arrivals: Vec::new(), since: 0, latest: None };
    let mut buses: Vec<Bus> = (0..BUSES).map(|_| Bus { queue: VecDeque::new(), latched: false, streams: vec![stream.clone(); STREAMS], load: (0, 0) }).collect();
    let mut sent = vec![0u64; OUTPUTS];
    let mut last = vec![None::<u64>; OUTPUTS * 32];
    for (at, event) in run.iter().enumerate() {
        let broken = match *event {
            Event::Arrive(bus, word) => {
                let bus = &mut buses[bus];
                bus.load.0 += 1;
                match stream_of(word) {
                    Some(stream) if word.count_ones() % 2 == 1 => {
                        let s = &mut bus.streams[stream];
                        if s.arrivals.last().is_none_or(|last| tick - last > MAXIMUM) { s.since = tick; }
                        s.arrivals.push(tick);
                        if bus.latched { None }
                        else if bus.queue.len() == QUEUE { bus.latched = true; Some(1) }
                        else { bus.queue.push_back(Waiting { word, arrived: tick, stream }); None }
                    }
                    _ => None,
                }
            }
            Event::Route(router) => {
                let bus = &mut buses[router];
                if let Some(w) = bus.queue.pop_front() { bus.streams[w.stream].latest = Some((w.word, w.arrived, tick)); }
                None
            }
            Event::Send(output) => {
                let due = tick / FRAME * 32 + (tick % FRAME + 1).min(32);
                if sent[output] >= due { None } else {
                    let entry = (sent[output] % 32) as usize;
                    sent[output] += 1;
                    let bus = &buses[2 * output + entry / 16];
                    let s = &bus.streams[entry % 16];
                    let copied = s.latest.filter(|l| !bus.latched && tick - l.2 <= STALE);
                    let live = tick >= STALE && s.arrivals.last().is_some_and(|last| tick - last <= MAXIMUM) && s.since + STALE <= tick;
                    let before = last[output * 32 + entry].replace(tick);
                    if copied.is_some_and(|l| tick - l.1 > age) { Some(2) }
                    else if live && copied.is_none_or(|l| l.0 >> 29 & 3 != 3) { Some(3) }
                    else if before.is_some_and(|b| tick < b + LEAST) { Some(4) }
                    else { None }
                }
            }
            Event::Tick => {
                tick += 1;
                last.iter().any(|l| tick - l.unwrap_or(0) > GREATEST).then_some(4)
            }
        };
        if let Some(claim) = broken { return Some((claim, at + 1)); }
    }
    None
}

fn main() {
    let age: u64 = std::env::args().nth(1).unwrap().parse().unwrap();
    let mut text = String::new();
    io::stdin().read_to_string(&mut text).unwrap();
    let run = read(&text);
    for (name, place) in [("budgets", budgets(&run)), ("sources", sources(&run))] {
        match place { None => println!("{name} hold"), Some(place) => println!("{name} fail at {place}") }
    }
    match claims(&run, age) { None => println!("claims hold"), Some((claim, place)) => println!("claim {claim} fails at {place}") }
}

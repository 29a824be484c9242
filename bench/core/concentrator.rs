//! A plain Rust concentrator: the state machine with its budgets over vectors and rings, written as a Rust programmer would
//! write it, with the tables and the events of the benchmarks.
use std::collections::VecDeque;

#[derive(Clone, Copy)]
pub enum Event { Tick, Arrive(usize, u32), Route(usize), Send(usize) }

#[derive(Clone, Copy)]
pub enum Reply { Queued(usize), BadParity, Undeclared, Overrun, Latched, Took(usize, u32), Empty(usize), Sent(u8, u32), Idle, Now(u64) }

pub enum Fault { Spent, TooSoon, OwedByRouter(usize), OwedByOutput(usize), Unknown }

pub struct Stream { label: u8, sdi: Option<u32>, latest: Option<(u32, u64)> }
pub struct Bus { queue: VecDeque<u32>, capacity: usize, latched: bool, pub streams: Vec<Stream> }
pub struct Window { counts: VecDeque<u32>, total: u32, pub within: usize }
pub struct Router { pub steps: u32, pub most: u32, visits: Vec<usize>, cursor: usize, pub window: Window }
pub struct Label { low: u8, sdi: u32, sources: Vec<(usize, usize)>, stale: u64 }
pub struct Output { pub steps: u32, pub gap: u64, frame: u64, entries: Vec<(u64, usize)>, labels: Vec<Label>, sent: u64, last: Option<u64>, pub window: Window }
pub struct Core { tick: u64, pub buses: Vec<Bus>, pub routers: Vec<Router>, pub outputs: Vec<Output> }

impl Window {
    fn new(within: usize) -> Self {
        let mut counts = VecDeque::with_capacity(within);
        counts.push_back(0);
        Window { counts, total: 0, within }
    }
    fn count(&self) -> u32 { *self.counts.back().unwrap() }
    fn add(&mut self) { *self.counts.back_mut().unwrap() += 1; self.total += 1; }
    fn owes(&self, steps: u32) -> bool { self.counts.len() == self.within && self.total < steps }
    fn turn(&mut self) {
        if self.counts.len() == self.within { self.total -= self.counts.pop_front().unwrap(); }
        self.counts.push_back(0);
    }
}

impl Bus {
    pub fn stream_of(&self, word: u32) -> Option<usize> {
        self.streams.iter().position(|s| s.label == word as u8 && s.sdi.is_none_or(|sdi| sdi == word >> 8 & 3))
    }
}

fn odd(word: u32) -> u32 { word | ((word.count_ones() + 1) % 2) << 31 }

fn due_by(output: &Output, tick: u64) -> u64 {
    let within = output.entries.iter().filter(|e| e.0 <= tick % output.frame).count() as u64;
    tick / output.frame * output.entries.len() as u64 + within
}

impl Core {
    fn arrive(&mut self, bus: usize, word: u32) -> Result<Reply, Fault> {
        let bus = self.buses.get_mut(bus).ok_or(Fault::Unknown)?;
        if word.count_ones() % 2 == 0 { return Ok(Reply::BadParity); }
        if bus.stream_of(word).is_none() { return Ok(Reply::Undeclared); }
        if bus.latched { return Ok(Reply::Latched); }
        if bus.queue.len() == bus.capacity {
            bus.latched = true;
            return Ok(Reply::Overrun);
        }
        bus.queue.push_back(word);
        Ok(Reply::Queued(bus.queue.len()))
    }

    fn route(&mut self, router: usize) -> Result<Reply, Fault> {
        let router = self.routers.get_mut(router).ok_or(Fault::Unknown)?;
        if router.window.count() == router.most { return Err(Fault::Spent); }
        router.window.add();
        let number = router.visits[router.cursor];
        router.cursor = (router.cursor + 1) % router.visits.len();
        let bus = &mut self.buses[number];
        let Some(word) = bus.queue.pop_front() else { return Ok(Reply::Empty(number)) };
        if let Some(stream) = bus.stream_of(word) { bus.streams[stream].latest = Some((word, self.tick)); }
        Ok(Reply::Took(number, word))
    }

    fn send(&mut self, output: usize) -> Result<Reply, Fault> {
        let tick = self.tick;
        let output = self.outputs.get_mut(output).ok_or(Fault::Unknown)?;
        if output.last.is_some_and(|last| tick < last + output.gap) { return Err(Fault::TooSoon); }
        output.last = Some(tick);
        output.window.add();
        if output.sent >= due_by(output, tick) { return Ok(Reply::Idle); }
        let label = &output.labels[output.entries[(output.sent % output.entries.len() as u64) as usize].1];
        output.sent += 1;
        let fresh = || label.sources.iter().filter_map(|&(b, s)| match self.buses[b].streams[s].latest {
            Some((word, routed)) if !self.buses[b].latched && tick - routed <= label.stale => Some(word),
            _ => None,
        });
        let word = match fresh().find(|w| w >> 29 & 3 == 3).or_else(|| fresh().next()) {
            Some(w) => odd(w & 0x7FFF_FC00 | label.sdi << 8 | label.low as u32),
            None => odd(1 << 29 | label.sdi << 8 | label.low as u32),
        };
        Ok(Reply::Sent(label.low, word))
    }

    fn end_tick(&mut self) -> Result<Reply, Fault> {
        if let Some(r) = self.routers.iter().position(|r| r.window.owes(r.steps)) { return Err(Fault::OwedByRouter(r)); }
        if let Some(o) = self.outputs.iter().position(|o| o.window.owes(o.steps)) { return Err(Fault::OwedByOutput(o)); }
        self.tick += 1;
        for r in &mut self.routers { r.window.turn(); }
        for o in &mut self.outputs { o.window.turn(); }
        Ok(Reply::Now(self.tick))
    }

    pub fn apply(&mut self, event: Event) -> Result<Reply, Fault> {
        match event {
            Event::Arrive(bus, word) => self.arrive(bus, word),
            Event::Route(router) => self.route(router),
            Event::Send(output) => self.send(output),
            Event::Tick => self.end_tick(),
        }
    }
}

pub fn number_of(answer: Result<Reply, Fault>) -> u64 {
    match answer {
        Ok(Reply::Queued(backlog)) => backlog as u64,
        Ok(Reply::BadParity) => 11,
        Ok(Reply::Undeclared) => 12,
        Ok(Reply::Overrun) => 13,
        Ok(Reply::Latched) => 14,
        Ok(Reply::Took(bus, word)) => bus as u64 + word as u64,
        Ok(Reply::Empty(bus)) => bus as u64 + 15,
        Ok(Reply::Sent(_label, word)) => word as u64,
        Ok(Reply::Idle) => 16,
        Ok(Reply::Now(tick)) => tick,
        Err(Fault::Spent | Fault::TooSoon | Fault::Unknown) => 1_000_000_007,
        Err(Fault::OwedByRouter(actor) | Fault::OwedByOutput(actor)) => 1_000_000_007 + actor as u64,
    }
}

/// So many buses with these labels and this room, a router for each with these steps, one output.
pub fn core(buses: usize, labels: &[u8], queue: usize, steps: u32, stale: u64) -> Core {
    let source = labels.iter().position(|l| *l == 0o203).unwrap();
    Core {
        tick: 0,
        buses: (0..buses).map(|_| Bus {
            queue: VecDeque::with_capacity(queue), capacity: queue, latched: false,
            streams: labels.iter().map(|l| Stream { label: l.reverse_bits(), sdi: None, latest: None }).collect(),
        }).collect(),
        routers: (0..buses).map(|b| Router { steps, most: 2, visits: vec![b], cursor: 0, window: Window::new(1) }).collect(),
        outputs: vec![Output {
            steps: 1, gap: 1, frame: 15, entries: vec![(0, 0)], sent: 0, last: None, window: Window::new(2),
            labels: vec![Label { low: 0o203u8.reverse_bits(), sdi: 0, sources: vec![(0, source)], stale }],
        }],
    }
}

/// The events of ten ticks, in which each stream brings a word.
fn lap_of(buses: usize, labels: &[u8], steps: u32) -> Vec<Event> {
    let mut lap = Vec::new();
    for tick in 0..10 {
        for number in (tick..buses * labels.len()).step_by(10) {
            let low = labels[number % labels.len()].reverse_bits() as u32;
            lap.push(Event::Arrive(number / labels.len(), odd(0x6000_0000 | low)));
        }
        for router in 0..buses { for _ in 0..steps { lap.push(Event::Route(router)); } }
        lap.push(Event::Send(0));
        lap.push(Event::Tick);
    }
    lap
}

/// A concentrator of the small tables, or of 64 buses of 16 streams, and its lap.
pub fn sized(large: bool) -> (Core, Vec<Event>) {
    let many: Vec<u8> = (0o201..=0o220).collect();
    if large { (core(64, &many, 16, 2, 26), lap_of(64, &many, 2)) } else { (core(1, &[0o203, 0o204], 2, 1, 22), lap_of(1, &[0o203, 0o204], 1)) }
}

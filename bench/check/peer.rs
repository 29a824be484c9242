// The same search in plain Rust, with nothing proved: 64 buses of 16 streams, each of minimum 10 ticks or
// of 10 to 25, on a wire of 350 microseconds a word, two steps a tick, each window searched at 1 and at the jumps of the arrival bound.
// usage: peer WINDOW BACKLOG DELAY [different]
const TICK_US: u64 = 1000;
const SPACING_US: u64 = 350;
const LAST: u64 = 1_000_000;

struct Bus {
    minimums: Vec<u64>,
    steps: u64,
    within: u64,
}

impl Bus {
    fn sum(&self, d: u64) -> u64 {
        self.minimums.iter().map(|m| (d + m - 1) / m).sum()
    }
    fn wire(&self, d: u64) -> u64 {
        if d == 0 { 0 } else { d * TICK_US / SPACING_US + 1 }
    }
    fn at_most(&self, d: u64) -> u64 {
        self.sum(d).min(self.wire(d))
    }
    fn sum_jump(&self, d: u64) -> u64 {
        self.minimums.iter().map(|m| (d + m - 1) / m * m + 1).min().unwrap_or(LAST + 1)
    }
    fn wire_jump(&self, d: u64) -> u64 {
        if d == 0 { 1 } else { ((d * TICK_US / SPACING_US + 1) * SPACING_US + TICK_US - 1) / TICK_US }
    }
    fn next_jump(&self, d: u64) -> Option<u64> {
        let (sum, wire) = (self.sum(d), self.wire(d));
        let jump = if sum < wire {
            self.sum_jump(d)
        } else if wire < sum {
            self.wire_jump(d)
        } else {
            self.sum_jump(d).max(self.wire_jump(d))
        };
        (jump <= LAST).then_some(jump)
    }
    fn at_least(&self, d: u64) -> u64 {
        self.steps * (d / self.within)
    }
    fn first(&self, window: u64, fails: impl Fn(u64, u64) -> bool) -> Option<u64> {
        let mut w = 1;
        while w <= window {
            if fails(w, self.at_most(w)) {
                return Some(w);
            }
            w = self.next_jump(w)?;
        }
        None
    }
}

fn main() {
    let words: Vec<String> = std::env::args().skip(1).collect();
    let number = |n: usize| -> u64 { words[n].parse().unwrap() };
    let (window, backlog, delay) = (number(0), number(1), number(2));
    let minimums: Vec<u64> = if words.len() > 3 { (10..26).collect() } else { vec![10; 16] };
    let mut accepted = 0;
    for _ in 0..64 {
        // what a program that reads its tables cannot know
        let bus = std::hint::black_box(Bus { minimums: minimums.clone(), steps: 2, within: 1 });
        let closes = bus.at_most(window) <= bus.at_least(window - 1);
        let late = bus.first(window, |w, most| most > bus.at_least(w.saturating_sub(2)) + backlog);
        let delayed = bus.first(window, |w, most| most > bus.at_least(w - 1 + delay));
        accepted += u32::from(closes && late.is_none() && delayed.is_none());
    }
    println!("accepted inputs {accepted}");
}

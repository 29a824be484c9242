// The same search in plain Rust, with nothing proved: 64 buses of 16 streams of minimum 10 ticks, or of 10 to 25, on a
// wire of 350 microseconds a word. The least window is searched between the jumps of the arrival bound by halves, the backlog and
// the delay at the jumps.
// usage: peer near | far | never | mixed
const TICK_US: u64 = 1000;
const SPACING_US: u64 = 350;
const LAST: u64 = 100_000;

struct Bus {
    streams: Vec<(u64, u64)>,
    steps: u64,
    within: u64,
}

impl Bus {
    // the cap, and where it next grows: each stream is asked once
    fn at_most_and_jump(&self, d: u64) -> (u64, u64) {
        if d == 0 {
            return (0, 1);
        }
        let (mut sum, mut sum_jump) = (0, u64::MAX);
        for (minimum, jitter) in &self.streams {
            let count = (d + jitter + minimum - 1) / minimum;
            sum += count;
            sum_jump = sum_jump.min(count * minimum + 1 - jitter);
        }
        let wire = d * TICK_US / SPACING_US + 1;
        let wire_jump = (wire * SPACING_US + TICK_US - 1) / TICK_US;
        let jump = if sum < wire {
            sum_jump
        } else if wire < sum {
            wire_jump
        } else {
            sum_jump.max(wire_jump)
        };
        (sum.min(wire), jump)
    }
    fn at_least(&self, d: u64) -> u64 {
        self.steps * (d / self.within)
    }
    // the least ticks from one number to another that hold so many visits
    fn least_ticks(&self, count: u64, from: u64, to: u64) -> Option<u64> {
        if self.at_least(to) < count {
            return None;
        }
        let (mut low, mut high) = (from, to);
        while low < high {
            let middle = low + (high - low) / 2;
            if self.at_least(middle) < count {
                low = middle + 1;
            } else {
                high = middle;
            }
        }
        Some(high)
    }
    fn least_window(&self) -> Option<u64> {
        let mut ticks = 1;
        while ticks <= LAST {
            let (most, jump) = self.at_most_and_jump(ticks);
            let end = jump.min(LAST + 1);
            if let Some(served) = self.least_ticks(most, ticks - 1, end - 2) {
                return Some(served + 1);
            }
            ticks = end;
        }
        None
    }
    fn most_backlog(&self, window: u64) -> u64 {
        let (mut ticks, mut backlog) = (1, 0);
        while ticks <= window {
            let (most, jump) = self.at_most_and_jump(ticks);
            backlog = backlog.max(most.saturating_sub(self.at_least(ticks.saturating_sub(2))));
            ticks = jump;
        }
        backlog
    }
    fn least_delay(&self, window: u64) -> u64 {
        let (mut ticks, mut delay) = (1, 0);
        while ticks <= window {
            let (most, jump) = self.at_most_and_jump(ticks);
            if self.at_least(ticks - 1 + delay) < most {
                delay = self.least_ticks(most, ticks - 1, ticks - 1 + LAST).unwrap() - (ticks - 1);
            }
            ticks = jump;
        }
        delay
    }
}

fn main() {
    let kind = std::env::args().nth(1).unwrap();
    let near = kind == "near";
    for b in 0..64 {
        let mixed = kind == "mixed";
        let steps = if near { 2 } else if mixed { 989 } else if kind == "never" && b == 63 { 800 } else { 801 };
        // what a program that reads its tables cannot know
        let jitter = if near { 0 } else { 110 };
        let streams = (0..16).map(|n| (if mixed { 10 + n } else { 10 }, jitter)).collect();
        let bus = std::hint::black_box(Bus { streams, steps, within: if near { 1 } else if mixed { 1000 } else { 500 } });
        match bus.least_window() {
            None => println!("refused F1 input B{b}"),
            Some(window) => println!("B{b} {window} {} {}", bus.most_backlog(window), bus.least_delay(window)),
        }
    }
}

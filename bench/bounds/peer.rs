//! A plain Rust program that asks the same of the same bounds, as a Rust programmer would write them: the yardstick of
//! the benchmark, and no part of the product.
use std::time::Instant;

struct Sporadic {
    minimum: u32,
}

impl Sporadic {
    fn at_most(&self, d: u32) -> u64 {
        (d as u64).div_ceil(self.minimum as u64)
    }
    fn next_jump(&self, d: u32) -> Option<u32> {
        jump_at(self.at_most(d) * self.minimum as u64 + 1)
    }
}

fn jump_at(ticks: u64) -> Option<u32> {
    (ticks <= 1_000_000).then_some(ticks as u32)
}

struct Bus<'a> {
    streams: &'a [Sporadic],
    tick: u32,
    spacing: u32,
}

impl Bus<'_> {
    fn sum(&self, d: u32) -> u64 {
        self.streams.iter().map(|s| s.at_most(d)).sum()
    }
    fn wire(&self, d: u32) -> u64 {
        if d == 0 { 0 } else { d as u64 * self.tick as u64 / self.spacing as u64 + 1 }
    }
    fn wire_jump(&self, d: u32) -> Option<u32> {
        if d == 0 { Some(1) } else { jump_at((self.wire(d) * self.spacing as u64).div_ceil(self.tick as u64)) }
    }
    fn sum_jump(&self, d: u32) -> Option<u32> {
        self.streams.iter().filter_map(|s| s.next_jump(d)).min()
    }
    fn at_most(&self, d: u32) -> u64 {
        self.sum(d).min(self.wire(d))
    }
    fn next_jump(&self, d: u32) -> Option<u32> {
        let (sum, wire) = (self.sum(d), self.wire(d));
        if sum < wire {
            self.sum_jump(d)
        } else if wire < sum {
            self.wire_jump(d)
        } else {
            self.sum_jump(d).zip(self.wire_jump(d)).map(|(a, b)| a.max(b))
        }
    }
}

struct Cyclic<'a> {
    frame: u32,
    offsets: &'a [u32],
}

impl Cyclic<'_> {
    fn due(&self, n: usize) -> u64 {
        let len = self.offsets.len();
        if n < len { self.offsets[n] as u64 } else { self.frame as u64 + self.offsets[n - len] as u64 }
    }
    fn at_most(&self, d: u32) -> u64 {
        let rest = (d % self.frame) as u64;
        let mut best = 0;
        for j in 0..2 * self.offsets.len() {
            if self.due(j) < self.due(j - best) + rest {
                best += 1;
            }
        }
        (d / self.frame) as u64 * self.offsets.len() as u64 + best as u64
    }
    fn next_jump(&self, d: u32) -> Option<u32> {
        let count = self.at_most(d) as usize;
        let (rounds, rest) = (count / self.offsets.len(), count % self.offsets.len());
        let part = (0..self.offsets.len()).map(|i| self.due(i + rest) - self.due(i)).min().unwrap_or(0);
        jump_at(rounds as u64 * self.frame as u64 + part + 1)
    }
}

struct Visits<'a> {
    steps: u32,
    within: u32,
    visits: &'a [usize],
    bus: usize,
}

impl Visits<'_> {
    fn visit(&self, n: usize) -> u64 {
        let len = self.visits.len();
        (self.visits[if n < len { n } else { n - len }] == self.bus) as u64
    }
    fn at_least(&self, d: u32) -> u64 {
        let steps = self.steps as u64 * (d / self.within) as u64;
        let len = self.visits.len();
        let (rounds, rest) = (steps / len as u64, (steps % len as u64) as usize);
        let round: u64 = (0..len).map(|n| self.visit(n)).sum();
        let mut here: u64 = (0..rest).map(|n| self.visit(n)).sum();
        let mut least = here;
        for n in 0..len - 1 {
            here = here + self.visit(n + rest) - self.visit(n);
            least = least.min(here);
        }
        rounds * round + least
    }
}

fn bench(name: &str, calls: u32, f: impl Fn(u32) -> u64) {
    let start = Instant::now();
    let sum = (0..calls).fold(0u64, |sum, call| sum.wrapping_add(f(call.wrapping_mul(7919) % 1_000_001)));
    let micros = (start.elapsed().as_micros() as u64).max(1);
    println!("{name} {calls} calls {micros} us {} calls/s sum {sum}", calls as u64 * 1_000_000 / micros);
}

fn main() {
    let streams: Vec<_> = (0..1024).map(|_| Sporadic { minimum: 10 }).collect();
    let bus = Bus { streams: &streams, tick: 1000, spacing: 350 };
    bench("bus_cap", 200_000, |d| bus.at_most(d));
    bench("bus_jump", 200_000, |d| bus.next_jump(d).unwrap_or(0) as u64);
    let offsets: Vec<u32> = (0..1024).collect();
    let frame = Cyclic { frame: 100_000, offsets: &offsets };
    bench("frame_cap", 100_000, |d| frame.at_most(d));
    bench("frame_jump", 100_000, |d| frame.next_jump(d).unwrap_or(0) as u64);
    let mut visits = vec![1; 256];
    visits[255] = 0;
    let router = Visits { steps: 1000, within: 999, visits: &visits, bus: 0 };
    bench("visits_floor", 500_000, |d| router.at_least(d));
}

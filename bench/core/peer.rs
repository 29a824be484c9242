//! Applies ten million events of the small tables (argument `small`) or of 64 buses of 16 streams (`large`) to a plain
//! Rust concentrator, and prints events a second.
mod concentrator;

use concentrator::{number_of, sized};
use std::time::Instant;

const EVENTS: u64 = 10_000_000;

fn main() {
    let large = std::env::args().nth(1).as_deref() == Some("large");
    for _ in 0..5 {
        let (mut core, lap) = sized(large);
        let start = Instant::now();
        let mut sum = 0u64;
        for _ in 0..EVENTS / lap.len() as u64 {
            for event in &lap { sum = sum.wrapping_mul(3).wrapping_add(number_of(core.apply(*event))); }
        }
        let micros = start.elapsed().as_micros().max(1) as u64;
        println!("core {micros} us {} events/s sum {sum}", EVENTS * 1_000_000 / micros);
    }
}

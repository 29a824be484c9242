//! The second opinion in plain Rust: what a recording of 100,000 events of 64 buses of 16 streams should have brought,
//! and where it first breaks its budgets and its sources' minimum. Prints the microseconds of each.
#[path = "../core/concentrator.rs"]
mod concentrator;

use concentrator::{Core, Event, Reply, number_of, sized};
use std::time::Instant;

const EVENTS: usize = 100_000;

fn outputs(core: &mut Core, run: &[Event]) -> Vec<Reply> {
    run.iter().filter_map(|event| core.apply(*event).ok()).collect()
}

/// Whether the last ticks, up to this one, hold fewer steps than the actor owes.
fn lacks(ticks: &[u64], steps: u32, within: usize, tick: u64) -> bool {
    tick + 1 >= within as u64 && (ticks.len() < steps as usize || tick - ticks[ticks.len() - steps as usize] >= within as u64)
}

fn keeps_budgets(core: &Core, run: &[Event]) -> Option<usize> {
    let mut tick = 0;
    let mut routed = vec![Vec::new(); core.routers.len()];
    let mut sent = vec![Vec::new(); core.outputs.len()];
    run.iter().position(|event| match *event {
        Event::Arrive(..) => false,
        Event::Route(router) => {
            let most = core.routers[router].most as usize;
            let ticks: &mut Vec<u64> = &mut routed[router];
            ticks.push(tick);
            ticks.len() > most && ticks[ticks.len() - 1 - most] == tick
        }
        Event::Send(output) => {
            let ticks: &mut Vec<u64> = &mut sent[output];
            let soon = ticks.last().is_some_and(|last| tick < last + core.outputs[output].gap);
            ticks.push(tick);
            soon
        }
        Event::Tick => {
            let owed = core.routers.iter().zip(&routed).any(|(r, ticks)| lacks(ticks, r.steps, r.window.within, tick))
                || core.outputs.iter().zip(&sent).any(|(o, ticks)| lacks(ticks, o.steps, o.window.within, tick));
            tick += 1;
            owed
        }
    }).map(|at| at + 1)
}

fn keeps_sources(core: &Core, run: &[Event]) -> Option<usize> {
    let (minimum, tick_us, spacing) = (10, 1000, 350);
    let mut tick = 0u64;
    let mut streams: Vec<Vec<Vec<u64>>> = core.buses.iter().map(|b| vec![Vec::new(); b.streams.len()]).collect();
    let mut wires = vec![(0u64, 0u64); core.buses.len()];
    run.iter().position(|event| match *event {
        Event::Arrive(bus, word) if word.count_ones() % 2 == 1 => {
            let Some(stream) = core.buses[bus].stream_of(word) else { return false };
            let ticks = &mut streams[bus][stream];
            let soon = ticks.last().is_some_and(|last| tick - last < minimum);
            ticks.push(tick);
            let (last, load) = wires[bus];
            let left = load.saturating_sub((tick - last) * tick_us);
            wires[bus] = (tick, left + spacing);
            soon || left > tick_us
        }
        Event::Tick => { tick += 1; false }
        _ => false,
    }).map(|at| at + 1)
}

fn main() {
    for _ in 0..5 {
        let (mut core, lap) = sized(true);
        let run: Vec<Event> = lap.iter().copied().cycle().take(EVENTS).collect();
        let start = Instant::now();
        let replies = outputs(&mut core, &run);
        println!("outputs {} us", start.elapsed().as_micros());
        let start = Instant::now();
        let broken = keeps_budgets(&core, &run);
        println!("budgets {} us place {}", start.elapsed().as_micros(), broken.unwrap_or(0));
        let start = Instant::now();
        let broken = keeps_sources(&core, &run);
        println!("sources {} us place {}", start.elapsed().as_micros(), broken.unwrap_or(0));
        let sum = replies.into_iter().fold(0u64, |sum, reply| sum.wrapping_mul(3).wrapping_add(number_of(Ok(reply))));
        println!("sum {sum}");
    }
}

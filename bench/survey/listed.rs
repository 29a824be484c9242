//! The tables of the peers, from the list that made.py prints, and the lines of a capture. No peer wants all of it.
#![allow(dead_code)]
use std::collections::HashMap;
use std::io::{self, BufRead};

pub struct Bus { pub name: String, pub spacing: u64, pub police: bool, pub streams: Vec<(u8, Option<u32>, usize)> }
pub struct Stream { pub name: String, pub bus: usize, pub least: u64, pub most: u64, pub jitter: u64 }
pub struct Tables { pub tick: u64, pub buses: Vec<Bus>, pub streams: Vec<Stream>, pub routers: Vec<(String, usize)>, pub outputs: Vec<(String, u64)> }
pub struct Word { pub time: u64, pub bus: usize, pub word: u32 }

impl Tables {
    pub fn read(path: &str) -> io::Result<Self> {
        let mut tables = Tables { tick: 0, buses: vec![], streams: vec![], routers: vec![], outputs: vec![] };
        for line in std::fs::read_to_string(path)?.lines() {
            let fields: Vec<&str> = line.split(' ').collect();
            let number = |at: usize| fields[at].parse::<u64>().unwrap();
            match fields[0] {
                "tick" => tables.tick = number(1),
                "bus" => tables.buses.push(Bus { name: fields[1].to_string(), spacing: number(2), police: fields[3] == "1", streams: vec![] }),
                "stream" => {
                    tables.buses[number(2) as usize].streams.push((number(3) as u8, fields[4].parse().ok(), tables.streams.len()));
                    tables.streams.push(Stream { name: fields[1].to_string(), bus: number(2) as usize, least: number(5), most: number(6), jitter: number(7) });
                }
                "router" => tables.routers.push((fields[1].to_string(), number(2) as usize)),
                _ => tables.outputs.push((fields[1].to_string(), number(2))),
            }
        }
        Ok(tables)
    }

    pub fn names(&self) -> HashMap<String, usize> {
        self.buses.iter().enumerate().map(|(number, bus)| (bus.name.clone(), number)).collect()
    }
}

/// The next line of a capture; none at its end, or the code of its fault.
pub fn next(input: &mut impl BufRead, line: &mut String, names: &HashMap<String, usize>, latest: u64) -> io::Result<Option<Result<Word, &'static str>>> {
    line.clear();
    if input.read_line(line)? == 0 {
        return Ok(None);
    }
    Ok(Some(word_of(line, names, latest)))
}

fn word_of(line: &str, names: &HashMap<String, usize>, latest: u64) -> Result<Word, &'static str> {
    let text = line.strip_suffix('\n').unwrap_or(line);
    if text.len() > 64 {
        return Err("E1");
    }
    if text.len() == line.len() {
        return Err("E6");
    }
    let fields: Vec<&str> = text.split(' ').collect();
    let &[time, name, word] = fields.as_slice() else {
        return Err("E3");
    };
    if !time.bytes().all(|c| c.is_ascii_digit()) {
        return Err("E7");
    }
    let time = time.parse::<u64>().ok().filter(|&time| time <= 1 << 53).ok_or("E7")?;
    let bus = *names.get(name).ok_or("E4")?;
    if word.len() != 8 || !word.bytes().all(|c| c.is_ascii_hexdigit()) {
        return Err("E5");
    }
    let word = u32::from_str_radix(word, 16).map_err(|_| "E5")?;
    if time < latest {
        return Err("E8");
    }
    Ok(Word { time, bus, word })
}

//! Serves many callers at once: reads all lines, and gives each worker the lanes of some tenants.
//!
//! Tenants have nothing in common but the clock, so each worker has a silo of its own, with no lock. Ticks and sweeps are a lane of
//! their own, which each worker goes through first.

use crate::answer::{answer, is_asked};
use crate::codes;
use crate::line::{read_line, Said};
use crate::names::{parts_of_grain, tenant_of_caller};
use crate::reply::{write_refusal, write_reply, To};
use crate::silo::{Setup, Silo};
use crate::stream::TooMuchInput;
use std::collections::HashMap;
use std::io::{self, Read, Write};
use std::thread;

/// A part of the input that a thread reads is at least so long.
const LEAST_PART: usize = 65_536;

/// What a line says, or with which code it is refused.
type Line<'a> = Result<Said<'a>, u8>;

/// The steps of a caller, in order.
struct Lane<'a> {
    worker: usize,
    steps: Vec<Said<'a>>,
}

/// What a worker leaves: what is written for each of its lanes, and for grains, each with its text.
struct Served {
    lanes: Vec<Vec<u8>>,
    to_grains: Vec<(Box<str>, Vec<u8>)>,
}

pub fn serve(setup: &Setup, workers: usize, most: usize) -> io::Result<Result<(), TooMuchInput>> {
    let mut input = Vec::new();
    io::stdin().lock().read_to_end(&mut input)?;
    let parts = parts_of(&input, workers);
    let read: Vec<(usize, Vec<Line>)> = thread::scope(|scope| {
        let readers: Vec<_> = parts.iter().map(|part| scope.spawn(|| read_part(part))).collect();
        readers.into_iter().map(|reader| reader.join().expect("a reader")).collect()
    });
    if read.iter().map(|(count, _)| count).sum::<usize>() > most {
        return Ok(Err(TooMuchInput));
    }
    let mut out = Vec::new();
    let (shared, lanes) = lanes_of(read.into_iter().flat_map(|(_, said)| said), workers, &mut out);
    let places: Vec<usize> = lanes.iter().map(|lane| lane.worker).collect();
    let mut work: Vec<Vec<Lane>> = (0..workers).map(|_| Vec::new()).collect();
    for lane in lanes {
        work[lane.worker].push(lane);
    }
    let served: Vec<Served> = thread::scope(|scope| {
        let shared = &shared;
        let threads: Vec<_> =
            work.into_iter().map(|lanes| scope.spawn(move || serve_lanes(setup, shared, lanes))).collect();
        threads.into_iter().map(|thread| thread.join().expect("a worker")).collect()
    });
    write_served(out, &places, served)?;
    Ok(Ok(()))
}

/// About equal parts of the input, each of whole lines.
fn parts_of(mut input: &[u8], count: usize) -> Vec<&[u8]> {
    let size = (input.len() / count + 1).max(LEAST_PART);
    let mut parts = Vec::with_capacity(count);
    while input.len() > size {
        let end = input[size..].iter().position(|&byte| byte == b'\n').map_or(input.len(), |more| size + more + 1);
        let (part, rest) = input.split_at(end);
        parts.push(part);
        input = rest;
    }
    parts.push(input);
    parts
}

/// The number of lines of a part, and what those say that aren't empty.
fn read_part(part: &[u8]) -> (usize, Vec<Line<'_>>) {
    let (mut count, mut said) = (0, Vec::new());
    // what is behind the last LF is a line if it has bytes
    for line in part.split_inclusive(|&byte| byte == b'\n') {
        count += 1;
        let line = line.strip_suffix(b"\n").unwrap_or(line);
        if !line.is_empty() {
            said.push(read_line(line));
        }
    }
    (count, said)
}

/// The ticks and sweeps, and the lanes in the order of their first lines. The refusals of lines of no lane are written.
fn lanes_of<'a>(
    lines: impl Iterator<Item = Line<'a>>,
    workers: usize,
    out: &mut Vec<u8>,
) -> (Vec<Said<'a>>, Vec<Lane<'a>>) {
    let (mut shared, mut lanes) = (Vec::new(), Vec::<Lane>::new());
    let mut places: HashMap<Box<str>, usize> = HashMap::new();
    let mut tenants: HashMap<Box<str>, usize> = HashMap::new();
    for line in lines {
        let said = match line {
            Ok(said) if is_asked(&said) => said,
            Ok(_) => {
                write_refusal(codes::NOT_A_REQUEST, out);
                continue;
            }
            Err(code) => {
                write_refusal(code, out);
                continue;
            }
        };
        let Some(from) = said.caller() else {
            shared.push(said);
            continue;
        };
        let place = places.get(from).copied().unwrap_or_else(|| {
            let tenant = tenant_of_caller(from).expect("a caller");
            let known = tenants.len();
            let worker = *tenants.entry(tenant.into()).or_insert(known) % workers;
            places.insert(from.into(), lanes.len());
            lanes.push(Lane { worker, steps: Vec::new() });
            lanes.len() - 1
        });
        lanes[place].steps.push(said);
    }
    (shared, lanes)
}

fn serve_lanes(setup: &Setup, shared: &[Said], lanes: Vec<Lane>) -> Served {
    let mut silo = Silo::new(setup);
    let mut served = Served { lanes: Vec::with_capacity(lanes.len()), to_grains: Vec::new() };
    if lanes.is_empty() {
        return served;
    }
    for said in shared {
        silo.take(match said {
            Said::Tick(now) => Said::Tick(*now),
            _ => Said::Sweep,
        });
    }
    for lane in lanes {
        let mut out = Vec::new();
        for said in lane.steps {
            let before = if setup.keeps { silo.replies.len() } else { 0 };
            answer(&mut silo, said, u32::MAX);
            for reply in &silo.replies[before..] {
                match reply.to {
                    To::Client { .. } => write_reply(&silo, reply, &mut out),
                    To::Grain(grain) => {
                        let mut text = Vec::new();
                        write_reply(&silo, reply, &mut text);
                        served.to_grains.push((silo.grains.text(grain).into(), text));
                    }
                }
            }
            if !setup.keeps {
                silo.replies.clear();
            }
        }
        served.lanes.push(out);
    }
    // the process ends soon, and gives its memory back at once
    std::mem::forget(silo);
    served
}

/// Writes what is in `out`, then what is for each lane, and then what is for grains, the least grain's first.
fn write_served(out: Vec<u8>, places: &[usize], served: Vec<Served>) -> io::Result<()> {
    let mut stdout = io::stdout().lock();
    stdout.write_all(&out)?;
    let mut to_grains = Vec::new();
    let mut lanes = Vec::new();
    for served in served {
        lanes.push(served.lanes.into_iter());
        to_grains.extend(served.to_grains);
    }
    for place in places {
        stdout.write_all(&lanes[*place].next().expect("a lane"))?;
    }
    // by kind, tenant and name
    to_grains.sort_by(|one, other| parts_of_grain(&one.0).cmp(&parts_of_grain(&other.0)));
    for (_, text) in to_grains {
        stdout.write_all(&text)?;
    }
    stdout.flush()
}

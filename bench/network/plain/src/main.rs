//! A row of actors that add one, by hand: `plain_network COUNT TOKENS` prints the seconds of its run.
//!
//! It goes by rounds as `rvc` does: what was sent moves on, the input is filled up, and each actor fires up to 64 times while
//! it has a token and room. Each firing writes its line of the trace into a buffer that is emptied when it is full.

use std::collections::VecDeque;
use std::hint::black_box;
use std::io::Write;
use std::time::Instant;

const BURST: usize = 64;
const CAPACITY: usize = 512;
const PIECE: usize = 65_536;

struct Actor {
    inbox: VecDeque<u8>,
    outbox: VecDeque<u8>,
}

struct Trace {
    text: Vec<u8>,
    bytes: u64,
}

impl Trace {
    fn line(&mut self, inst: usize) {
        writeln!(self.text, "f {inst} 0").expect("memory takes all");
        if self.text.len() > PIECE {
            self.bytes += self.text.len() as u64;
            black_box(&self.text);
            self.text.clear();
        }
    }
}

/// Moves what was sent to the next actor, and what the last one sent out of the row.
fn deliver(row: &mut [Actor], out: &mut Vec<u8>) -> usize {
    let mut moved = 0;
    for k in (0..row.len()).rev() {
        let mut sent = std::mem::take(&mut row[k].outbox);
        moved += sent.len();
        match row.get_mut(k + 1) {
            Some(next) => next.inbox.extend(sent.drain(..)),
            None => out.extend(sent.drain(..)),
        }
        row[k].outbox = sent;
    }
    moved
}

/// Fires an actor until it has fired often enough, or lacks a token or room.
fn burst(actor: &mut Actor, room: usize, inst: usize, trace: &mut Trace) {
    for _ in 0..BURST.min(room) {
        let Some(token) = actor.inbox.pop_front() else { return };
        actor.outbox.push_back(token.wrapping_add(1));
        trace.line(inst);
    }
}

fn run(count: usize, tokens: usize) -> (f64, u64) {
    let input: Vec<u8> = (0..tokens).map(|k| k as u8).collect();
    let mut out = Vec::with_capacity(tokens);
    let mut row: Vec<Actor> = (0..count)
        .map(|_| Actor { inbox: VecDeque::with_capacity(CAPACITY), outbox: VecDeque::with_capacity(CAPACITY) })
        .collect();
    let mut trace = Trace { text: Vec::with_capacity(2 * PIECE), bytes: 0 };
    let mut left = input.as_slice();
    let start = Instant::now();
    while out.len() < tokens {
        deliver(&mut row, &mut out);
        let (now, rest) = left.split_at(left.len().min(CAPACITY - row[0].inbox.len()));
        row[0].inbox.extend(now);
        left = rest;
        for k in 0..count {
            let room = row.get(k + 1).map_or(CAPACITY, |next| CAPACITY - next.inbox.len());
            burst(&mut row[k], room, k, &mut trace);
        }
    }
    (start.elapsed().as_secs_f64(), trace.bytes + out.iter().map(|&b| u64::from(b)).sum::<u64>())
}

fn main() {
    let words: Vec<usize> = std::env::args().skip(1).map(|w| w.parse().expect("a number")).collect();
    let (seconds, sum) = run(words[0], words[1]);
    black_box(sum);
    println!("{seconds}");
}

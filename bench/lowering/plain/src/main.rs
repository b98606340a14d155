//! The bodies of the driver on a stack machine in plain Rust, and written out in Rust.

mod machine;
#[allow(dead_code)]
mod tables;

use machine::{Cells, Code, Num, Outcome, Tally};
use std::hint::black_box;
use std::time::Instant;
use tables::{TABLES, Table};

/// The tokens before each input.
fn tokens() -> Vec<Num> {
    (0..64).map(|k| (k * 37 + 11) % 256).collect()
}

fn times(name: &str) -> u32 {
    match name {
        "Idct" => 500,
        "Crc" => 2000,
        "Grid" => 4000,
        _ => 1_000_000,
    }
}

fn code(table: &Table) -> Code {
    Code {
        instrs: table.instrs.to_vec(),
        routines: table.routines.iter().map(|routine| routine.0).collect(),
    }
}

fn cells(table: &Table) -> Cells {
    Cells {
        numbers: table.first.to_vec(),
        stack: vec![0; 64],
        frames: vec![0; 64],
    }
}

/// The sum of what the only action sends.
fn sum(table: &Table, cells: &Cells) -> Num {
    let first = table.actions[0].sends[0] as usize;
    let count = table.actions[0].gives[0] as usize;
    cells.numbers[first..first + count].iter().map(|v| v & 0xFFFF_FFFF).sum()
}

/// How many instructions a firing runs, and how many of them count a turn.
fn count(table: &Table) -> Tally {
    let mut count = Tally::default();
    let feeds = [tokens(), tokens()];
    let outcome = code(table).run(table.actions[0].fire, &mut cells(table), &feeds, &mut count);
    assert!(matches!(outcome, Outcome::Done));
    count
}

/// The nanoseconds of as many firings, and the sum of what one sends.
fn run(table: &Table) -> (u128, Num) {
    let code = black_box(code(table));
    let mut cells = cells(table);
    let feeds = [tokens(), tokens()];
    let start = Instant::now();
    for _ in 0..times(table.name) {
        match black_box(&code).run(table.actions[0].fire, &mut cells, black_box(&feeds), &mut ()) {
            Outcome::Done => {}
            _ => panic!("a firing ends"),
        }
    }
    (start.elapsed().as_nanos(), sum(table, &cells))
}

const COEFFICIENTS: [i32; 64] = {
    let first = TABLES[1].first;
    let mut c = [0; 64];
    let mut k = 0;
    while k < 64 {
        c[k] = first[k] as i32;
        k += 1;
    }
    c
};

fn sat(x: &[i32], out: &mut Vec<i32>) {
    out.push((x[0] + x[0]).clamp(-32768, 32767));
}

fn idct(x: &[i32], out: &mut Vec<i32>) {
    let c = &COEFFICIENTS;
    let mut t = [0i32; 64];
    for i in 0..8 {
        for j in 0..8 {
            let mut s = 1024i32;
            for k in 0..8 {
                s = s.wrapping_add(c[8 * k + j].wrapping_mul(x[8 * i + k]));
            }
            t[8 * i + j] = s >> 11;
        }
    }
    for i in 0..8 {
        for j in 0..8 {
            let mut s = 1024i32;
            for k in 0..8 {
                s = s.wrapping_add(c[8 * k + i].wrapping_mul(t[8 * k + j]));
            }
            out.push((s >> 11) as i16 as i32);
        }
    }
}

fn crc(x: &[i32], out: &mut Vec<i32>) {
    let mut r = 65535u16;
    for &byte in &x[..64] {
        r ^= (byte as u16) << 8;
        for _ in 0..8 {
            r = if r & 32768 != 0 { (r << 1) ^ 4129 } else { r << 1 };
        }
    }
    out.push(i32::from(r));
}

fn grid(x: &[i32], out: &mut Vec<i32>) {
    let mut g = [[0u8; 16]; 16];
    for (i, row) in g.iter_mut().enumerate() {
        for (j, item) in row.iter_mut().enumerate() {
            *item = (x[0] + (i * j) as i32) as u8;
        }
    }
    out.push(i32::from(black_box(&g)[5][7]));
}

fn chain(x: &[i32], out: &mut Vec<i32>) {
    let f = |v: i32| v.wrapping_add(1);
    let g = |v: i32| f(v).wrapping_mul(2);
    let h = |v: i32| g(v).wrapping_sub(f(v));
    out.push(h(h(h(x[0]))));
}

fn straight(name: &str) -> fn(&[i32], &mut Vec<i32>) {
    match name {
        "Sat" => sat,
        "Idct" => idct,
        "Crc" => crc,
        "Grid" => grid,
        _ => chain,
    }
}

/// The same of the body written out in Rust.
fn run_straight(name: &str) -> (u128, Num) {
    let body = straight(name);
    let feed: Vec<i32> = tokens().iter().map(|&v| v as i32).collect();
    let mut out = Vec::with_capacity(64);
    let start = Instant::now();
    for _ in 0..times(name) {
        out.clear();
        black_box(body)(black_box(&feed), black_box(&mut out));
    }
    (start.elapsed().as_nanos(), out.iter().map(|&v| Num::from(v) & 0xFFFF_FFFF).sum())
}

fn main() {
    for (k, table) in TABLES.iter().enumerate() {
        let name = table.name;
        let by = if k < TABLES.len() / 2 { "lowered" } else { "hand" };
        let Tally { instrs, turns } = count(table);
        println!("length {by} {name} {} {instrs} {turns}", table.instrs.len());
        let (nanos, sum) = run(table);
        println!("{by} plain {name} {nanos} {} {sum}", times(name));
    }
    for table in &TABLES[..TABLES.len() / 2] {
        let (nanos, sum) = run_straight(table.name);
        println!("straight rust {} {nanos} {} {sum}", table.name, times(table.name));
    }
}

//! The same loop as that of the driver, on a machine in plain Rust.

mod machine;

use machine::{Cells, Code, Instr, Num, Outcome, Scalar};
use std::hint::black_box;
use std::time::Instant;

const TURNS: Num = 1_000_000;
const RUNS: u32 = 5;
const EACH: u64 = 22;

/// Cell 0 counts down, cell 1 is a sum, and 64 cells from 2 on are read and written in turn.
fn code() -> Code {
    Code {
        instrs: vec![
            Instr::Const(TURNS),
            Instr::Store(0, None),
            Instr::Turn,
            Instr::Load(0),
            Instr::Const(1),
            Instr::Sub,
            Instr::Store(0, None),
            Instr::Load(0),
            Instr::Const(63),
            Instr::And,
            Instr::Load(1),
            Instr::Load(0),
            Instr::Const(63),
            Instr::And,
            Instr::LoadAt(2, 64),
            Instr::Add,
            Instr::StoreAt(2, 64, Some(Scalar::Int(32))),
            Instr::Load(1),
            Instr::Const(3),
            Instr::Add,
            Instr::Store(1, Some(Scalar::Int(32))),
            Instr::Load(0),
            Instr::JumpIfNot(24),
            Instr::Jump(2),
            Instr::Done,
        ],
        routines: Vec::new(),
    }
}

fn main() {
    let code = black_box(code());
    let start = Instant::now();
    let mut seen = (0, 0);
    for _ in 0..RUNS {
        let mut cells = Cells {
            numbers: vec![0; 66],
            stack: vec![0; 8],
            frames: Vec::new(),
        };
        match black_box(&code).run(0, &mut cells, &[], &mut ()) {
            Outcome::Done => seen = (cells.numbers[1], cells.numbers[2]),
            Outcome::True | Outcome::False => panic!("no guard"),
            Outcome::Trap(_) => panic!("no trap"),
        }
    }
    let nanos = start.elapsed().as_nanos();
    let count = u64::from(RUNS) * TURNS as u64 * EACH;
    println!("{nanos} {count} {} {}", seen.0, seen.1);
}

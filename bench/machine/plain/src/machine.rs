//! A stack machine of the same design as the proved one, in plain Rust: instructions in one list, fetched by their
//! place, one stack that was made before, one `match`.

pub type Num = i128;

#[derive(Clone, Copy)]
#[allow(dead_code)]
pub enum Scalar {
    Bool,
    Int(u8),
    Uint(u8),
}

fn conv(t: Scalar, v: Num) -> Num {
    match t {
        Scalar::Bool => (v != 0) as Num,
        Scalar::Int(size) => {
            let low = v as u128 & ((1 << size) - 1);
            if low < 1 << (size - 1) {
                low as Num
            } else {
                low as Num - (1 << size)
            }
        }
        Scalar::Uint(size) => (v as u128 & ((1 << size) - 1)) as Num,
    }
}

fn stored(t: Option<Scalar>, v: Num) -> Num {
    match t {
        None => v,
        Some(t) => conv(t, v),
    }
}

#[derive(Clone, Copy)]
#[allow(dead_code)]
pub enum Trap {
    Overflow,
    DivideByZero,
    ShiftRange,
    IndexRange,
    TurnLimit,
}

#[allow(dead_code)]
pub enum Outcome {
    Done,
    True,
    False,
    Trap(Trap),
}

#[derive(Clone, Copy)]
#[allow(dead_code)]
pub enum Instr {
    Const(Num),
    Load(u32),
    Store(u32, Option<Scalar>),
    Index(u32, u32),
    LoadAt(u32, u32),
    StoreAt(u32, u32, Option<Scalar>),
    Copy(u32, u32, u32, Option<Scalar>),
    CopyTo(u32, u32, u32, u32, Option<Scalar>),
    CopyFrom(u32, u32, u32, u32),
    Token(u32, u32),
    TokenAt(u32, u32, u32, u32),
    TokenList(u32, u32, u32, u32, u32),
    Zero(u32, u32),
    Neg,
    BitNot,
    Not,
    Add,
    Sub,
    Mul,
    Div,
    Mod,
    Shl,
    Shr,
    And,
    Or,
    Xor,
    Eq,
    Ne,
    Lt,
    Le,
    Gt,
    Ge,
    Jump(u32),
    JumpIfNot(u32),
    Turn,
    Call(u32),
    Return,
    Drop,
    Answer,
    Done,
}

pub struct Code {
    pub instrs: Vec<Instr>,
    pub routines: Vec<u32>,
}

/// What a run works on: made once, and never grown.
pub struct Cells {
    pub numbers: Vec<Num>,
    pub stack: Vec<Num>,
    pub frames: Vec<usize>,
}

struct Operands<'a> {
    stack: &'a mut [Num],
    top: usize,
}

impl Operands<'_> {
    #[inline(always)]
    fn pop(&mut self) -> Num {
        self.top -= 1;
        self.stack[self.top]
    }

    #[inline(always)]
    fn push(&mut self, v: Num) {
        self.stack[self.top] = v;
        self.top += 1;
    }

    #[inline(always)]
    fn two(&mut self, f: impl Fn(Num, Num) -> Result<Num, Trap>) -> Result<(), Trap> {
        let b = self.pop();
        let a = self.pop();
        self.push(f(a, b)?);
        Ok(())
    }

    #[inline(always)]
    fn compare(&mut self, f: impl Fn(Num, Num) -> bool) {
        let b = self.pop();
        let a = self.pop();
        self.push(f(a, b) as Num);
    }
}

#[inline(always)]
fn offset(o: Num, m: u32, n: u32) -> Result<usize, Trap> {
    if o < 0 || o > Num::from(n) - Num::from(m) {
        return Err(Trap::IndexRange);
    }
    Ok(o as usize)
}

fn whole(v: Option<Num>) -> Result<Num, Trap> {
    v.ok_or(Trap::Overflow)
}

fn copy_cells(d: usize, s: usize, n: u32, t: Option<Scalar>, cells: &mut [Num]) {
    for k in 0..n as usize {
        cells[d + k] = stored(t, cells[s + k]);
    }
}

fn shift(b: Num) -> Result<u32, Trap> {
    if (0..=127).contains(&b) {
        Ok(b as u32)
    } else {
        Err(Trap::ShiftRange)
    }
}

/// What is told of each instruction that runs.
pub trait Count {
    fn one(&mut self, instr: Instr);
}

/// Nothing is counted.
impl Count for () {
    #[inline(always)]
    fn one(&mut self, _instr: Instr) {}
}

/// How many instructions ran, and how many of them counted a turn.
#[derive(Default)]
#[allow(dead_code)]
pub struct Tally {
    pub instrs: u64,
    pub turns: u64,
}

impl Count for Tally {
    fn one(&mut self, instr: Instr) {
        self.instrs += 1;
        if let Instr::Turn = instr {
            self.turns += 1;
        }
    }
}

impl Code {
    pub fn run(&self, entry: u32, cells: &mut Cells, tokens: &[Vec<Num>], count: &mut impl Count) -> Outcome {
        match self.steps(entry, cells, tokens, count) {
            Ok(outcome) => outcome,
            Err(trap) => Outcome::Trap(trap),
        }
    }

    fn steps(
        &self,
        entry: u32,
        cells: &mut Cells,
        tokens: &[Vec<Num>],
        count: &mut impl Count,
    ) -> Result<Outcome, Trap> {
        let numbers = &mut cells.numbers[..];
        let frames = &mut cells.frames[..];
        let mut stack = Operands {
            stack: &mut cells.stack[..],
            top: 0,
        };
        let mut place = entry as usize;
        let mut depth = 0;
        let mut left = 1_048_576u32;
        loop {
            let instr = self.instrs[place];
            count.one(instr);
            match instr {
                Instr::Const(v) => stack.push(v),
                Instr::Load(c) => stack.push(numbers[c as usize]),
                Instr::Store(c, t) => numbers[c as usize] = stored(t, stack.pop()),
                Instr::Index(n, m) => {
                    let i = stack.pop();
                    let o = stack.pop();
                    let k = offset(i, 1, n)? as Num * Num::from(m);
                    stack.push(whole(o.checked_add(k))?);
                }
                Instr::LoadAt(c, n) => {
                    let o = offset(stack.pop(), 1, n)?;
                    stack.push(numbers[c as usize + o]);
                }
                Instr::StoreAt(c, n, t) => {
                    let v = stack.pop();
                    let o = offset(stack.pop(), 1, n)?;
                    numbers[c as usize + o] = stored(t, v);
                }
                Instr::Copy(d, s, n, t) => copy_cells(d as usize, s as usize, n, t, numbers),
                Instr::CopyTo(d, n, s, m, t) => {
                    let o = offset(stack.pop(), m, n)?;
                    copy_cells(d as usize + o, s as usize, m, t, numbers);
                }
                Instr::CopyFrom(d, s, n, m) => {
                    let o = offset(stack.pop(), m, n)?;
                    copy_cells(d as usize, s as usize + o, m, None, numbers);
                }
                Instr::Token(p, k) => stack.push(tokens[p as usize][k as usize]),
                Instr::TokenAt(p, k, m, n) => {
                    let i = offset(stack.pop(), 1, n)?;
                    stack.push(tokens[p as usize][k as usize + i * m as usize]);
                }
                Instr::TokenList(d, p, k, m, n) => {
                    for i in 0..n as usize {
                        let token = tokens[p as usize][k as usize + i * m as usize];
                        numbers[d as usize + i] = token;
                    }
                }
                Instr::Zero(c, n) => numbers[c as usize..c as usize + n as usize].fill(0),
                Instr::Neg => {
                    let a = stack.pop();
                    stack.push(whole(a.checked_neg())?);
                }
                Instr::BitNot => {
                    let a = stack.pop();
                    stack.push(!a);
                }
                Instr::Not => {
                    let a = stack.pop();
                    stack.push((a == 0) as Num);
                }
                Instr::Add => stack.two(|a, b| whole(a.checked_add(b)))?,
                Instr::Sub => stack.two(|a, b| whole(a.checked_sub(b)))?,
                Instr::Mul => stack.two(|a, b| whole(a.checked_mul(b)))?,
                Instr::Div => stack.two(|a, b| {
                    if b == 0 {
                        return Err(Trap::DivideByZero);
                    }
                    whole(a.checked_div(b))
                })?,
                Instr::Mod => stack.two(|a, b| match b {
                    0 => Err(Trap::DivideByZero),
                    -1 => Ok(0),
                    b => Ok(a % b),
                })?,
                Instr::Shl => stack.two(|a, b| {
                    let count = shift(b)?;
                    let v = a << count;
                    whole(if v >> count == a { Some(v) } else { None })
                })?,
                Instr::Shr => stack.two(|a, b| Ok(a >> shift(b)?))?,
                Instr::And => stack.two(|a, b| Ok(a & b))?,
                Instr::Or => stack.two(|a, b| Ok(a | b))?,
                Instr::Xor => stack.two(|a, b| Ok(a ^ b))?,
                Instr::Eq => stack.compare(|a, b| a == b),
                Instr::Ne => stack.compare(|a, b| a != b),
                Instr::Lt => stack.compare(|a, b| a < b),
                Instr::Le => stack.compare(|a, b| a <= b),
                Instr::Gt => stack.compare(|a, b| a > b),
                Instr::Ge => stack.compare(|a, b| a >= b),
                Instr::Jump(t) => {
                    place = t as usize;
                    continue;
                }
                Instr::JumpIfNot(t) => {
                    if stack.pop() == 0 {
                        place = t as usize;
                        continue;
                    }
                }
                Instr::Turn => {
                    if left == 0 {
                        return Err(Trap::TurnLimit);
                    }
                    left -= 1;
                }
                Instr::Call(r) => {
                    frames[depth] = place + 1;
                    depth += 1;
                    place = self.routines[r as usize] as usize;
                    continue;
                }
                Instr::Return => {
                    depth -= 1;
                    place = frames[depth];
                    continue;
                }
                Instr::Drop => {
                    stack.pop();
                }
                Instr::Answer => {
                    let v = stack.pop();
                    return Ok(if v == 0 { Outcome::False } else { Outcome::True });
                }
                Instr::Done => return Ok(Outcome::Done),
            }
            place += 1;
        }
    }
}

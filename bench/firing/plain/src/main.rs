//! The actors of the driver by hand: queues of the standard library, a journal, and each action written out.

use std::collections::VecDeque;
use std::hint::black_box;
use std::time::Instant;

type Num = i128;

const ROUNDS: u32 = 20_000;
const EACH: u32 = 64;

/// What an attempt to fire came to.
enum Fired {
    /// This action fired.
    By(u16),
    Waits,
    NoRoom,
}

/// An actor, as far as a burst sees it.
trait Actor {
    /// Fires once, with room for so many tokens in the outbox.
    fn fire(&mut self, inbox: &mut VecDeque<Num>, outbox: &mut VecDeque<Num>, room: usize) -> Fired;
}

struct Cell<A> {
    actor: A,
    inbox: VecDeque<Num>,
    outbox: VecDeque<Num>,
    journal: Vec<u16>,
}

/// How many firings were made of as many as are allowed.
fn burst<A: Actor>(cell: &mut Cell<A>, limit: u32, room: usize) -> u32 {
    for made in 0..limit {
        match cell.actor.fire(&mut cell.inbox, &mut cell.outbox, room) {
            Fired::By(action) => cell.journal.push(action),
            Fired::Waits | Fired::NoRoom => return made,
        }
    }
    limit
}

/// An actor whose actions take one token and send one.
macro_rules! single {
    ($name:ident, $($field:ident: $kind:ty)?, |$self:ident, $x:ident| $sent:expr) => {
        struct $name {
            $($field: $kind,)?
        }

        impl Actor for $name {
            fn fire(&mut self, inbox: &mut VecDeque<Num>, outbox: &mut VecDeque<Num>, room: usize) -> Fired {
                let Some(&$x) = inbox.front() else { return Fired::Waits };
                if outbox.len() + 1 > room {
                    return Fired::NoRoom;
                }
                let $self = self;
                let (action, sent): (u16, Num) = $sent;
                inbox.pop_front();
                outbox.push_back(sent & 255);
                Fired::By(action)
            }
        }
    };
}

single!(Inc, , |_actor, x| (0, x + 1));
single!(Add, k: Num, |actor, x| (0, x + actor.k));
single!(Wheel, state: u16, |actor, x| {
    let action = actor.state;
    actor.state = if action == 59 { 0 } else { action + 1 };
    (action, x + Num::from(action))
});

struct Flip {
    k: Num,
    second: bool,
}

impl Actor for Flip {
    fn fire(&mut self, inbox: &mut VecDeque<Num>, outbox: &mut VecDeque<Num>, room: usize) -> Fired {
        let Some(&x) = inbox.front() else { return Fired::Waits };
        if outbox.len() + 1 > room {
            return Fired::NoRoom;
        }
        inbox.pop_front();
        let (action, sent) = if self.second { (1, x) } else { (0, x ^ self.k) };
        self.second = !self.second;
        outbox.push_back(sent & 255);
        Fired::By(action)
    }
}

struct Rld {
    gives: bool,
    run: i8,
    level: i16,
}

impl Actor for Rld {
    fn fire(&mut self, inbox: &mut VecDeque<Num>, outbox: &mut VecDeque<Num>, room: usize) -> Fired {
        if !self.gives {
            if inbox.len() < 2 {
                return Fired::Waits;
            }
            let (Some(run), Some(level)) = (inbox.pop_front(), inbox.pop_front()) else { return Fired::Waits };
            self.run = run as i8;
            self.level = level as i16;
            self.gives = true;
            return Fired::By(0);
        }
        if self.run < 0 {
            return Fired::Waits;
        }
        if outbox.len() + 1 > room {
            return Fired::NoRoom;
        }
        if self.run > 0 {
            self.run -= 1;
            outbox.push_back(0);
            return Fired::By(1);
        }
        outbox.push_back(Num::from(self.level));
        self.gives = false;
        Fired::By(2)
    }
}

struct Zigzag;

const ZZ: [u8; 64] = [
    0, 1, 8, 16, 9, 2, 3, 10, 17, 24, 32, 25, 18, 11, 4, 5, 12, 19, 26, 33, 40, 48, 41, 34, 27, 20, 13, 6, 7, 14, 21,
    28, 35, 42, 49, 56, 57, 50, 43, 36, 29, 22, 15, 23, 30, 37, 44, 51, 58, 59, 52, 45, 38, 31, 39, 46, 53, 60, 61,
    54, 47, 55, 62, 63,
];

impl Actor for Zigzag {
    fn fire(&mut self, inbox: &mut VecDeque<Num>, outbox: &mut VecDeque<Num>, room: usize) -> Fired {
        if inbox.len() < 64 {
            return Fired::Waits;
        }
        if outbox.len() + 64 > room {
            return Fired::NoRoom;
        }
        let mut y: [Num; 64] = [0; 64];
        for (place, x) in ZZ.iter().zip(inbox.drain(..64)) {
            y[usize::from(*place)] = Num::from(x as i16);
        }
        outbox.extend(y);
        Fired::By(0)
    }
}

/// How many firings take 64 tokens, and how many tokens they send.
fn firings(name: &str) -> (u32, usize) {
    match name {
        "Zigzag" => (1, 64),
        "Rld" => (32 * 4, 32 * 3),
        _ => (64, 64),
    }
}

/// Token `k`. Runs are of two.
fn token(name: &str, k: u32) -> Num {
    if name == "Rld" && k % 2 == 0 { 2 } else { Num::from(k) % 32 }
}

fn round<A: Actor>(cell: &mut Cell<A>, name: &str) -> Num {
    for k in 0..EACH {
        cell.inbox.push_back(token(name, k));
    }
    let (fire, send) = firings(name);
    assert_eq!(burst(cell, fire, send), fire);
    let mut sum: Num = 0;
    for &token in &cell.outbox {
        sum = (sum * 3 + (token & 0xFFFF)) & 0xFFFF_FFFF;
    }
    cell.outbox.clear();
    cell.journal.clear();
    sum
}

fn measure<A: Actor>(name: &str, actor: A) {
    let (fire, send) = firings(name);
    let mut cell = Cell {
        actor,
        inbox: VecDeque::with_capacity(EACH as usize),
        outbox: VecDeque::with_capacity(send),
        journal: Vec::with_capacity(fire as usize),
    };
    let start = Instant::now();
    let mut last = 0;
    for _ in 0..ROUNDS {
        last = round(black_box(&mut cell), black_box(name));
    }
    println!("plain {name} {} {} {last}", start.elapsed().as_nanos(), u64::from(ROUNDS) * u64::from(fire));
}

fn main() {
    measure("Inc", Inc {});
    measure("Add", Add { k: black_box(5) });
    measure("Flip", Flip { k: black_box(255), second: false });
    measure("Rld", Rld { gives: false, run: 0, level: 0 });
    measure("Zigzag", Zigzag);
    measure("Wheel", Wheel { state: 0 });
}

//! A small script on which two builds of the Rust give other cells, where the smallest is too large to be found by
//! trying all: random scripts, of which the first that differs is made smaller, and changed at random, as long as
//! it still differs.
//!
//!   shrunk SEED SECONDS [mode=N]
//!
//! What it prints cannot lose a record, a literal or a variable.

mod both;
#[path = "../../tools/shapes.rs"]
#[allow(dead_code)]
mod shapes;

use both::{other, patched, shown, words, Out};
use shapes::{lits_mut, lits_of, smaller, Record, Rng, Script};
use std::time::Instant;

fn outs(s: &Script) -> (Out, Out) {
    let cells = s.cells(8, 64);
    (patched(&cells), other(&cells))
}

fn differs(s: &Script) -> bool {
    let (a, b) = outs(s);
    a != b
}

fn size(s: &Script) -> (usize, u32) {
    (s.cells(0, 0).len(), s.vars)
}

fn least(mut s: Script) -> Script {
    while let Some(t) = smaller(&s).into_iter().find(|t| size(t) < size(&s) && differs(t)) {
        s = t;
    }
    s
}

/// One to three changes of a literal, of an order, or of the options.
fn changed(rng: &mut Rng, s: &Script) -> Script {
    let mut t = s.clone();
    for _ in 0..rng.range(1, 3) {
        let i = rng.below(t.records.len() as u32) as usize;
        let j = rng.below(t.records.len() as u32) as usize;
        let n = lits_of(&t.records[i]).len() as u32;
        match rng.below(6) {
            0 => t.records.swap(i, j),
            1 => (t.phase, t.unit) = (rng.below(3), rng.pick(&shapes::UNITS)),
            2 if n > 0 => {
                lits_mut(&mut t.records[i]).remove(rng.below(n) as usize);
            }
            3 => {
                if let Record::Solve(_, b) = &mut t.records[i] {
                    *b = rng.pick(&[1, 2, 3, 9]);
                }
            }
            _ if n > 0 => {
                let l = rng.below(2 * t.vars);
                lits_mut(&mut t.records[i])[rng.below(n) as usize] = l;
            }
            _ => (),
        }
    }
    t
}

fn main() {
    let args: Vec<String> = std::env::args().skip(1).collect();
    let number = |i: usize| args.get(i).and_then(|a| a.parse::<u64>().ok()).expect("shrunk SEED SECONDS [mode=N]");
    let mode: Option<u32> = args.iter().find_map(|a| a.strip_prefix("mode=")).map(|m| m.parse().expect("a mode"));
    both::quietly();
    let mut rng = Rng(number(0));
    let began = Instant::now();
    let mut best: Option<Script> = None;
    let (mut tried, mut found) = (0u64, 0u64);
    while began.elapsed().as_secs() < number(1) {
        tried += 1;
        let mut s = match (&best, rng.chance(98)) {
            (Some(b), true) => changed(&mut rng, b),
            _ if rng.chance(50) => shapes::trimmed(&mut rng),
            _ => shapes::small(&mut rng),
        };
        s.mode = mode.unwrap_or(s.mode);
        if differs(&s) {
            found += 1;
            s = least(s);
            if best.as_ref().map_or(true, |b| size(&s) <= size(b)) {
                if best.as_ref().map_or(true, |b| size(&s) < size(b)) {
                    eprintln!("{:?} {}", size(&s), words(&s.cells(8, 64)));
                }
                best = Some(s);
            }
        }
    }
    println!("tried={} differ={}", tried, found);
    if let Some(s) = best {
        let (a, b) = outs(&s);
        println!("script  {}\npatched {}\nother   {}", words(&s.cells(8, 64)), shown(&a), shown(&b));
    }
}

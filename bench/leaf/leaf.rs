//! The leaf operations of the search in two builds: the proved slice code (the static library `leafbench`) and vectors laid out as batsat's
//! core keeps them. `leaf rattle|rust trail|watch TURNS` does TURNS times 64 enqueues and one way back, or TURNS walks of a list of 32 watches.
use std::env;
use std::hint::black_box;
use std::time::Instant;

#[link(name = "leafbench", kind = "static")]
extern "C" {
    fn leaf_trail(work: *mut u32, len: usize, order: *const u32, order_len: usize, n: u32) -> u64;
    fn leaf_watch(work: *mut u32, len: usize, order: *const u32, order_len: usize, n: u32) -> u64;
}

#[derive(Clone, Copy)]
struct VarData {
    reason: u32,
    level: i32,
}

#[derive(Clone, Copy)]
struct Watcher {
    _clause: u32,
    blocker: u32,
}

struct Core {
    assigns: Vec<u8>,
    data: Vec<VarData>,
    polarity: Vec<bool>,
    trail: Vec<u32>,
    limits: Vec<i32>,
    watches: Vec<Vec<Watcher>>,
    qhead: i32,
}

impl Core {
    fn new(n: usize) -> Core {
        Core {
            assigns: vec![2; n],
            data: vec![VarData { reason: u32::MAX, level: 0 }; n],
            polarity: vec![true; n],
            trail: Vec::new(),
            limits: Vec::new(),
            watches: (0..2 * n).map(|_| Vec::new()).collect(),
            qhead: 0,
        }
    }

    fn value(&self, p: u32) -> u8 {
        self.assigns[(p >> 1) as usize] ^ (p & 1) as u8
    }

    fn enqueue(&mut self, p: u32, from: u32) {
        let v = (p >> 1) as usize;
        self.assigns[v] = (p & 1) as u8;
        self.data[v] = VarData { reason: from, level: self.limits.len() as i32 };
        self.trail.push(p);
    }

    fn cancel_until(&mut self, level: usize, phase: u32) {
        if self.limits.len() <= level {
            return;
        }
        let at = self.limits[level] as usize;
        let last = *self.limits.last().unwrap() as usize;
        for c in (at..self.trail.len()).rev() {
            let p = self.trail[c];
            let v = (p >> 1) as usize;
            self.assigns[v] = 2;
            if phase > 1 || (phase == 1 && c > last) {
                self.polarity[v] = p & 1 != 0;
            }
        }
        self.qhead = at as i32;
        self.trail.truncate(at);
        self.limits.truncate(level);
    }

    // a walk as propagation does it: what stays is written back in order
    fn walk(&mut self, l: usize) -> u32 {
        let mut k = 0;
        let (mut i, mut j) = (0, 0);
        let n = self.watches[l].len();
        while i < n {
            let w = self.watches[l][i];
            if self.value(w.blocker) == 0 {
                k += 1;
            }
            self.watches[l][j] = w;
            i += 1;
            j += 1;
        }
        self.watches[l].truncate(j);
        k
    }
}

#[inline(never)]
fn rust_trail(order: &[u32], n: u32, phase: u32) -> usize {
    let mut s = Core::new(64);
    let mut k = 0;
    for _ in 0..n {
        s.limits.push(s.trail.len() as i32);
        for &p in order {
            s.enqueue(p, 0);
        }
        k += s.trail.len();
        s.cancel_until(0, phase);
    }
    black_box(&s.data[0].reason);
    black_box(&s.data[0].level);
    black_box(&s.polarity);
    black_box(&s.qhead);
    k
}

#[inline(never)]
fn rust_watch(order: &[u32], n: u32) -> u32 {
    let mut s = Core::new(64);
    for i in 0..32 {
        s.watches[1].push(Watcher { _clause: i, blocker: 2 * i + 2 });
    }
    for &p in order {
        s.enqueue(p, 0);
    }
    let mut k = 0u32;
    for _ in 0..n {
        k = k.wrapping_add(black_box(&mut s).walk(1));
    }
    k
}

fn main() {
    let args: Vec<String> = env::args().collect();
    let turns: u32 = args[3].parse().unwrap();
    let mut work = vec![7u32; 2114];
    // variables out of order; every third literal negated
    let order: Vec<u32> = (0..64u32).map(|i| 2 * (i * 37 % 64) + (i % 3 == 0) as u32).collect();
    let order = black_box(order);
    let t = Instant::now();
    let (ops, got) = match (args[1].as_str(), args[2].as_str()) {
        ("rattle", "trail") => (64, unsafe { leaf_trail(work.as_mut_ptr(), work.len(), order.as_ptr(), order.len(), turns) } as usize),
        ("rattle", "watch") => (32, unsafe { leaf_watch(work.as_mut_ptr(), work.len(), order.as_ptr(), order.len(), turns) } as usize),
        ("rust", "trail") => (64, rust_trail(&order, turns, black_box(2))),
        ("rust", "watch") => (32, rust_watch(&order, turns) as usize),
        _ => panic!("leaf rattle|rust trail|watch TURNS"),
    };
    let ns = t.elapsed().as_nanos() as f64;
    println!("{} {} result {} ns/op {:.2}", args[1], args[2], got, ns / (turns as f64 * ops as f64));
}

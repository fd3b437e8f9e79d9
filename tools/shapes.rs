//! Scripts of every shape: families made from their published definitions, random ones, and all small ones.

/// SplitMix64.
pub struct Rng(pub u64);

impl Rng {
    pub fn next(&mut self) -> u64 {
        self.0 = self.0.wrapping_add(0x9e3779b97f4a7c15);
        let mut z = self.0;
        z = (z ^ (z >> 30)).wrapping_mul(0xbf58476d1ce4e5b9);
        z = (z ^ (z >> 27)).wrapping_mul(0x94d049bb133111eb);
        z ^ (z >> 31)
    }
    pub fn below(&mut self, n: u32) -> u32 {
        (self.next() % n as u64) as u32
    }
    /// From low to high, both included.
    pub fn range(&mut self, low: u32, high: u32) -> u32 {
        low + self.below(high - low + 1)
    }
    pub fn chance(&mut self, percent: u32) -> bool {
        self.below(100) < percent
    }
    pub fn pick<T: Copy>(&mut self, from: &[T]) -> T {
        from[self.below(from.len() as u32) as usize]
    }
    fn shuffle<T>(&mut self, items: &mut [T]) {
        for i in (1..items.len()).rev() {
            items.swap(i, self.below(i as u32 + 1) as usize);
        }
    }
}

#[derive(Clone, PartialEq)]
pub enum Record {
    Clause(Vec<u32>),
    Solve(Vec<u32>, u32),
}
use Record::{Clause, Solve};

#[derive(Clone)]
pub struct Script {
    pub vars: u32,
    pub mode: u32,
    pub phase: u32,
    pub unit: u32,
    pub records: Vec<Record>,
}

impl Script {
    pub fn cells(&self, clauses: u32, literals: u32) -> Vec<u32> {
        let mut cells = vec![self.vars, clauses, literals, self.mode, self.phase, self.unit];
        for r in &self.records {
            match r {
                Clause(lits) => {
                    cells.extend([1, lits.len() as u32]);
                    cells.extend(lits);
                }
                Solve(lits, budget) => {
                    cells.extend([2, lits.len() as u32]);
                    cells.extend(lits);
                    cells.push(*budget);
                }
            }
        }
        cells
    }
}

pub fn lits_of(r: &Record) -> &Vec<u32> {
    match r {
        Clause(l) | Solve(l, _) => l,
    }
}

pub fn lits_mut(r: &mut Record) -> &mut Vec<u32> {
    match r {
        Clause(l) | Solve(l, _) => l,
    }
}

/// A script's neighbours: a record or a literal less, fewer variables, other options.
pub fn smaller(script: &Script) -> Vec<Script> {
    let mut all = vec![];
    for i in 0..script.records.len() {
        let mut s = script.clone();
        s.records.remove(i);
        all.push(s);
    }
    for i in 0..script.records.len() {
        for k in 0..lits_of(&script.records[i]).len() {
            let mut s = script.clone();
            lits_mut(&mut s.records[i]).remove(k);
            all.push(s);
        }
    }
    let used = |v: u32| script.records.iter().any(|r| lits_of(r).iter().any(|l| l >> 1 == v));
    for v in (0..script.vars).filter(|&v| script.vars > 1 && !used(v)) {
        let mut s = script.clone();
        s.vars -= 1;
        for r in s.records.iter_mut() {
            lits_mut(r).iter_mut().filter(|l| **l >> 1 > v).for_each(|l| *l -= 2);
        }
        all.push(s);
    }
    for (mode, phase, unit) in [(0, script.phase, script.unit), (script.mode, 0, script.unit), (script.mode, script.phase, 1)] {
        if (mode, phase, unit) != (script.mode, script.phase, script.unit) {
            all.push(Script { mode, phase, unit, ..script.clone() });
        }
    }
    all
}

/// Clauses over some variables.
pub struct Formula {
    pub vars: u32,
    pub clauses: Vec<Vec<u32>>,
}

// ---- literals

/// Literals of different variables.
fn distinct(rng: &mut Rng, vars: u32, size: u32) -> Vec<u32> {
    if size > 8 {
        let mut lits: Vec<u32> = (0..vars).map(|v| 2 * v + rng.below(2)).collect();
        rng.shuffle(&mut lits);
        lits.truncate(size as usize);
        return lits;
    }
    let mut lits: Vec<u32> = Vec::new();
    while (lits.len() as u32) < size.min(vars) {
        let l = rng.below(2 * vars);
        if !lits.iter().any(|&k| k >> 1 == l >> 1) {
            lits.push(l);
        }
    }
    lits
}

/// Literals that may repeat and contradict.
fn any(rng: &mut Rng, vars: u32, size: u32) -> Vec<u32> {
    (0..size.min(2 * vars)).map(|_| rng.below(2 * vars)).collect()
}

fn assumptions(rng: &mut Rng, vars: u32) -> Vec<u32> {
    match rng.below(20) {
        0..=7 => vec![],
        8..=12 => {
            let n = rng.range(1, 4);
            distinct(rng, vars, n)
        }
        13 => {
            let n = rng.range(1, vars);
            distinct(rng, vars, n)
        }
        14 | 15 => {
            let n = rng.range(1, 6);
            any(rng, vars, n)
        }
        16 => any(rng, vars, 2 * vars),
        17 => vec![rng.below(2 * vars); rng.range(1, 2 * vars) as usize],
        _ => {
            // a literal, others, and its negation
            let n = rng.range(0, 3);
            let mut lits = distinct(rng, vars, n.min(vars));
            let l = rng.below(2 * vars);
            lits.insert(rng.below(lits.len() as u32 + 1) as usize, l);
            lits.push(l ^ 1);
            lits.truncate(2 * vars as usize);
            lits
        }
    }
}

// ---- families

/// Random clauses of k literals over different variables.
pub fn k_sat(rng: &mut Rng, vars: u32, k: u32, ratio: f64) -> Formula {
    let count = (vars as f64 * ratio).round() as u32;
    Formula { vars, clauses: (0..count).map(|_| distinct(rng, vars, k)).collect() }
}

/// Each pigeon in a hole, no two in one.
pub fn pigeons(n: u32, holes: u32) -> Formula {
    let lit = |p: u32, h: u32| 2 * (p * holes + h);
    let mut clauses: Vec<Vec<u32>> = (0..n).map(|p| (0..holes).map(|h| lit(p, h)).collect()).collect();
    for h in 0..holes {
        for p in 0..n {
            for q in p + 1..n {
                clauses.push(vec![lit(p, h) + 1, lit(q, h) + 1]);
            }
        }
    }
    Formula { vars: n * holes, clauses }
}

/// An odd (or even) number of the variables is true.
fn parity_of(vars: &[u32], odd: bool, clauses: &mut Vec<Vec<u32>>) {
    for signs in 0..1u32 << vars.len() {
        if (signs.count_ones() % 2 == 1) == odd {
            continue; // signs is a row with this parity; the others are forbidden
        }
        clauses.push(vars.iter().enumerate().map(|(i, v)| 2 * v + (signs >> i & 1)).collect());
    }
}

/// Random equations modulo 2 over k variables each.
pub fn parity(rng: &mut Rng, vars: u32, k: u32, ratio: f64) -> Formula {
    let mut clauses = vec![];
    for _ in 0..(vars as f64 * ratio).round() as u32 {
        let of: Vec<u32> = distinct(rng, vars, k).iter().map(|l| l >> 1).collect();
        parity_of(&of, rng.chance(50), &mut clauses);
    }
    Formula { vars, clauses }
}

/// Tseitin's parities on a cycle of n vertices with a random matching; an odd charge has no model.
pub fn tseitin(rng: &mut Rng, half: u32, odd: bool) -> Formula {
    let n = 2 * half;
    let mut at: Vec<Vec<u32>> = vec![vec![]; n as usize];
    let mut vars = 0;
    let mut order: Vec<u32> = (0..n).collect();
    rng.shuffle(&mut order);
    let cycle = (0..n).map(|v| (v, (v + 1) % n));
    let matching = (0..half).map(|i| (order[2 * i as usize], order[2 * i as usize + 1]));
    for (a, b) in cycle.chain(matching) {
        at[a as usize].push(vars);
        at[b as usize].push(vars);
        vars += 1;
    }
    let mut clauses = vec![];
    let charged = rng.below(n);
    for (v, edges) in at.iter().enumerate() {
        parity_of(edges, odd && v as u32 == charged, &mut clauses);
    }
    Formula { vars, clauses }
}

/// A random graph of n vertices with `edges` edges, in k colours.
pub fn colouring(rng: &mut Rng, n: u32, edges: u32, k: u32, one_each: bool) -> Formula {
    let lit = |v: u32, c: u32| 2 * (v * k + c);
    let mut clauses: Vec<Vec<u32>> = (0..n).map(|v| (0..k).map(|c| lit(v, c)).collect()).collect();
    if one_each {
        for v in 0..n {
            for c in 0..k {
                for d in c + 1..k {
                    clauses.push(vec![lit(v, c) + 1, lit(v, d) + 1]);
                }
            }
        }
    }
    for _ in 0..edges {
        let e = distinct(rng, n, 2);
        for c in 0..k {
            clauses.push(vec![lit(e[0] >> 1, c) + 1, lit(e[1] >> 1, c) + 1]);
        }
    }
    Formula { vars: n * k, clauses }
}

/// n queens on an n by n board, none attacking another.
pub fn queens(n: u32) -> Formula {
    let lit = |r: u32, c: u32| 2 * (r * n + c);
    let mut clauses: Vec<Vec<u32>> = (0..n).map(|r| (0..n).map(|c| lit(r, c)).collect()).collect();
    for a in 0..n * n {
        for b in a + 1..n * n {
            let (r, c, s, d) = (a / n, a % n, b / n, b % n);
            if r == s || c == d || r + c == s + d || r + d == s + c {
                clauses.push(vec![lit(r, c) + 1, lit(s, d) + 1]);
            }
        }
    }
    Formula { vars: n * n, clauses }
}

/// 1 to n in two colours: no progression of j in the first, none of k in the second (van der Waerden).
pub fn progressions(j: u32, k: u32, n: u32) -> Formula {
    let mut clauses = vec![];
    for (size, sign) in [(j, 1), (k, 0)] {
        for first in 0..n {
            for step in (1..n).take_while(|s| first + s * (size - 1) < n) {
                clauses.push((0..size).map(|i| 2 * (first + i * step) + sign).collect());
            }
        }
    }
    Formula { vars: n, clauses }
}

/// A linear order of n things with no first one.
pub fn ordering(n: u32) -> Formula {
    // a before b
    let lit = |a: u32, b: u32| {
        let (i, j) = (a.min(b), a.max(b));
        2 * (i * n - i * (i + 1) / 2 + j - i - 1) + (a > b) as u32
    };
    let mut clauses = vec![];
    for a in 0..n {
        for b in 0..n {
            for c in 0..n {
                if a != b && b != c && a != c {
                    clauses.push(vec![lit(a, b) ^ 1, lit(b, c) ^ 1, lit(a, c)]);
                }
            }
        }
        clauses.push((0..n).filter(|&b| b != a).map(|b| lit(b, a)).collect());
    }
    Formula { vars: n * (n - 1) / 2, clauses }
}

/// Dominoes on an n by n board that lacks two opposite corners.
pub fn dominoes(n: u32) -> Formula {
    let mut vars = 0;
    let mut at: Vec<Vec<u32>> = vec![vec![]; (n * n) as usize];
    for r in 0..n {
        for c in 0..n {
            for (s, d) in [(r + 1, c), (r, c + 1)] {
                let (a, b) = (r * n + c, s * n + d);
                if s < n && d < n && a != 0 && b != n * n - 1 {
                    at[a as usize].push(vars);
                    at[b as usize].push(vars);
                    vars += 1;
                }
            }
        }
    }
    let mut clauses = vec![];
    for (square, edges) in at.iter().enumerate() {
        if square == 0 || square as u32 == n * n - 1 {
            continue;
        }
        clauses.push(edges.iter().map(|e| 2 * e).collect());
        for (i, e) in edges.iter().enumerate() {
            for f in &edges[i + 1..] {
                clauses.push(vec![2 * e + 1, 2 * f + 1]);
            }
        }
    }
    Formula { vars, clauses }
}

/// A Latin square of order n, with some cells given.
pub fn latin(rng: &mut Rng, n: u32, given: u32) -> Formula {
    let lit = |r: u32, c: u32, k: u32| 2 * ((r * n + c) * n + k);
    let mut clauses = vec![];
    for a in 0..n {
        for b in 0..n {
            let lines: [Vec<u32>; 3] = [
                (0..n).map(|k| lit(a, b, k)).collect(),
                (0..n).map(|k| lit(a, k, b)).collect(),
                (0..n).map(|k| lit(k, a, b)).collect(),
            ];
            for line in lines {
                for (i, x) in line.iter().enumerate() {
                    for y in &line[i + 1..] {
                        clauses.push(vec![x + 1, y + 1]);
                    }
                }
                clauses.push(line);
            }
        }
    }
    for _ in 0..given {
        let (r, c, k) = (rng.below(n), rng.below(n), rng.below(n));
        clauses.push(vec![lit(r, c, k)]);
    }
    Formula { vars: n * n * n, clauses }
}

/// Implications in a row, and some across.
pub fn chain(rng: &mut Rng, vars: u32) -> Formula {
    let mut clauses: Vec<Vec<u32>> = (1..vars).map(|v| vec![2 * v - 1, 2 * v]).collect();
    for _ in 0..rng.below(vars / 4 + 2) {
        clauses.push(distinct(rng, vars, 3));
    }
    Formula { vars, clauses }
}

/// The same formula with other variable numbers, its clauses and their literals in another order.
fn renamed(rng: &mut Rng, f: &mut Formula) {
    let mut names: Vec<u32> = (0..f.vars).collect();
    rng.shuffle(&mut names);
    for c in f.clauses.iter_mut() {
        for l in c.iter_mut() {
            *l = 2 * names[(*l >> 1) as usize] + (*l & 1);
        }
        rng.shuffle(c);
    }
    rng.shuffle(&mut f.clauses);
}

// ---- scripts

/// A script's clause has no more literals.
const LONGEST_CLAUSE: u32 = 211;

pub const UNITS: [u32; 9] = [1, 1, 2, 3, 5, 10, 50, 100, 1000];
const BUDGETS: [u32; 9] = [0, 1, 1, 2, 3, 5, 10, 100, 1000];

fn budget(rng: &mut Rng, vars: u32) -> u32 {
    if vars <= 60 && rng.chance(10) { 1000000 } else { rng.pick(&BUDGETS) }
}

fn options(rng: &mut Rng, vars: u32, records: Vec<Record>) -> Script {
    let unit = if rng.chance(10) { rng.range(1, 1000) } else { rng.pick(&UNITS) };
    Script { vars, mode: rng.below(3), phase: rng.below(3), unit, records }
}

fn solve(rng: &mut Rng, vars: u32) -> Record {
    let lits = assumptions(rng, vars);
    Solve(lits, budget(rng, vars))
}

/// A clause that says little: both signs, repeats, a unit, seldom none.
fn odd(rng: &mut Rng, vars: u32) -> Vec<u32> {
    match rng.below(12) {
        0 => vec![],
        1..=3 => vec![rng.below(2 * vars)],
        4..=6 => {
            let l = rng.below(2 * vars);
            let n = rng.below(3);
            let mut lits = any(rng, vars, n);
            lits.insert(rng.below(lits.len() as u32 + 1) as usize, l);
            lits.push(l ^ 1);
            lits.truncate(2 * vars as usize);
            lits
        }
        7..=9 => {
            let n = rng.range(1, 3);
            let mut lits = distinct(rng, vars, n);
            let again = lits.clone();
            lits.extend(again);
            rng.shuffle(&mut lits);
            lits
        }
        _ => {
            let n = rng.range(1, (2 * vars).min(LONGEST_CLAUSE));
            any(rng, vars, n)
        }
    }
}

/// A formula's clauses with solves around and between.
fn told(rng: &mut Rng, mut f: Formula) -> Script {
    if rng.chance(60) {
        renamed(rng, &mut f);
    }
    let vars = f.vars;
    let style = rng.below(10);
    let mut records: Vec<Record>;
    let mut width = vars;
    match style {
        0..=3 => {
            // all clauses, then solves
            records = f.clauses.into_iter().map(Clause).collect();
            for _ in 0..rng.range(1, 3) {
                records.push(solve(rng, vars));
            }
        }
        4 | 5 => {
            // solves and odd clauses in between
            let every = rng.range(2, 4 + f.clauses.len() as u32 / 2);
            records = vec![];
            for c in f.clauses {
                records.push(Clause(c));
                if rng.below(every) == 0 {
                    records.push(solve(rng, vars));
                }
                if rng.below(2 * every) == 0 {
                    records.push(Clause(odd(rng, vars)));
                }
            }
            records.push(solve(rng, vars));
        }
        6 | 7 => {
            // one question in small portions, then at length
            records = f.clauses.into_iter().map(Clause).collect();
            let lits = assumptions(rng, vars);
            for _ in 0..rng.range(1, 8) {
                let portion = rng.pick(&[0, 1, 1, 2, 3, 7]);
                records.push(Solve(lits.clone(), portion));
            }
            records.push(Solve(lits, 2000));
        }
        _ => {
            // clauses that hold only under a selector
            let selectors = rng.range(1, 4).min(4096 - vars);
            width = vars + selectors;
            records = vec![];
            for mut c in f.clauses {
                if rng.chance(40) && c.len() < (2 * vars).min(LONGEST_CLAUSE) as usize {
                    c.push(2 * (vars + rng.below(selectors)) + 1);
                }
                records.push(Clause(c));
            }
            for _ in 0..rng.range(2, 5) {
                let mut lits: Vec<u32> = (0..selectors).filter(|_| rng.chance(70)).map(|s| 2 * (vars + s)).collect();
                rng.shuffle(&mut lits);
                if rng.chance(30) {
                    lits.push(rng.below(2 * width));
                }
                records.push(Solve(lits, budget(rng, width)));
            }
            records.push(Solve(vec![], budget(rng, width)));
        }
    }
    options(rng, width, records)
}

pub fn tiny(rng: &mut Rng) -> Script {
    let vars = rng.range(1, 4);
    let mut records = vec![];
    for _ in 0..rng.range(1, 12) {
        records.push(if rng.chance(35) {
            solve(rng, vars)
        } else if rng.chance(30) {
            Clause(odd(rng, vars))
        } else {
            let n = rng.range(1, 4);
            Clause(distinct(rng, vars, n))
        });
    }
    records.push(solve(rng, vars));
    options(rng, vars, records)
}

pub fn small(rng: &mut Rng) -> Script {
    let vars = rng.range(4, 14);
    let count = vars * rng.range(5, 10) / 2;
    let clauses = (0..count)
        .map(|_| {
            let n = rng.pick(&[1, 2, 2, 3, 3, 3, 3, 3, 4, 4]);
            if rng.chance(4) { any(rng, vars, n) } else { distinct(rng, vars, n) }
        })
        .collect();
    told(rng, Formula { vars, clauses })
}

/// A long clause is learnt, then a unit makes one of its literals false for good, with more clauses and solves.
pub fn trimmed(rng: &mut Rng) -> Script {
    let vars = rng.range(6, 10);
    let long = rng.range(4, vars - 1);
    let mut records = vec![];
    let more = |rng: &mut Rng, records: &mut Vec<Record>, most: u32| {
        for _ in 0..rng.below(most) {
            let n = rng.range(2, 3);
            records.push(Clause(distinct(rng, vars, n)));
        }
    };
    let held: Vec<u32> = (0..long).map(|v| 2 * v).collect();
    more(rng, &mut records, 3);
    for sign in 0..2 {
        let mut c: Vec<u32> = held.iter().copied().filter(|_| rng.chance(85)).collect();
        c.push(2 * (vars - 1) + sign);
        records.push(Clause(c));
    }
    more(rng, &mut records, 3);
    records.push(solve(rng, vars));
    records.push(Clause(vec![2 * rng.below(long) + 1]));
    more(rng, &mut records, 4);
    for _ in 0..rng.range(1, 2) {
        records.push(solve(rng, vars));
    }
    options(rng, vars, records)
}

pub fn random_sat(rng: &mut Rng) -> Script {
    let (k, ratio, low, high) = rng.pick(&[
        (2, 1.0, 8, 60),
        (3, 4.26, 12, 40),
        (3, 4.26, 12, 60),
        (3, 3.9, 20, 60),
        (3, 4.7, 12, 50),
        (4, 9.9, 8, 20),
        (5, 21.1, 6, 12),
    ]);
    let vars = rng.range(low, high);
    let f = k_sat(rng, vars, k, ratio);
    told(rng, f)
}

pub fn pigeonhole(rng: &mut Rng) -> Script {
    let holes = rng.range(1, 5);
    let n = (holes + rng.below(3)).max(2) - rng.below(2);
    told(rng, pigeons(n, holes))
}

pub fn parities(rng: &mut Rng) -> Script {
    let f = if rng.chance(50) {
        let half = rng.range(2, 6);
        let odd = rng.chance(60);
        tseitin(rng, half, odd)
    } else {
        let vars = rng.range(5, 18);
        let k = rng.pick(&[2, 3, 3, 4]);
        let ratio = rng.pick(&[0.7, 0.9, 1.0, 1.1]);
        parity(rng, vars, k, ratio)
    };
    told(rng, f)
}

pub fn colours(rng: &mut Rng) -> Script {
    let n = rng.range(4, 16);
    let (k, edges) = rng.pick(&[(2, n), (3, 2 * n), (3, n * 23 / 10), (4, 4 * n)]);
    let one_each = rng.chance(50);
    let f = colouring(rng, n, edges, k, one_each);
    told(rng, f)
}

pub fn boards(rng: &mut Rng) -> Script {
    let n = rng.range(2, 8);
    let f = queens(n);
    let vars = f.vars;
    let mut s = told(rng, f);
    // queens that are set by assumption
    for _ in 0..rng.below(4) {
        let lits = (0..rng.range(1, 3)).map(|_| 2 * rng.below(vars)).collect();
        s.records.push(Solve(lits, 1000));
    }
    s
}

pub fn others(rng: &mut Rng) -> Script {
    let f = match rng.below(4) {
        0 => {
            let (j, k, n) = rng.pick(&[(3, 3, 8), (3, 3, 9), (3, 4, 17), (3, 4, 18), (3, 5, 21), (3, 5, 22), (4, 4, 28)]);
            progressions(j, k, n)
        }
        1 => ordering(rng.range(3, 8)),
        2 => dominoes(rng.range(3, 5)),
        _ => {
            let n = rng.range(2, 4);
            let given = rng.below(n * n);
            latin(rng, n, given)
        }
    };
    told(rng, f)
}

/// Up to 4,096 variables, more than 32 levels, and up to 2 V assumptions.
pub fn wide(rng: &mut Rng) -> Script {
    let vars = rng.pick(&[40, 64, 100, 300, 1000, 4096]);
    let f = if rng.chance(50) { chain(rng, vars) } else { k_sat(rng, vars, 3, 2.5) };
    let mut records: Vec<Record> = f.clauses.into_iter().map(Clause).collect();
    for _ in 0..rng.range(1, 4) {
        let n = rng.pick(&[0, 1, 33, 40, vars, 2 * vars]);
        let lits = if rng.chance(50) { distinct(rng, vars, n) } else { any(rng, vars, n) };
        records.push(Solve(lits, rng.pick(&[1, 20, 200])));
    }
    options(rng, vars, records)
}

/// A few hundred conflicts each.
pub fn middling(rng: &mut Rng) -> Script {
    let f = match rng.below(8) {
        0 | 1 | 2 => {
            let vars = rng.range(60, 110);
            k_sat(rng, vars, 3, 4.26)
        }
        3 => pigeons(rng.range(6, 7), 6),
        4 => {
            let vars = rng.range(20, 28);
            parity(rng, vars, 3, 1.0)
        }
        5 => {
            let half = rng.range(6, 10);
            tseitin(rng, half, true)
        }
        6 => {
            let n = rng.range(20, 40);
            colouring(rng, n, n * 23 / 10, 3, true)
        }
        _ => queens(rng.range(8, 10)),
    };
    let mut s = told(rng, f);
    let vars = s.vars;
    let n = rng.below(3);
    let lits = distinct(rng, vars, n);
    s.records.push(Solve(lits, 1500));
    s
}

/// Past 5,000 conflicts, where the activities are scaled.
pub fn long(rng: &mut Rng) -> Script {
    let (mut f, budget) = match rng.below(6) {
        0 | 1 => {
            let vars = rng.range(180, 240);
            (k_sat(rng, vars, 3, 4.3), 8000)
        }
        2 => (pigeons(9, 8), 7000),
        3 => {
            let vars = rng.range(48, 60);
            (parity(rng, vars, 3, 1.0), 9000)
        }
        4 => {
            let half = rng.range(18, 24);
            (tseitin(rng, half, true), 9000)
        }
        _ => {
            let n = rng.range(90, 120);
            (colouring(rng, n, n * 235 / 100, 3, true), 8000)
        }
    };
    renamed(rng, &mut f);
    let vars = f.vars;
    let mut records: Vec<Record> = f.clauses.into_iter().map(Clause).collect();
    let n = rng.below(3);
    records.push(Solve(distinct(rng, vars, n), budget));
    records.push(Solve(assumptions(rng, vars), 500));
    options(rng, vars, records)
}

/// As many conflicts as storage allows.
pub fn longest(rng: &mut Rng) -> Script {
    let mut f = if rng.chance(50) { k_sat(rng, 250, 3, 4.3) } else { pigeons(10, 9) };
    renamed(rng, &mut f);
    let vars = f.vars;
    let mut records: Vec<Record> = f.clauses.into_iter().map(Clause).collect();
    records.push(Solve(vec![], rng.pick(&[20000, 30000])));
    options(rng, vars, records)
}

/// One solve of more than 10,240 conflicts with unit 1: past the table of Luby's terms (terms 0 to 1,022, 5,120 conflicts) and past
/// terms 1,023 to 2,045, which repeat it, so that a table that wraps would show. Solves under many assumptions, which end by themselves,
/// show what state it left.
pub fn restarts(rng: &mut Rng) -> Script {
    let mut f = k_sat(rng, 250, 3, 4.3);
    renamed(rng, &mut f);
    let vars = f.vars;
    let mut records: Vec<Record> = f.clauses.into_iter().map(Clause).collect();
    records.push(Solve(vec![], 14000));
    for _ in 0..4 {
        records.push(Solve(distinct(rng, vars, 12), 3000));
    }
    Script { unit: 1, ..options(rng, vars, records) }
}

// ---- all small scripts

/// All lists of up to `length` of the kinds, in turn.
fn lists<T: Clone>(kinds: &[T], length: usize) -> Vec<Vec<T>> {
    let mut all: Vec<Vec<T>> = vec![vec![]];
    let mut from = 0;
    for _ in 0..length {
        let to = all.len();
        for i in from..to {
            for k in kinds {
                let mut longer = all[i].clone();
                longer.push(k.clone());
                all.push(longer);
            }
        }
        from = to;
    }
    all
}

/// All sets of up to `size` of the kinds, each in the kinds' order.
fn sets<T: Clone>(kinds: &[T], size: usize) -> Vec<Vec<T>> {
    let mut all: Vec<(usize, Vec<T>)> = vec![(0, vec![])];
    let mut from = 0;
    for _ in 0..size {
        let to = all.len();
        for i in from..to {
            for k in all[i].0..kinds.len() {
                let mut larger = all[i].1.clone();
                larger.push(kinds[k].clone());
                all.push((k + 1, larger));
            }
        }
        from = to;
    }
    all.into_iter().map(|(_, s)| s).collect()
}

/// Clauses of 1 to `width` literals over different variables, upward.
fn plain_clauses(vars: u32, width: usize) -> Vec<Vec<u32>> {
    let lits: Vec<u32> = (0..2 * vars).collect();
    sets(&lits, width)
        .into_iter()
        .filter(|c| !c.is_empty() && c.windows(2).all(|w| w[0] >> 1 != w[1] >> 1))
        .collect()
}

fn each_option(vars: u32, records: &[Record], units: &[u32], modes: &[u32], run: &mut dyn FnMut(Script)) {
    for &mode in modes {
        for phase in 0..3 {
            for &unit in units {
                run(Script { vars, mode, phase, unit, records: records.to_vec() });
            }
        }
    }
}

/// V = 1: all lists of up to three clauses of up to two literals as the script has them, then two
/// solves, with all lists of up to two assumptions in the first; all modes and phases.
pub fn all_of_one(run: &mut dyn FnMut(Script)) {
    let words = lists(&[0, 1], 2);
    for clauses in lists(&words, 3) {
        for lits in &words {
            for budget in [0, 1] {
                let mut records: Vec<Record> = clauses.iter().cloned().map(Clause).collect();
                records.push(Solve(lits.clone(), budget));
                records.push(Solve(vec![], 3));
                each_option(1, &records, &[1], &[0, 1, 2], run);
            }
        }
    }
}

/// V = 2: all lists of up to four of the plain clauses, the empty one and one with both signs, then two
/// solves, with all lists of up to two assumptions in the first; all phases, modes 0 and 2.
pub fn all_of_two(run: &mut dyn FnMut(Script)) {
    let mut kinds = plain_clauses(2, 2);
    kinds.extend([vec![], vec![2, 3]]);
    let words = lists(&[0, 1, 2, 3], 2);
    for clauses in lists(&kinds, 4) {
        for lits in &words {
            let mut records: Vec<Record> = clauses.iter().cloned().map(Clause).collect();
            records.push(Solve(lits.clone(), 9));
            records.push(Solve(vec![], 9));
            each_option(2, &records, &[1], &[0, 2], run);
        }
    }
}

/// V = 3: all sets of up to four of the 26 plain clauses, then two solves, with all lists of up to two
/// assumptions in the first; all phases.
pub fn all_of_three(run: &mut dyn FnMut(Script)) {
    let words = lists(&[0, 1, 2, 3, 4, 5], 2);
    for clauses in sets(&plain_clauses(3, 3), 4) {
        for lits in &words {
            let mut records: Vec<Record> = clauses.iter().cloned().map(Clause).collect();
            records.push(Solve(lits.clone(), 9));
            records.push(Solve(vec![], 9));
            each_option(3, &records, &[1], &[2], run);
        }
    }
}

/// V = 3: all 256 sets of clauses of three literals, upward and downward, a solve after each clause or
/// at the end only, budgets 0 to 3, then a solve with every seventh list of up to three assumptions; all options.
pub fn all_threes(run: &mut dyn FnMut(Script)) {
    let kinds: Vec<Vec<u32>> = plain_clauses(3, 3).into_iter().filter(|c| c.len() == 3).collect();
    let words = lists(&[0, 1, 2, 3, 4, 5], 3);
    for mut clauses in sets(&kinds, 8) {
        for lits in words.iter().step_by(7) {
            for (i, between) in [(0, false), (1, true), (2, false), (3, true)] {
                let mut records = vec![];
                for c in &clauses {
                    records.push(Clause(c.clone()));
                    if between {
                        records.push(Solve(vec![], i));
                    }
                }
                records.push(Solve(lits.clone(), i));
                records.push(Solve(vec![], 9));
                each_option(3, &records, &[1, 100], &[0, 1, 2], run);
                clauses.reverse();
            }
        }
    }
}

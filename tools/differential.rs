//! Runs scripts through the engine (the static library) and the oracle (the patched Rust) in one process
//! and compares every out cell.
//!
//!   differential SEED [SCALE] [SHAPE]...   SCALE percent of each shape's random scripts, 100 if not given
//!
//! Of an accepted script that never runs short of storage all cells are compared; of one that runs short,
//! those before the record that does, and that this record says so. After each run the lent slices are
//! looked at too: work and activities zero as far as they were asked for, all else as found.
//! The first failing scripts are made smaller and written to mismatch.txt in the folder of the run, smallest first;
//! with SHRINK=0 in the environment, as they are.

mod compare;
mod lent;
mod shapes;

use compare::{attempt, Limits};
use lent::{work_needed, Answer, Lent};
use shapes::{smaller, Record, Rng, Script};
use std::fmt::Write as _;
use std::io::Write as _;
use std::time::Instant;

// ---- sums

#[derive(Default, Clone)]
struct Totals {
    scripts: u64,
    records: u64,
    solves: u64,
    answers: [u64; 3],
    conflicts: u64,
    restarts: u64,
    longest: u64,
    /// Runs of more than 5,000 conflicts with C of 5,000 and more.
    past_5000: u64,
    short: u64,
    mismatches: u64,
}

impl Totals {
    fn add(&mut self, t: &Totals) {
        self.scripts += t.scripts;
        self.records += t.records;
        self.solves += t.solves;
        for i in 0..3 {
            self.answers[i] += t.answers[i];
        }
        self.conflicts += t.conflicts;
        self.restarts += t.restarts;
        self.longest = self.longest.max(t.longest);
        self.past_5000 += t.past_5000;
        self.short += t.short;
        self.mismatches += t.mismatches;
    }

    fn line(&self, name: &str, seconds: f64) -> String {
        format!(
            "{:<14} scripts={} records={} solves={} true={} false={} undef={} conflicts={} restarts={} longest={} past-5000={} short={} mismatches={} seconds={:.1}",
            name, self.scripts, self.records, self.solves, self.answers[0], self.answers[1], self.answers[2],
            self.conflicts, self.restarts, self.longest, self.past_5000, self.short, self.mismatches, seconds
        )
    }
}

// ---- a failing script, made smaller

fn smallest(lent: &mut Lent, script: &Script, kind: Limits) -> Script {
    let mut s = script.clone();
    if std::env::var("SHRINK").is_ok_and(|v| v == "0") {
        return s;
    }
    let began = Instant::now();
    while began.elapsed().as_secs() < 20 {
        match smaller(&s).into_iter().find(|t| attempt(lent, t, kind).fault.is_some()) {
            Some(t) => s = t,
            None => break,
        }
    }
    s
}

fn words(cells: &[u32]) -> String {
    cells.iter().map(|c| c.to_string()).collect::<Vec<_>>().join(" ")
}

// ---- a shape

struct Bench {
    lent: Lent,
    faults: Vec<(Vec<u32>, String)>,
}

impl Bench {
    fn compare(&mut self, script: &Script, kind: Limits, totals: &mut Totals) {
        let t = attempt(&mut self.lent, script, kind);
        totals.scripts += 1;
        totals.records += script.records.len() as u64;
        let mut at = 0;
        for r in &script.records {
            at += 1;
            if let Record::Solve(..) = r {
                totals.solves += 1;
                totals.answers[t.oracle[at - 1] as usize] += 1;
                at += 2 + t.oracle[at + 1] as usize;
            }
        }
        totals.conflicts += t.cost.conflicts;
        totals.restarts += t.cost.restarts;
        totals.longest = totals.longest.max(t.cost.conflicts);
        totals.past_5000 += (t.cost.conflicts > 5000 && t.cells[1] >= 5000 && !t.short) as u64;
        totals.short += t.short as u64;
        if t.fault.is_some() {
            totals.mismatches += 1;
            if self.faults.len() < 3 {
                let s = smallest(&mut self.lent, script, kind);
                let t = attempt(&mut self.lent, &s, kind);
                let mut text = String::new();
                let _ = writeln!(text, "{}\nscript {}\noracle {}", t.fault.unwrap_or_default(), words(&t.cells), words(&t.oracle));
                let _ = match &t.engine {
                    Ok(Answer::Ran(out)) => writeln!(text, "engine {}", words(out)),
                    other => writeln!(text, "engine {:?}", other),
                };
                self.faults.push((t.cells, text));
                self.save();
            }
        }
    }

    fn save(&mut self) {
        self.faults.sort_by_key(|(cells, _)| cells.len());
        let mut file = std::fs::File::create("mismatch.txt").expect("mismatch.txt");
        for (_, text) in &self.faults {
            writeln!(file, "{}", text).expect("mismatch.txt");
        }
    }
}

fn some_limits(rng: &mut Rng) -> Limits {
    match rng.below(8) {
        0..=3 => Limits::Exact,
        4 | 5 => Limits::Slack(rng.below(20), rng.below(60)),
        6 => Limits::Short { clauses: 1, literals: 0 },
        _ => {
            let n = rng.pick(&[1, 1, 2, 5, 20]);
            if rng.chance(50) {
                Limits::Short { clauses: 0, literals: n }
            } else {
                Limits::Short { clauses: n, literals: 0 }
            }
        }
    }
}

// ---- refusals

/// Document 01's table, read a second time.
fn judge(script: &[u32], work: usize, activities: usize, out: usize) -> Option<(u32, u64)> {
    let n = script.len();
    if n == 0 {
        return None;
    }
    if n < 6 {
        return Some((1, n as u64));
    }
    let vars = script[0] as u64;
    if !(1..=4096).contains(&vars) {
        return Some((2, 0));
    }
    let over = [(1, 65535), (2, 1048576)];
    if let Some((i, _)) = over.iter().find(|&&(i, most)| script[i] > most) {
        return Some((3, *i as u64));
    }
    let outside = [(3, 0, 2), (4, 0, 2), (5, 1, 1000)];
    if let Some((i, ..)) = outside.iter().find(|&&(i, low, high)| !(low..=high).contains(&script[i])) {
        return Some((4, *i as u64));
    }
    let need = work_needed(script);
    if work < need {
        return Some((5, need as u64));
    }
    if (activities as u64) < vars {
        return Some((6, vars));
    }
    let mut at = 6;
    let mut cells = 0;
    while at < n {
        let solve = match script[at] {
            1 => 0,
            2 => 1,
            _ => return Some((7, at as u64)),
        };
        if at + 1 == n {
            return Some((8, n as u64));
        }
        let count = script[at + 1];
        let most = if solve == 0 { (2 * vars).min(211) } else { 2 * vars };
        if count as u64 > most {
            return Some((10, at as u64 + 1));
        }
        let end = at + 2 + count as usize + solve;
        if end > n {
            return Some((8, n as u64));
        }
        if let Some(i) = (at + 2..end - solve).find(|&i| script[i] as u64 >= 2 * vars) {
            return Some((9, i as u64));
        }
        if solve == 1 && script[end - 1] > 1000000 {
            return Some((11, end as u64 - 1));
        }
        cells += if solve == 1 { vars + 4 } else { 1 };
        at = end;
    }
    if (out as u64) < cells {
        return Some((12, cells.min(4294967295)));
    }
    None
}

/// Accepted scripts with a few cells changed, added or taken away, and slices of odd lengths.
fn refusals(rng: &mut Rng, lent: &mut Lent, count: u64, totals: &mut Totals, by_number: &mut [u64; 13]) -> Option<String> {
    let mut first = None;
    for _ in 0..count {
        let s = if rng.chance(60) { shapes::tiny(rng) } else { shapes::small(rng) };
        let mut cells = s.cells(rng.range(0, 40), rng.range(0, 120));
        for _ in 0..rng.range(0, 2) {
            if cells.is_empty() {
                break;
            }
            let i = if rng.chance(30) { rng.below(6) } else { rng.below(cells.len() as u32) } as usize % cells.len();
            let v = s.vars;
            let cell = rng.pick(&[0, 1, 2, 3, 4, 2 * v - 1, 2 * v, 2 * v + 1, 211, 212, 1000, 1001, 4096, 4097, 65535, 65536]);
            match rng.below(6) {
                0 => cells.truncate(i),
                1 => cells.insert(i, cell),
                2 => cells[i] = rng.pick(&[1000000, 1000001, 1048576, 1048577, 1 << 31, u32::MAX]),
                _ => cells[i] = cell,
            }
        }
        let near = |rng: &mut Rng, need: usize| need.saturating_sub((rng.below(20) == 0) as usize) + (rng.below(3) == 0) as usize;
        let header = cells.len() >= 6 && cells[0] <= 4096 && cells[1] <= 65535 && cells[2] <= 1048576;
        let work = near(rng, if header { work_needed(&cells) } else { 200 });
        let activities = near(rng, if header { cells[0] as usize } else { 4 });
        let need = match judge(&cells, work, activities, 0) {
            Some((12, need)) => need as usize,
            _ => 100,
        };
        let room = near(rng, need);
        let expected = judge(&cells, work, activities, room);
        totals.scripts += 1;
        by_number[expected.map_or(0, |(n, _)| n as usize)] += 1;
        lent.fill(work, activities, room);
        let got = lent.answer(&cells);
        let right = match (&got, expected) {
            (Ok(Answer::Ran(_)), None) => true,
            (Ok(Answer::Refused(n, p)), Some(e)) => (*n, *p) == e,
            _ => false,
        };
        if !right {
            totals.mismatches += 1;
            first.get_or_insert(format!("script {}\nlengths {} {} {}\nexpected {:?}\nengine {:?}", words(&cells), work, activities, room, expected, got));
        }
    }
    first
}

// ---- the files of vectors/

/// `{N: cells}` stands for the cells N times over.
fn parsed(text: &str) -> Vec<u32> {
    let spaced = text.replace('{', " { ").replace(':', " : ").replace('}', " } ");
    let mut cells: Vec<u32> = vec![];
    let mut tokens = spaced.split_whitespace();
    while let Some(t) = tokens.next() {
        if t == "{" {
            let n: usize = tokens.next().and_then(|n| n.parse().ok()).expect("a number");
            let inner: Vec<u32> = tokens.by_ref().skip(1).take_while(|&t| t != "}").map(|t| t.parse().expect("a cell")).collect();
            for _ in 0..n {
                cells.extend(&inner);
            }
        } else {
            cells.push(t.parse().expect("a cell"));
        }
    }
    cells
}

/// The engine over a file of vectors: how many lines, and the names of those that differ.
fn vectors(lent: &mut Lent, path: &str) -> (u64, Vec<String>) {
    let text = std::fs::read_to_string(path).expect(path);
    let mut wrong = vec![];
    let mut count = 0;
    for line in text.lines().filter(|l| !l.trim().is_empty() && !l.starts_with('#')) {
        let parts: Vec<&str> = line.split('|').map(str::trim).collect();
        let (name, script, answer) = (parts[0], parsed(parts[parts.len() - 2]), parts[parts.len() - 1]);
        if parts.len() == 4 {
            let lengths = parsed(parts[1]);
            lent.fill(lengths[0] as usize, lengths[1] as usize, lengths[2] as usize);
        } else {
            lent.fill(work_needed(&script), script[0] as usize, script.len() * (script[0] as usize + 4));
        }
        let expected = match answer.strip_prefix("refused ") {
            Some(rest) => {
                let mut numbers = rest.split_whitespace().map(|n| n.parse::<u64>().expect("a number"));
                Answer::Refused(numbers.next().expect("a number") as u32, numbers.next().expect("a place"))
            }
            None => Answer::Ran(parsed(answer)),
        };
        count += 1;
        let got = lent.answer(&script);
        if got.as_ref() != Ok(&expected) {
            wrong.push(format!("{}: {:?}", name, got));
        }
    }
    (count, wrong)
}

// ---- the whole

type Made = fn(&mut Rng) -> Script;
type Listed = fn(&mut dyn FnMut(Script));

const RANDOM: [(&str, u64, Made); 14] = [
    ("tiny", 60000, shapes::tiny),
    ("small", 60000, shapes::small),
    ("trimmed", 20000, shapes::trimmed),
    ("random-sat", 30000, shapes::random_sat),
    ("pigeonhole", 15000, shapes::pigeonhole),
    ("parity", 15000, shapes::parities),
    ("colouring", 15000, shapes::colours),
    ("queens", 6000, shapes::boards),
    ("others", 8000, shapes::others),
    ("wide", 1500, shapes::wide),
    ("middling", 2000, shapes::middling),
    ("long", 60, shapes::long),
    ("longest", 4, shapes::longest),
    ("restarts", 3, shapes::restarts),
];

const LISTED: [(&str, Listed); 4] = [
    ("all-V1", shapes::all_of_one),
    ("all-V2", shapes::all_of_two),
    ("all-V3", shapes::all_of_three),
    ("all-V3-threes", shapes::all_threes),
];

fn main() {
    let args: Vec<String> = std::env::args().skip(1).collect();
    let seed: u64 = args.first().map_or(1, |s| s.parse().expect("SEED is a number"));
    let scale: u64 = args.get(1).map_or(100, |s| s.parse().expect("SCALE is a number"));
    let only = &args[args.len().min(2)..];
    let wanted = |name: &str| only.is_empty() || only.iter().any(|o| o == name);
    let mut bench = Bench { lent: Lent::default(), faults: vec![] };
    let mut sum = Totals::default();
    let mut wrong = 0;
    let whole = Instant::now();
    println!("seed={} scale={}", seed, scale);
    for (name, list) in LISTED {
        if !wanted(name) {
            continue;
        }
        let began = Instant::now();
        let mut totals = Totals::default();
        list(&mut |s| bench.compare(&s, Limits::Exact, &mut totals));
        println!("{}", totals.line(name, began.elapsed().as_secs_f64()));
        sum.add(&totals);
    }
    for (i, (name, count, make)) in RANDOM.into_iter().enumerate() {
        if !wanted(name) {
            continue;
        }
        let began = Instant::now();
        let mut totals = Totals::default();
        let mut rng = Rng(seed.wrapping_mul(1000).wrapping_add(i as u64));
        for _ in 0..(count * scale).div_ceil(100) {
            let script = make(&mut rng);
            let kind = match count {
                0..=9 => Limits::Slack(65535, 1048576), // the most there can be
                10..=99 => Limits::Exact,
                _ => some_limits(&mut rng),
            };
            bench.compare(&script, kind, &mut totals);
        }
        println!("{}", totals.line(name, began.elapsed().as_secs_f64()));
        sum.add(&totals);
    }
    println!("{}", sum.line("total", whole.elapsed().as_secs_f64()));
    if wanted("refusals") {
        let mut totals = Totals::default();
        let mut by_number = [0; 13];
        let mut rng = Rng(seed ^ 0x5eed);
        let first = refusals(&mut rng, &mut bench.lent, 300 * scale, &mut totals, &mut by_number);
        println!("refusals       scripts={} by-number={:?} mismatches={}", totals.scripts, by_number, totals.mismatches);
        if let Some(text) = first {
            println!("{}", text);
        }
        wrong += totals.mismatches;
    }
    if wanted("vectors") {
        let folder = std::env::var("VECTORS").unwrap_or("vectors".into());
        for file in ["oracle.txt", "storage.txt", "refusals.txt"] {
            let (count, names) = vectors(&mut bench.lent, &format!("{}/{}", folder, file));
            println!("vectors        {} lines={} mismatches={}", file, count, names.len());
            for n in &names {
                println!("  {}", n);
            }
            wrong += names.len() as u64;
        }
    }
    for (_, text) in bench.faults.iter().take(3) {
        println!("{}", text);
    }
    std::process::exit((sum.mismatches + wrong > 0) as i32);
}

//! Measures the engine (the static library) and the patched Rust on the same scripts, in one run.
//!
//!   bench table REPEATS FOLDER       all tables, as docs/PERFORMANCE.md has them, and its plots into FOLDER
//!   bench once SIDE SCRIPT           one run on one side (engine, rust or heap), for callgrind
//!   bench time SCRIPT REPEATS        seconds of both sides
//!   bench cost SCRIPT                conflicts, decisions and propagations, patched and with the Rust's heap
//!   bench dimacs SCRIPT              the formula as DIMACS, where the script is one formula and one solve
//!
//! C and L are what the run stores, but for the scripts of `sizes` and of `long`. The slices are allocated and written before the
//! clock starts; what the engine fills at the start and clears at the end is in its time, and what the Rust allocates
//! is in its own.
//! The engine runs the same search as the patched Rust, so conflicts and propagations are those of both; that
//! the out cells are the same is tested in each run. Times are seconds on a processor, the best of REPEATS.

#[path = "../bindings/rust/engine.rs"]
#[allow(dead_code)]
mod binding;
mod plot;
#[path = "../tools/shapes.rs"]
#[allow(dead_code)]
mod shapes;

use shapes::{colouring, k_sat, parity, pigeons, queens, tseitin, Formula, Record, Rng, Script};
use std::process::{Command, Stdio};

extern "C" {
    fn clock_gettime(clock: i32, at: *mut [i64; 2]) -> i32;
    fn getrusage(who: i32, usage: *mut [i64; 18]) -> i32;
}

const BUDGET: u32 = 1_000_000;

/// Seconds of this thread on a processor.
fn seconds() -> f64 {
    const CLOCK_THREAD_CPUTIME_ID: i32 = 3;
    let mut at = [0; 2];
    assert_eq!(unsafe { clock_gettime(CLOCK_THREAD_CPUTIME_ID, &mut at) }, 0);
    at[0] as f64 + at[1] as f64 / 1e9
}

/// The same of the programs that were run.
fn seconds_of_children() -> f64 {
    const RUSAGE_CHILDREN: i32 = -1;
    let mut usage = [0; 18];
    assert_eq!(unsafe { getrusage(RUSAGE_CHILDREN, &mut usage) }, 0);
    (usage[0] + usage[2]) as f64 + (usage[1] + usage[3]) as f64 / 1e6
}

// ---- the scripts

struct Named {
    family: &'static str,
    name: String,
    script: Script,
    /// C and L, where they are not what the run stores.
    room: Option<(u32, u32)>,
    /// Whether it may store more than C and L allow: then it stops there, on both sides.
    long: bool,
}

/// The largest C and L.
const MOST: (u32, u32) = (65535, 1048576);

fn one(family: &'static str, name: String, f: Formula, budget: u32) -> Named {
    let mut records: Vec<Record> = f.clauses.into_iter().map(Record::Clause).collect();
    records.push(Record::Solve(vec![], budget));
    Named { family, name, script: Script { vars: f.vars, mode: 2, phase: 2, unit: 100, records }, room: None, long: false }
}

/// Solves under assumptions, a clause between them.
fn incremental(seed: u64, vars: u32, solves: u32) -> Named {
    let mut rng = Rng(seed);
    let f = k_sat(&mut rng, vars, 3, 3.8);
    let mut records: Vec<Record> = f.clauses.into_iter().map(Record::Clause).collect();
    for _ in 0..solves {
        let assumed = k_sat(&mut rng, vars, 8, 1.0 / vars as f64).clauses.remove(0);
        records.push(Record::Solve(assumed, BUDGET));
        records.push(Record::Clause(k_sat(&mut rng, vars, 3, 1.0 / vars as f64).clauses.remove(0)));
    }
    let script = Script { vars, mode: 2, phase: 2, unit: 100, records };
    Named { family: "assumptions", name: format!("assumed-{}-{}", vars, seed), script, room: None, long: false }
}

fn sat(vars: u32, seed: u64) -> Named {
    one("random 3-SAT", format!("sat-{}-{}", vars, seed), k_sat(&mut Rng(seed), vars, 3, 4.26), BUDGET)
}

fn holes(n: u32) -> Named {
    one("pigeonhole", format!("pigeons-{}", n), pigeons(n + 1, n), BUDGET)
}

fn charges(half: u32, seed: u64) -> Named {
    one("parity", format!("tseitin-{}-{}", half, seed), tseitin(&mut Rng(seed), half, true), BUDGET)
}

fn equations(vars: u32, seed: u64) -> Named {
    one("parity", format!("parity-{}-{}", vars, seed), parity(&mut Rng(seed), vars, 3, 1.0), BUDGET)
}

fn colours(n: u32, seed: u64) -> Named {
    let f = colouring(&mut Rng(seed), n, n * 235 / 100, 3, true);
    one("colouring", format!("colours-{}-{}", n, seed), f, BUDGET)
}

fn board(n: u32) -> Named {
    one("n-queens", format!("queens-{}", n), queens(n), BUDGET)
}

fn timed() -> Vec<Named> {
    vec![
        sat(100, 1),
        sat(150, 1),
        sat(200, 1),
        sat(250, 1),
        holes(7),
        holes(8),
        charges(20, 2),
        charges(24, 2),
        equations(110, 1),
        colours(120, 1),
        colours(250, 1),
        colours(400, 3),
        board(12),
        board(20),
        board(28),
        incremental(1, 150, 60),
        incremental(2, 200, 60),
    ]
}

/// The runs that users wait for: thousands of learnt clauses pile up, to the budget or to the largest C and L.
fn long() -> Vec<Named> {
    let to = |budget: u32, n: Named| {
        let mut script = n.script;
        let last = script.records.pop();
        assert!(matches!(last, Some(Record::Solve(..))));
        script.records.push(Record::Solve(vec![], budget));
        Named { name: format!("{}-to-{}", n.name, budget), script, long: true, ..n }
    };
    vec![
        to(100000, sat(250, 2)),
        to(100000, sat(250, 5)),
        to(40000, holes(9)),
        Named { long: true, ..charges(28, 2) },
        to(40000, equations(140, 2)),
        to(40000, colours(600, 1)),
        to(40000, board(40)),
        Named { long: true, ..incremental(4, 250, 60) },
    ]
}

/// Small enough for callgrind with a model of the caches.
fn cached() -> Vec<Named> {
    vec![sat(150, 1), holes(6), charges(18, 1)]
}

/// The sizes of `loadsat`, and the largest that a script may ask for: there the engine fills and clears all of work.
fn sizes() -> Vec<Named> {
    let sat = |name: &str, vars: u32, seed: u64, budget: u32, room: (u32, u32)| {
        let f = k_sat(&mut Rng(seed), vars, 3, 4.26);
        Named { room: Some(room), ..one("sizes", name.to_string(), f, budget) }
    };
    let loadsat = (512, 4096);
    let whole = (65535, 1048576);
    vec![
        sat("loadsat-50", 50, 1, BUDGET, loadsat),
        sat("loadsat-100", 100, 1, BUDGET, loadsat),
        Named { room: Some(loadsat), ..one("sizes", "loadsat-queens-6".to_string(), queens(6), BUDGET) },
        sat("whole-100", 100, 1, BUDGET, whole),
        sat("whole-4096", 4096, 7, 1000, whole),
        sat("whole-4096-long", 4096, 7, 8000, whole),
    ]
}

/// Small enough for callgrind.
fn counted() -> Vec<Named> {
    vec![sat(150, 1), holes(6), charges(18, 1), colours(250, 1), board(20), incremental(3, 100, 30)]
}

/// Random 3-SAT at one ratio and with one budget, for more and more variables.
fn growing() -> Vec<Named> {
    [64, 128, 256, 512, 1024, 2048, 4096]
        .map(|vars| one("growing", format!("grow-{}", vars), k_sat(&mut Rng(7), vars, 3, 4.26), 1000))
        .into_iter()
        .collect()
}

fn find(name: &str) -> Named {
    let all = timed().into_iter().chain(long()).chain(sizes()).chain(counted()).chain(growing());
    all.into_iter().find(|n| n.name == name).expect("a script's name")
}

/// The formula, where the script is one formula and one solve without assumptions that may take as long as it needs.
fn dimacs(script: &Script) -> Option<String> {
    let (last, rest) = script.records.split_last()?;
    if !matches!(last, Record::Solve(lits, BUDGET) if lits.is_empty()) {
        return None;
    }
    let mut text = format!("p cnf {} {}\n", script.vars, rest.len());
    for r in rest {
        let Record::Clause(lits) = r else { return None };
        for l in lits {
            text += &format!("{}{} ", if l & 1 == 1 { "-" } else { "" }, (l >> 1) + 1);
        }
        text += "0\n";
    }
    Some(text)
}

// ---- the sides

struct Lent {
    script: Vec<u32>,
    work: Vec<u32>,
    activities: Vec<f64>,
    out: Vec<u32>,
}

/// The slices, with room for what the run stores.
fn lent(n: &Named) -> Lent {
    let script = &n.script;
    let mut stored = (0, 0);
    oracle::run_with(&script.cells(0, 0), |a| stored = (a.clauses as u32, a.literals as u32));
    let room = n.room.unwrap_or((stored.0.min(MOST.0), stored.1.min(MOST.1)));
    assert!(n.long || (stored.0 <= room.0 && stored.1 <= room.1), "{} clauses, {} literals", stored.0, stored.1);
    let cells = script.cells(room.0, room.1);
    Lent {
        work: vec![1; binding::work_len(script.vars, room.0, room.1) as usize],
        activities: vec![1.0; script.vars as usize],
        out: vec![1; binding::out_len(&cells) as usize],
        script: cells,
    }
}

fn engine(l: &mut Lent) -> Vec<u32> {
    let n = binding::run(&l.script, &mut l.work, &mut l.activities, &mut l.out).expect("accepted");
    l.out[..n as usize].to_vec()
}

/// callgrind counts inside this function alone.
#[no_mangle]
#[inline(never)]
fn rust_run(cells: &[u32]) -> (Vec<u32>, oracle::Cost) {
    oracle::run(cells)
}

/// The Rust with its heap: its picks are others where activities tie, so its search is another.
#[no_mangle]
#[inline(never)]
fn heap_run(cells: &[u32]) -> (Vec<u32>, oracle_heap::Cost) {
    oracle_heap::run(cells)
}

fn once(side: &str, n: &Named) {
    let mut l = lent(n);
    match side {
        "engine" => assert!(!engine(&mut l).is_empty()),
        "rust" => assert!(!rust_run(&l.script).0.is_empty()),
        "heap" => assert!(!heap_run(&l.script).0.is_empty()),
        _ => panic!("engine, rust or heap"),
    }
}

/// The best time of each side, and the Rust's cost.
fn times(n: &Named, repeats: u32) -> (f64, f64, f64, oracle::Cost) {
    let mut l = lent(n);
    let mut best = (f64::MAX, f64::MAX, f64::MAX);
    let mut cost = oracle::Cost::default();
    for _ in 0..repeats {
        let start = seconds();
        let ours = engine(&mut l);
        let between = seconds();
        let (theirs, c) = rust_run(&l.script);
        let end = seconds();
        assert!(!heap_run(&l.script).0.is_empty());
        best = (best.0.min(between - start), best.1.min(end - between), best.2.min(seconds() - end));
        assert!(ours == theirs, "the answers differ");
        cost = c;
    }
    (best.0, best.1, best.2, cost)
}

// ---- other programs

fn said(command: &mut Command) -> Option<String> {
    let output = command.stdin(Stdio::null()).output().ok()?;
    Some(String::from_utf8_lossy(&output.stdout).into_owned() + &String::from_utf8_lossy(&output.stderr))
}

/// Instructions of one run on a side.
fn instructions(side: &str, name: &str) -> Option<u64> {
    let me = std::env::current_exe().expect("this program");
    let text = said(
        Command::new("valgrind")
            .args(["--tool=callgrind", "--callgrind-out-file=/dev/null"])
            .arg(format!("--toggle-collect={}_run", side))
            .arg(me)
            .args(["once", side, name]),
    )?;
    text.lines().find_map(|l| l.split("Collected : ").nth(1)?.trim().parse().ok())
}

/// Instructions, and misses of reads and writes in the first and in the last cache, of one run on a side.
fn misses(side: &str, name: &str) -> Option<[u64; 3]> {
    let me = std::env::current_exe().expect("this program");
    let text = said(
        Command::new("valgrind")
            .args(["--tool=callgrind", "--callgrind-out-file=/dev/null", "--cache-sim=yes", "--D1=49152,12,64", "--LL=524288,8,64"])
            .arg(format!("--toggle-collect={}_run", side))
            .arg(me)
            .args(["once", side, name]),
    )?;
    let first = |key: &str| -> Option<u64> {
        let line = text.lines().find_map(|l| l.split(key).nth(1))?;
        line.split_whitespace().next()?.replace(',', "").parse().ok()
    };
    Some([first("I   refs:")?, first("D1  misses:")?, first("LLd misses:")?])
}

/// Seconds and conflicts of another solver, where it is installed.
fn other(program: &str, words: &[&str], file: &str, repeats: u32) -> Option<(f64, String)> {
    let mut best = f64::MAX;
    let mut conflicts = String::new();
    for _ in 0..repeats {
        let start = seconds_of_children();
        let text = said(Command::new(program).args(words).arg(file))?;
        best = best.min(seconds_of_children() - start);
        let line = text.lines().find(|l| l.contains("conflicts") && l.contains(':')).unwrap_or("");
        conflicts = line.split(':').nth(1).and_then(|t| t.split_whitespace().next()).unwrap_or("?").to_string();
    }
    Some((best, conflicts))
}

// ---- the tables

/// The geometric mean over the families of each family's geometric mean.
fn mean(ratios: &[(&str, f64)]) -> f64 {
    let mut families: Vec<&str> = ratios.iter().map(|r| r.0).collect();
    families.dedup();
    let of = |family: &str| {
        let logs: Vec<f64> = ratios.iter().filter(|r| r.0 == family).map(|r| r.1.ln()).collect();
        logs.iter().sum::<f64>() / logs.len() as f64
    };
    (families.iter().map(|f| of(f)).sum::<f64>() / families.len() as f64).exp()
}

/// The time of another solver on the script's formula, and its conflicts, where it is installed.
fn beside(n: &Named, program: &str, words: &[&str], repeats: u32) -> String {
    let Some(text) = dimacs(&n.script) else { return "-".to_string() };
    let file = std::env::temp_dir().join(format!("bench-{}.cnf", std::process::id()));
    let file = file.to_str().expect("a path");
    std::fs::write(file, text).expect("a file to write");
    let cell = other(program, words, file, repeats).map_or("not at hand".to_string(), |(s, c)| format!("{:.3} ({})", s, c));
    let _ = std::fs::remove_file(file);
    cell
}

/// Times of both sides, and of other solvers; gives engine/Rust by family and script.
fn timed_table(scripts: Vec<Named>, repeats: u32) -> Vec<(&'static str, String, f64)> {
    println!("| family | script | V | conflicts | propagations | engine s | Rust s | engine/Rust | Rust with its heap s | minisat s (conflicts) | cadical s (conflicts) |");
    println!("|---|---|---|---|---|---|---|---|---|---|---|");
    let mut ratios = vec![];
    for n in scripts {
        let (ours, theirs, heap, cost) = times(&n, repeats);
        let (minisat, cadical) = (beside(&n, "minisat", &[], repeats), beside(&n, "cadical", &["-n"], repeats));
        println!(
            "| {} | {} | {} | {} | {} | {:.4} | {:.4} | {:.2} | {:.4} | {} | {} |",
            n.family, n.name, n.script.vars, cost.conflicts, cost.propagations, ours, theirs, ours / theirs, heap, minisat, cadical
        );
        ratios.push((n.family, n.name, ours / theirs));
    }
    println!();
    ratios
}

fn counted_table() {
    println!("| family | script | conflicts | propagations | instructions, engine | instructions, Rust | engine/Rust | engine for a propagation | Rust for a propagation |");
    println!("|---|---|---|---|---|---|---|---|---|");
    let mut ratios = vec![];
    for n in counted() {
        let cost = rust_run(&n.script.cells(0, 0)).1;
        let (Some(ours), Some(theirs)) = (instructions("engine", &n.name), instructions("rust", &n.name)) else {
            println!("\nNo valgrind: nothing is counted.");
            return;
        };
        let (a, b, p) = (ours as f64, theirs as f64, cost.propagations as f64);
        ratios.push((n.family, a / b));
        println!(
            "| {} | {} | {} | {} | {} | {} | {:.3} | {:.0} | {:.0} |",
            n.family, n.name, cost.conflicts, cost.propagations, ours, theirs, a / b, a / p, b / p
        );
    }
    println!("\nGeometric mean over the families of engine/Rust: {:.3}\n", mean(&ratios));
}

fn cached_table() {
    println!("| script | instructions: engine, Rust | misses of a first cache of 48 KB: engine, Rust | misses of a last cache of 512 KB: engine, Rust |");
    println!("|---|---|---|---|");
    for n in cached() {
        let (Some(a), Some(b)) = (misses("engine", &n.name), misses("rust", &n.name)) else {
            println!("\nNo valgrind: nothing is counted.");
            return;
        };
        println!("| {} | {}, {} | {}, {} | {}, {} |", n.name, a[0], b[0], a[1], b[1], a[2], b[2]);
    }
    println!();
}

/// What a propagation and a conflict cost as V grows; gives V and the nanoseconds for a propagation of both sides.
fn growing_table(repeats: u32) -> Vec<(u32, f64, f64)> {
    println!("| V | conflicts | decisions | propagations | ns for a propagation: engine, Rust | µs for a conflict: engine, Rust | instructions for a propagation, a decision, a conflict: engine | Rust | Rust with its heap |");
    println!("|---|---|---|---|---|---|---|---|---|");
    let mut rows = vec![];
    for n in growing() {
        let (ours, theirs, _, cost) = times(&n, repeats);
        let heap = heap_run(&n.script.cells(0, 0)).1;
        let counts = |side: &str, c: u64, d: u64, p: u64| match instructions(side, &n.name) {
            None => "-".to_string(),
            Some(i) => format!("{}, {}, {}", i / p, i / d, i / c),
        };
        let each = |s: f64, of: u64| s / of as f64;
        println!(
            "| {} | {} | {} | {} | {:.0}, {:.0} | {:.1}, {:.1} | {} | {} | {} |",
            n.script.vars,
            cost.conflicts,
            cost.decisions,
            cost.propagations,
            each(ours * 1e9, cost.propagations),
            each(theirs * 1e9, cost.propagations),
            each(ours * 1e6, cost.conflicts),
            each(theirs * 1e6, cost.conflicts),
            counts("engine", cost.conflicts, cost.decisions, cost.propagations),
            counts("rust", cost.conflicts, cost.decisions, cost.propagations),
            counts("heap", heap.conflicts, heap.decisions, heap.propagations),
        );
        rows.push((n.script.vars, each(ours * 1e9, cost.propagations), each(theirs * 1e9, cost.propagations)));
    }
    println!();
    rows
}

fn tables(repeats: u32, folder: &str) {
    println!("### Time\n");
    let ratios = timed_table(timed(), repeats);
    let by_family: Vec<(&str, f64)> = ratios.iter().map(|r| (r.0, r.2)).collect();
    println!("Geometric mean over the families of engine/Rust: {:.3}\n", mean(&by_family));
    println!("![engine/Rust by script](ratios.svg)\n");
    println!("### Long runs\n");
    println!("To a budget of conflicts, or to the largest C and L: there both sides stop.\n");
    timed_table(long(), 1);
    println!("### Sizes\n");
    println!("C and L of `loadsat` (512 and 4,096), and the largest (65,535 and 1,048,576).\n");
    timed_table(sizes(), repeats);
    println!("### Instructions\n");
    counted_table();
    println!("### Caches\n");
    cached_table();
    println!("### As V grows\n");
    let growth = growing_table(repeats);
    println!("![nanoseconds for a propagation by V](growth.svg)");
    let bars: Vec<(String, f64)> = ratios.into_iter().map(|r| (r.1, r.2)).collect();
    std::fs::write(format!("{}/ratios.svg", folder), plot::ratios(&bars)).expect("a file to write");
    std::fs::write(format!("{}/growth.svg", folder), plot::growth(&growth)).expect("a file to write");
}

fn main() {
    let args: Vec<String> = std::env::args().skip(1).collect();
    let words: Vec<&str> = args.iter().map(|a| a.as_str()).collect();
    match words[..] {
        ["table", repeats, folder] => tables(repeats.parse().expect("a number"), folder),
        ["once", side, name] => once(side, &find(name)),
        ["time", name, repeats] => {
            let (ours, theirs, _, _) = times(&find(name), repeats.parse().expect("a number"));
            println!("{} engine={:.6} rust={:.6} ratio={:.3}", name, ours, theirs, ours / theirs);
        }
        ["cost", name] => {
            let cells = find(name).script.cells(0, 0);
            let (a, b) = (rust_run(&cells).1, heap_run(&cells).1);
            println!("patched: conflicts={} decisions={} propagations={}", a.conflicts, a.decisions, a.propagations);
            println!("heap: conflicts={} decisions={} propagations={}", b.conflicts, b.decisions, b.propagations);
        }
        ["dimacs", name] => print!("{}", dimacs(&find(name).script).expect("one formula and one solve")),
        _ => panic!("see the head of bench.rs"),
    }
}

//! Puts formulas that others have published to the engine, and, built with the oracle, to the patched Rust beside it.
//!
//!   public FOLDER
//!
//! Every file below FOLDER whose name ends in .cnf (DIMACS), .icnf (DIMACS with lines of assumptions) or .trace (calls of a solver:
//! `add`, `assume`, `solve`) becomes scripts, one for each of SETTINGS: its clauses with solves between and behind them, and its own
//! solves. Looked at are
//!   - every cell of the oracle's, as in differential.rs, and what the lent slices hold afterwards;
//!   - each model, against the clauses before it and the assumptions; each final clause, against the assumptions;
//!   - the verdict, against the answer that the file comes with: a line `run NAME 10` (or 20) of run.sh beside it, or `s SATISFIABLE` of NAME.sol.

#[cfg(oracle)]
#[allow(dead_code)]
mod compare;
mod lent;
#[allow(dead_code)]
mod shapes;

#[cfg(not(oracle))]
use lent::{out_needed, work_needed};
use lent::{Answer, Lent};
use shapes::Record::{Clause, Solve};
use shapes::{Record, Rng, Script};
use std::fs;
use std::path::{Path, PathBuf};
use std::time::Instant;

/// Mode, phase, unit, and the budget of a whole solve: the first is meant to decide every formula.
type Setting = (u32, u32, u32, u32);
const SETTINGS: [Setting; 6] = [(2, 2, 100, 1_000_000), (2, 1, 1, 5_000), (2, 0, 10, 5_000), (1, 2, 10, 5_000), (0, 1, 100, 5_000), (0, 0, 1, 5_000)];
const MOST_VARIABLES: u32 = 4_096;
#[cfg(not(oracle))]
const MOST_CLAUSES: u32 = 65_535;
#[cfg(not(oracle))]
const MOST_LITERALS: u32 = 1_048_576;
const OWN_BUDGET: u32 = 1_000_000; // of a file's own solves

// ---- a file

#[derive(PartialEq, Clone, Copy, Debug)]
enum Known {
    Nothing,
    True,
    False,
}

/// The records of a file, as it has them; `solves` is false for a formula alone.
struct Formula {
    name: String,
    vars: u32,
    records: Vec<Record>,
    solves: bool,
    known: Known,
}

fn literal(number: i64) -> u32 {
    2 * (number.unsigned_abs() as u32 - 1) + (number < 0) as u32
}

/// Clauses end with 0, wherever lines end; a line of `a` is a solve under these assumptions.
fn dimacs(text: &str) -> Vec<Record> {
    let mut records = vec![];
    let (mut clause, mut assumed) = (vec![], false);
    for line in text.lines().take_while(|line| !line.starts_with('%')) {
        if line.starts_with(['c', 'p']) {
            continue;
        }
        for word in line.split_whitespace() {
            match word.parse::<i64>() {
                Ok(0) if assumed => records.push(Solve(std::mem::take(&mut clause), OWN_BUDGET)),
                Ok(0) => records.push(Clause(std::mem::take(&mut clause))),
                Ok(number) => clause.push(literal(number)),
                Err(_) => assumed = word == "a",
            }
        }
        assumed &= !clause.is_empty();
    }
    records
}

/// The calls of each solver that is made in turn; options and limits of the solver that was traced are passed over.
fn trace(text: &str) -> Vec<Vec<Record>> {
    let mut all = vec![vec![]];
    let (mut clause, mut assumed) = (vec![], vec![]);
    for line in text.lines() {
        let words: Vec<&str> = line.split_whitespace().skip_while(|word| word.parse::<i64>().is_ok()).collect();
        let number = words.get(1).and_then(|word| word.parse::<i64>().ok());
        match (words.first().copied(), number) {
            (Some("init"), _) => all.push(vec![]),
            (Some("add"), Some(0)) => all.last_mut().expect("a solver").push(Clause(std::mem::take(&mut clause))),
            (Some("add"), Some(n)) => clause.push(literal(n)),
            (Some("assume"), Some(n)) => assumed.push(literal(n)),
            (Some("solve"), _) => all.last_mut().expect("a solver").push(Solve(std::mem::take(&mut assumed), OWN_BUDGET)),
            _ => (),
        }
    }
    all.retain(|records| !records.is_empty());
    all
}

/// The answer that stands beside a file.
fn known(path: &Path) -> Known {
    let stem = path.file_stem().unwrap_or_default().to_string_lossy().into_owned();
    let folder = path.parent().expect("a folder");
    let list = fs::read_to_string(folder.join("run.sh")).unwrap_or_default();
    let said = list.lines().find_map(|line| match line.split_whitespace().collect::<Vec<_>>()[..] {
        ["run", name, number] if name == stem => Some(number.to_string()),
        _ => None,
    });
    let solution = fs::read_to_string(path.with_extension("sol")).unwrap_or_default();
    match said.as_deref() {
        Some("10") => Known::True,
        Some("20") => Known::False,
        _ if solution.starts_with("s SATISFIABLE") => Known::True,
        _ => Known::Nothing,
    }
}

fn formulas(path: &Path) -> Vec<Formula> {
    let name = path.file_name().unwrap_or_default().to_string_lossy().into_owned();
    let read = || String::from_utf8_lossy(&fs::read(path).expect("a file")).into_owned();
    let all = match path.extension().and_then(|e| e.to_str()) {
        Some("cnf" | "icnf") => vec![dimacs(&read())],
        Some("trace") => trace(&read()),
        _ => vec![],
    };
    let made = all.into_iter().map(|records| {
        let most = records.iter().flat_map(|r| shapes::lits_of(r)).max().map_or(1, |l| l / 2 + 1);
        let solves = records.iter().any(|r| matches!(r, Solve(..)));
        Formula { name: name.clone(), vars: most, records, solves, known: known(path) }
    });
    made.collect()
}

fn files(folder: &Path, all: &mut Vec<PathBuf>) {
    let mut here: Vec<PathBuf> = fs::read_dir(folder).expect("a folder").map(|entry| entry.expect("a file").path()).collect();
    here.sort();
    for path in here {
        if path.is_dir() {
            files(&path, all);
        } else {
            all.push(path);
        }
    }
}

// ---- its scripts

fn assumptions(rng: &mut Rng, vars: u32, most: u32) -> Vec<u32> {
    (0..rng.range(1, most.min(2 * vars))).map(|_| rng.below(2 * vars)).collect()
}

/// The file's records, with solves of this program's: one in the midst of the clauses, one that is stopped early, some under assumptions, a whole one, and some more.
fn script(formula: &Formula, (mode, phase, unit, budget): Setting, rng: &mut Rng) -> Script {
    let vars = formula.vars;
    let mut records = formula.records.clone();
    if !formula.solves {
        let half = records.len() / 2;
        records.insert(half, Solve(assumptions(rng, vars, 4), 50));
        records.push(Solve(vec![], 5));
        for most in [1, 2, 8] {
            records.push(Solve(assumptions(rng, vars, most), 500));
        }
    }
    records.push(Solve(vec![], budget));
    for most in [3, 24] {
        records.push(Solve(assumptions(rng, vars, most), 500));
    }
    let one = rng.below(2 * vars);
    records.push(Solve(vec![one, one ^ 1], 10));
    Script { vars, mode, phase, unit, records }
}

// ---- what comes of them

#[derive(Default)]
struct Sums {
    scripts: u64,
    solves: u64,
    answers: [u64; 3],
    conflicts: u64,
    longest: u64,
    short: u64,
    verdicts: u64,
    models: u64,
}

/// The engine's cells, and what is wrong with them; with the oracle, C and L are what its run stores.
#[cfg(oracle)]
fn ran(lent: &mut Lent, script: &Script) -> Result<(Vec<u32>, bool), String> {
    let tried = compare::attempt(lent, script, compare::Limits::Exact);
    match (tried.fault, tried.engine) {
        (None, Ok(Answer::Ran(out))) => Ok((out, tried.short)),
        (fault, _) => Err(fault.unwrap_or("no run".into())),
    }
}

#[cfg(not(oracle))]
fn ran(lent: &mut Lent, script: &Script) -> Result<(Vec<u32>, bool), String> {
    let cells = script.cells(MOST_CLAUSES, MOST_LITERALS);
    lent.fill(work_needed(&cells) + 3, script.vars as usize + 3, out_needed(script) + 3);
    match lent.answer(&cells)? {
        Answer::Ran(out) => Ok((out, false)),
        Answer::Refused(number, place) => Err(format!("refused {number} at {place}")),
    }
}

/// An answer by itself: a model makes the clauses and the assumptions true, a final clause has negated assumptions alone.
fn sound(clauses: &[&Vec<u32>], assumed: &[u32], answer: u32, body: &[u32]) -> Result<(), String> {
    let holds = |l: &u32| body[*l as usize / 2] == l % 2;
    if answer == 0 && !(clauses.iter().all(|clause| clause.iter().any(holds)) && assumed.iter().all(holds)) {
        return Err("no model".into());
    }
    if answer == 1 && !body.iter().all(|l| assumed.contains(&(l ^ 1))) {
        return Err("the final clause has another literal".into());
    }
    Ok(())
}

/// A verdict against the answer that the file comes with.
fn as_known(known: Known, verdict: bool, sums: &mut Sums) -> Result<(), String> {
    if known == Known::Nothing {
        return Ok(());
    }
    sums.verdicts += 1;
    (verdict == (known == Known::True)).then_some(()).ok_or_else(|| format!("the file says {known:?}"))
}

/// Each answer by itself, and the verdicts that are known: of a formula alone, each solve without assumptions once all clauses are taken; of a file with
/// solves of its own, that one of them is TRUE.
fn looked_at(formula: &Formula, script: &Script, out: &[u32], sums: &mut Sums) -> Result<(), String> {
    let all = script.records.iter().filter(|record| matches!(record, Clause(_))).count();
    let (mut clauses, mut at, mut conflicts) = (vec![], 0, 0);
    let (mut decided, mut some_true) = (false, false);
    for (i, record) in script.records.iter().enumerate() {
        let Solve(assumed, _) = record else {
            if out[at] != 2 {
                clauses.push(shapes::lits_of(record));
            }
            at += 1;
            continue;
        };
        let (answer, body) = (out[at], &out[at + 3..at + 3 + out[at + 2] as usize]);
        sums.solves += 1;
        sums.answers[answer as usize] += 1;
        sums.models += (answer == 0) as u64;
        conflicts += out[at + 1] as u64;
        at += 3 + body.len();
        sound(&clauses, assumed, answer, body).map_err(|wrong| format!("record {i}: {wrong}"))?;
        if formula.solves && i < formula.records.len() {
            decided |= answer != 2;
            some_true |= answer == 0;
        } else if !formula.solves && assumed.is_empty() && clauses.len() == all && answer != 2 {
            as_known(formula.known, answer == 0, sums)?;
        }
    }
    if decided {
        as_known(formula.known, some_true, sums)?;
    }
    sums.conflicts += conflicts;
    sums.longest = sums.longest.max(conflicts);
    Ok(())
}

fn main() {
    let folder = std::env::args().nth(1).expect("usage: public FOLDER");
    let mut paths = vec![];
    files(Path::new(&folder), &mut paths);
    let mut lent = Lent::default();
    let mut sums = Sums::default();
    let (mut count, mut answered, mut wrong) = (0, 0, 0);
    let began = Instant::now();
    for formula in paths.iter().flat_map(|path| formulas(path)) {
        if formula.vars > MOST_VARIABLES {
            println!("{}: {} variables, and a script has at most {MOST_VARIABLES}: left out", formula.name, formula.vars);
            continue;
        }
        count += 1;
        answered += (formula.known != Known::Nothing) as u64;
        let (start, conflicts) = (Instant::now(), sums.conflicts);
        for (i, setting) in SETTINGS.into_iter().enumerate() {
            let script = script(&formula, setting, &mut Rng(count * 10 + i as u64));
            sums.scripts += 1;
            let looked = ran(&mut lent, &script).and_then(|(out, short)| {
                sums.short += short as u64;
                looked_at(&formula, &script, &out, &mut sums)
            });
            if let Err(fault) = looked {
                println!("{} {:?}: {}", formula.name, setting, fault);
                wrong += 1;
            }
        }
        if start.elapsed().as_secs() >= 10 {
            println!("{}: {} conflicts in {:.0} s", formula.name, sums.conflicts - conflicts, start.elapsed().as_secs_f64());
        }
    }
    println!(
        "formulas={count} with-answers={answered} scripts={} solves={} true={} false={} undef={} conflicts={} longest={} short={} models={} verdicts={} wrong={wrong} seconds={:.1}",
        sums.scripts, sums.solves, sums.answers[0], sums.answers[1], sums.answers[2], sums.conflicts, sums.longest, sums.short,
        sums.models, sums.verdicts, began.elapsed().as_secs_f64()
    );
    std::process::exit((wrong > 0 || count == 0) as i32);
}

//! The smallest script on which two builds of the Rust give other cells: all scripts in turn, fewest cells first, then
//! fewest variables. It ends with the first number of cells and of variables where there is one, and shows up to five.
//!
//!   smallest MAX_CELLS MAX_VARS [modes=..] [phases=..] [units=..] [budgets=..] [assumptions=N] [from=CELLS]
//!       [plain] [clauses-first] [after-conflict] [learns]
//!
//! The lists after = are what is tried, separated by commas; C is 8 and L 64, which the Rust does not read. A panic
//! counts as an answer.
//! `assumptions=N`: lists of up to N.
//! `plain`: clauses upward, without repeats or both signs, none empty, and no assumed variable twice; else all lists.
//! `clauses-first`: no clause behind a solve.
//! `after-conflict`: the second build is run only where the first has a conflict, for changes that need one.
//! `learns`: not where two builds differ, but where a solve stores a clause.

mod both;

use both::{other, patched, shown, words};

struct Space {
    modes: Vec<u32>,
    phases: Vec<u32>,
    units: Vec<u32>,
    budgets: Vec<u32>,
    assumptions: usize,
    plain: bool,
    clauses_first: bool,
    after_conflict: bool,
    learns: bool,
}

struct Search {
    space: Space,
    vars: u32,
    tried: u64,
    found: u64,
}

/// Whether a solve of the script stores a clause.
fn learns(script: &[u32]) -> bool {
    let mut stored = vec![];
    oracle_patched::run_with(script, |a| stored.push(a.clauses));
    let (mut at, mut before) = (6, 0);
    stored.iter().any(|&now| {
        let solve = script[at] == 2;
        at += 2 + script[at + 1] as usize + solve as usize;
        let more = now > before;
        before = now;
        solve && more
    })
}

impl Search {
    /// A complete list of records, under all options.
    fn compare(&mut self, script: &mut Vec<u32>) {
        for m in 0..self.space.modes.len() {
            for p in 0..self.space.phases.len() {
                for u in 0..self.space.units.len() {
                    (script[3], script[4], script[5]) = (self.space.modes[m], self.space.phases[p], self.space.units[u]);
                    if self.found >= 5 {
                        return;
                    }
                    self.tried += 1;
                    if self.space.learns {
                        if learns(script) {
                            self.found += 1;
                            println!("script  {}\npatched {}", words(script), shown(&patched(script)));
                        }
                        continue;
                    }
                    if self.space.after_conflict && oracle_patched::run(script).1.conflicts == 0 {
                        continue;
                    }
                    let (a, b) = (patched(script), other(script));
                    if a != b {
                        self.found += 1;
                        println!("script  {}\npatched {}\nother   {}", words(script), shown(&a), shown(&b));
                    }
                }
            }
        }
    }

    /// Literals behind `from`, so many; then the budgets of a solve; then more records.
    fn literals(&mut self, script: &mut Vec<u32>, from: usize, count: usize, solve: bool, left: usize, solved: bool) {
        if count > 0 {
            for l in 0..2 * self.vars {
                let own = &script[from..];
                let fits = !self.space.plain
                    || if solve { own.iter().all(|k| k >> 1 != l >> 1) } else { own.last().map_or(true, |k| k >> 1 < l >> 1) };
                if fits {
                    script.push(l);
                    self.literals(script, from, count - 1, solve, left, solved);
                    script.pop();
                }
            }
        } else if solve {
            for b in 0..self.space.budgets.len() {
                script.push(self.space.budgets[b]);
                self.records(script, left, solved);
                script.pop();
            }
        } else {
            self.records(script, left, solved);
        }
    }

    /// Records of `left` cells in all.
    fn records(&mut self, script: &mut Vec<u32>, left: usize, solved: bool) {
        if self.found >= 5 {
            return;
        }
        if left == 0 {
            return self.compare(script);
        }
        for (kind, head) in [(1u32, 2usize), (2, 3)] {
            let solve = kind == 2;
            if !solve && solved && self.space.clauses_first {
                continue;
            }
            let most = if solve { self.space.assumptions } else { 2 * self.vars as usize };
            for count in (self.space.plain && !solve) as usize..=most {
                if head + count > left {
                    break;
                }
                script.extend([kind, count as u32]);
                let from = script.len();
                self.literals(script, from, count, solve, left - head - count, solved || solve);
                script.truncate(from - 2);
            }
        }
    }
}

fn main() {
    let args: Vec<String> = std::env::args().skip(1).collect();
    let number = |i: usize| args.get(i).and_then(|a| a.parse::<u32>().ok()).expect("smallest MAX_CELLS MAX_VARS ...");
    let list = |key: &str, default: &[u32]| {
        let given = args.iter().find_map(|a| a.strip_prefix(key).and_then(|r| r.strip_prefix('=')));
        given.map_or(default.to_vec(), |g| g.split(',').map(|n| n.parse().expect("a number")).collect())
    };
    let space = Space {
        modes: list("modes", &[2, 1, 0]),
        phases: list("phases", &[2, 1, 0]),
        units: list("units", &[100, 1, 2]),
        budgets: list("budgets", &[0, 1, 2, 9]),
        assumptions: list("assumptions", &[8])[0] as usize,
        plain: args.iter().any(|a| a == "plain"),
        clauses_first: args.iter().any(|a| a == "clauses-first"),
        after_conflict: args.iter().any(|a| a == "after-conflict"),
        learns: args.iter().any(|a| a == "learns"),
    };
    both::quietly();
    let mut search = Search { space, vars: 1, tried: 0, found: 0 };
    for size in list("from", &[6])[0] as usize..=number(0) as usize {
        for vars in 1..=number(1) {
            search.vars = vars;
            search.tried = 0;
            search.found = 0;
            search.records(&mut vec![vars, 8, 64, 0, 0, 0], size - 6, false);
            println!("cells={} V={} scripts={} found={}", size, vars, search.tried, search.found);
            if search.found > 0 {
                return;
            }
        }
    }
}

//! A script's run on the Rust.
//!
//! The scripts are taken as accepted: refusals and the limits C and L are not the oracle's.

use batsat::callbacks::Basic;
use batsat::clause::{lbool, Lit, Var};
use batsat::core::{Solver, SolverOpts};
use batsat::interface::SolverInterface;
use batsat::theory::EmptyTheory;
use std::time::Instant;

/// What one script cost.
#[derive(Default, Clone, Copy)]
pub struct Cost {
    pub conflicts: u64,
    pub restarts: u64,
    pub decisions: u64,
    pub propagations: u64,
    pub micros: u128,
}

/// After a record: how many out cells there are, and what is stored.
#[derive(Clone, Copy, PartialEq, Debug)]
pub struct After {
    pub cells: usize,
    pub clauses: u64,
    pub literals: u64,
}

fn literal(cell: u32) -> Lit {
    Lit::new(Var::unsafe_from_idx(cell >> 1), cell & 1 == 0)
}

fn options(script: &[u32]) -> SolverOpts {
    SolverOpts {
        luby_restart: true,
        restart_inc: 2.0,
        var_decay: 0.95,
        random_var_freq: 0.0,
        rnd_pol: false,
        rnd_init_act: false,
        ccmin_mode: script[3] as i32,
        phase_saving: script[4] as i32,
        restart_first: script[5] as i32,
        ..SolverOpts::default()
    }
}

/// The out cells of an accepted script. `after` is told of each record.
pub fn run_with(script: &[u32], mut after: impl FnMut(After)) -> (Vec<u32>, Cost) {
    let start = Instant::now();
    let mut solver: Solver<Basic> = Solver::new(options(script), Basic::new());
    let mut theory = EmptyTheory::new();
    for _ in 0..script[0] {
        solver.new_var_default();
    }
    let mut out = Vec::new();
    let mut solves = 0;
    let mut at = 6;
    while at < script.len() {
        let count = script[at + 1] as usize;
        let mut lits: Vec<Lit> = script[at + 2..at + 2 + count].iter().map(|&c| literal(c)).collect();
        if script[at] == 1 {
            out.push(solver.take_clause(&mut lits) as u32);
            at += 2 + count;
        } else {
            let before = solver.num_conflicts();
            solves += solver.is_ok() as u64;
            #[cfg(not(no_budget))]
            solver.set_budget(script[at + 2 + count] as u64);
            let answer = solver.solve_limited_preserving_trail_th(&mut theory, &lits);
            let cells: Vec<u32> = if answer == lbool::TRUE {
                solver.get_model().iter().map(|v| v.to_u8() as u32).collect()
            } else if answer == lbool::FALSE {
                solver.unsat_core().iter().map(|l| l.idx()).collect()
            } else {
                vec![1]
            };
            out.push(answer.to_u8() as u32);
            out.push((solver.num_conflicts() - before) as u32);
            out.push(cells.len() as u32);
            out.extend(cells);
            at += 3 + count;
        }
        let (clauses, literals) = solver.stored();
        after(After { cells: out.len(), clauses, literals });
    }
    let cost = Cost {
        conflicts: solver.num_conflicts(),
        restarts: solver.num_restarts() - solves, // the Rust counts each search
        decisions: solver.num_decisions(),
        propagations: solver.num_propagations(),
        micros: start.elapsed().as_micros(),
    };
    (out, cost)
}

pub fn run(script: &[u32]) -> (Vec<u32>, Cost) {
    run_with(script, |_| ())
}

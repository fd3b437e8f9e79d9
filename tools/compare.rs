//! One script through the engine and the oracle (the patched Rust), every out cell compared.

use crate::lent::{out_needed, work_needed, Answer, Lent};
use crate::shapes::{Record, Script};
use oracle::After;

/// How C and L stand to what the run stores.
#[derive(Clone, Copy)]
pub enum Limits {
    Exact,
    Slack(u32, u32),
    /// So many clauses or literals are missing.
    Short { clauses: u32, literals: u32 },
}

pub struct Tried {
    pub cells: Vec<u32>,
    pub oracle: Vec<u32>,
    pub engine: Result<Answer, String>,
    pub fault: Option<String>,
    pub short: bool,
    pub cost: oracle::Cost,
}

fn limits(kind: Limits, stored: (u64, u64)) -> (u32, u32) {
    let (c, l) = (stored.0 as u32, stored.1 as u32);
    let (c, l) = match kind {
        Limits::Exact => (c, l),
        Limits::Slack(a, b) => (c + a, l + b),
        Limits::Short { clauses, literals } => (c.saturating_sub(clauses), l.saturating_sub(literals)),
    };
    (c.min(65535), l.min(1048576))
}

/// What is wrong, if anything, with the engine's cells.
fn fault(script: &Script, cells: &[u32], oracle: &[u32], after: &[After], engine: &[u32]) -> (Option<String>, bool) {
    let passed = after.iter().position(|a| a.clauses > cells[1] as u64 || a.literals > cells[2] as u64);
    let Some(i) = passed else {
        let same = oracle == engine;
        return (if same { None } else { Some("other cells".into()) }, false);
    };
    let begin = if i == 0 { 0 } else { after[i - 1].cells };
    if engine.len() < begin || engine[..begin] != oracle[..begin] {
        return (Some("other cells before storage is short".into()), true);
    }
    let says = &engine[begin..];
    let right = match script.records[i] {
        Record::Clause(_) => says.first() == Some(&2),
        // it stops at a conflict that the oracle has too
        Record::Solve(..) => says.len() >= 4 && says[0] == 2 && says[2..4] == [1, 2] && (1..=oracle[begin + 1]).contains(&says[1]),
    };
    (if right { None } else { Some("storage is short and the answer does not say so".into()) }, true)
}

pub fn attempt(lent: &mut Lent, script: &Script, kind: Limits) -> Tried {
    let mut after = Vec::with_capacity(script.records.len());
    let mut cells = script.cells(0, 0);
    let (oracle, cost) = oracle::run_with(&cells, |a| after.push(a));
    let stored = after.last().map_or((0, 0), |a| (a.clauses, a.literals));
    (cells[1], cells[2]) = limits(kind, stored);
    let extra = script.records.len() % 3;
    lent.fill(work_needed(&cells) + extra, script.vars as usize + extra, out_needed(script) + extra);
    let engine = lent.answer(&cells);
    let (fault, short) = match &engine {
        Ok(Answer::Ran(out)) => fault(script, &cells, &oracle, &after, out),
        Ok(Answer::Refused(n, p)) => (Some(format!("refused {} at {}", n, p)), false),
        Err(e) => (Some(e.clone()), false),
    };
    Tried { cells, oracle, engine, fault, short, cost }
}

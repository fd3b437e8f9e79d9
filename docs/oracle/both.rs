//! Two builds of the Rust on one script; a panic counts as an answer.

use std::panic::{catch_unwind, AssertUnwindSafe};

pub type Out = Option<Vec<u32>>;

fn run(f: fn(&[u32]) -> Vec<u32>, script: &[u32]) -> Out {
    catch_unwind(AssertUnwindSafe(|| f(script))).ok()
}

pub fn patched(script: &[u32]) -> Out {
    run(|s| oracle_patched::run(s).0, script)
}

pub fn other(script: &[u32]) -> Out {
    run(|s| oracle_other::run(s).0, script)
}

pub fn words(cells: &[u32]) -> String {
    cells.iter().map(|c| c.to_string()).collect::<Vec<_>>().join(" ")
}

pub fn shown(out: &Out) -> String {
    out.as_ref().map_or("panics".into(), |o| words(o))
}

/// A panic is told by its answer alone.
pub fn quietly() {
    std::panic::set_hook(Box::new(|_| ()));
}

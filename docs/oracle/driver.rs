//! Runs scripts on the oracle: one script a line on stdin, decimal cells separated by blanks;
//! one line of out cells a script on stdout. A blank line, or one that begins with #, is skipped.
//!
//! `--each` writes a line a script to stderr: conflicts, restarts, propagations, microseconds of
//! the run. `--total` writes their sums at the end.

use oracle::{run, Cost};
use std::io::{BufRead, Write};

fn main() {
    let flag = |name: &str| std::env::args().any(|a| a == name);
    let (each, total) = (flag("--each"), flag("--total"));
    let mut scripts = 0;
    let mut sum = Cost::default();
    let mut stdout = std::io::BufWriter::new(std::io::stdout().lock());
    for line in std::io::stdin().lock().lines() {
        let line = line.expect("a line of text");
        if line.trim().is_empty() || line.starts_with('#') {
            continue;
        }
        let script: Vec<u32> = line.split_whitespace().map(|c| c.parse().expect("a cell")).collect();
        let (out, cost) = run(&script);
        let cells: Vec<String> = out.iter().map(|c| c.to_string()).collect();
        writeln!(stdout, "{}", cells.join(" ")).expect("stdout");
        if each {
            eprintln!(
                "conflicts={} restarts={} propagations={} micros={}",
                cost.conflicts, cost.restarts, cost.propagations, cost.micros
            );
        }
        scripts += 1;
        sum.conflicts += cost.conflicts;
        sum.restarts += cost.restarts;
        sum.propagations += cost.propagations;
        sum.micros += cost.micros;
    }
    stdout.flush().expect("stdout");
    if total {
        eprintln!(
            "scripts={} conflicts={} restarts={} propagations={} micros={}",
            scripts, sum.conflicts, sum.restarts, sum.propagations, sum.micros
        );
    }
}

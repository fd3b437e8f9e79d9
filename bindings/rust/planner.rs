//! examples/planner.txt from a program: how to write a script, lend the slices and read the answers.
mod engine;

const LINES: u32 = 3;
const NAMES: [&str; 3] = ["acid", "base", "coolant"];
const VARS: u32 = 12;
const CLAUSES: u32 = 64;
const LITERALS: u32 = 512;

/// Literals: a material is on a line, a line's valve is open, and what a literal denies.
fn on(material: u32, line: u32) -> u32 {
    2 * (material * LINES + line)
}

fn valve(line: u32) -> u32 {
    2 * (3 * LINES + line)
}

fn no(literal: u32) -> u32 {
    literal ^ 1
}

fn clause(script: &mut Vec<u32>, literals: &[u32]) {
    script.extend([1, literals.len() as u32]);
    script.extend(literals);
}

fn solve(script: &mut Vec<u32>, assumptions: &[u32]) {
    script.extend([2, assumptions.len() as u32]);
    script.extend(assumptions);
    script.push(1000);
}

fn rules(script: &mut Vec<u32>) {
    for m in 0..3 {
        clause(script, &[on(m, 0), on(m, 1), on(m, 2)]);
    }
    for m in 0..3 {
        for (l, k) in [(0, 1), (0, 2), (1, 2)] {
            clause(script, &[no(on(m, l)), no(on(m, k))]);
        }
    }
    for l in 0..LINES {
        for (m, k) in [(0, 1), (0, 2), (1, 2)] {
            clause(script, &[no(on(m, l)), no(on(k, l))]);
        }
    }
    clause(script, &[no(on(0, 0))]); // line bans
    clause(script, &[no(on(2, 2))]);
    for m in 0..2 {
        for l in 0..LINES {
            clause(script, &[no(on(m, l)), valve(l)]); // acid and base are pumped
        }
    }
    clause(script, &[no(valve(0)), no(valve(1))]); // one manifold
}

/// A solve's answer in words.
fn words(answer: u32, body: &[u32]) -> String {
    match answer {
        engine::TRUE => (0..3)
            .flat_map(|m| (0..LINES).map(move |l| (m, l)))
            .filter(|&(m, l)| body[on(m, l) as usize / 2] == 0)
            .map(|(m, l)| format!(" {} on line {}", NAMES[m as usize], l + 1))
            .collect(),
        engine::FALSE if body.is_empty() => " no, whatever is asked for".into(),
        engine::FALSE => body
            .iter()
            .map(|&l| format!(" {}{}", if l % 2 == 1 { "-" } else { "" }, l / 2 + 1))
            .fold(" no, since one of these must be:".into(), |text, literal| text + &literal),
        _ => format!(" stopped, cause {}", body[0]),
    }
}

fn main() {
    let mut script = vec![VARS, CLAUSES, LITERALS, 2, 2, 100];
    rules(&mut script);
    solve(&mut script, &[]);
    solve(&mut script, &[on(1, 0)]);
    solve(&mut script, &[no(valve(2)), on(2, 0)]);
    clause(&mut script, &[no(valve(2))]);
    solve(&mut script, &[]);

    let mut work = vec![0; engine::work_len(VARS, CLAUSES, LITERALS) as usize];
    let mut activities = vec![0.0; VARS as usize];
    let mut out = vec![0; engine::out_len(&script) as usize];
    let written = engine::run(&script, &mut work, &mut activities, &mut out).expect("an accepted script") as usize;

    let mut at = 30; // the first 30 cells are the answers to the rules
    for (question, clauses) in [("any loading", 0), ("base on line 1", 0), ("valve 3 shut, coolant on line 1", 0), ("valve 3 shut for good", 1)] {
        at += clauses;
        let count = out[at + 2] as usize;
        println!("{}:{}", question, words(out[at], &out[at + 3..at + 3 + count]));
        at += 3 + count;
    }
    assert_eq!(at, written);
}

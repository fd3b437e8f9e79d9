//! Tries the writer of 'at most k' through the library: its refusals, its cells, and by solves what the clauses say.
mod engine;

use engine::Refusal;
use std::process;

const EXTRA: usize = 8; // cells behind what is asked for: they must stay as they were

fn noise(i: usize) -> u32 {
    (i % 65521) as u32 * 65537 + 7
}

/// The clauses' cells, or the refusal; the rest of the slice is looked at too.
fn written(v: u32, literals: &[u32], k: u32, first: u32, room: usize) -> Result<Vec<u32>, Refusal> {
    let mut out: Vec<u32> = (0..room).map(noise).collect();
    let answer = engine::at_most(v, literals, k, first, &mut out);
    let n = *answer.as_ref().unwrap_or(&0) as usize;
    assert!((n..room).all(|i| out[i] == noise(i)), "a cell behind the clauses was written");
    out.truncate(n);
    answer.map(|_| out)
}

/// The answer of a solve under assumptions, over these records: TRUE or FALSE.
fn solved(v: u32, records: &[u32], assumptions: &[u32]) -> u32 {
    let mut script = vec![v, 65_535, 1_048_576, 2, 2, 100];
    script.extend(records);
    script.extend([2, assumptions.len() as u32]);
    script.extend(assumptions);
    script.push(1_000_000);
    let mut work = vec![0; engine::work_len(script[0], script[1], script[2]) as usize];
    let mut activities = vec![0.0; v as usize];
    let mut out = vec![0; engine::out_len(&script) as usize];
    let cells = engine::run(&script, &mut work, &mut activities, &mut out).expect("an accepted script") as usize;
    let clauses = clauses(records);
    assert!(!out[..clauses].contains(&engine::UNTAKEN), "a clause was not taken");
    let answer = out[clauses];
    if answer == engine::TRUE {
        let model = &out[clauses + 3..cells];
        assert!(assumptions.iter().all(|&l| model[l as usize / 2] == l % 2), "the model shows other values");
    }
    answer
}

/// How many records there are.
fn clauses(records: &[u32]) -> usize {
    let (mut at, mut n) = (0, 0);
    while at < records.len() {
        assert_eq!(records[at], 1);
        at += 2 + records[at + 1] as usize;
        n += 1;
    }
    n
}

/// Every way to set n literals, tried against counting.
fn counted(n: u32, k: u32) -> u32 {
    let literals: Vec<u32> = (0..n).map(|i| 2 * (n - 1 - i) + i % 2).collect(); // both signs, and not in order
    let helpers = if k < n { (n - 1) * k } else { 0 };
    let v = n + helpers;
    let needed = engine::at_most_len(n, k) as usize;
    let records = written(v, &literals, k, n, needed + EXTRA).expect("a call in order");
    assert_eq!(records.len(), needed);
    if needed > 0 {
        assert_eq!(written(v, &literals, k, n, needed - 1), Err(Refusal { number: 20, place: needed as u64 }));
    }
    for set in 0..1u32 << n {
        let assumptions: Vec<u32> = literals.iter().enumerate().map(|(i, &l)| l ^ (set >> i & 1 ^ 1)).collect();
        let want = if set.count_ones() <= k { engine::TRUE } else { engine::FALSE };
        assert_eq!(solved(v, &records, &assumptions), want, "n={n} k={k} set={set:b}");
    }
    1 << n
}

/// Calls with their answers: V, k, first helper, room, literals.
fn calls() -> usize {
    type Call = (u32, u32, u32, usize, &'static [u32], Result<&'static [u32], (u32, u64)>);
    let calls: [Call; 19] = [
        (7, 2, 3, 32, &[0, 2, 4], Ok(&[1, 2, 1, 6, 1, 1, 9, 1, 2, 3, 10, 1, 2, 7, 10, 1, 3, 3, 7, 12, 1, 2, 9, 12, 1, 2, 3, 9, 1, 2, 5, 13])),
        (3, 1, 2, 8, &[0, 2], Ok(&[1, 2, 1, 4, 1, 2, 3, 5])),
        (1, 0, 9, 3, &[0], Ok(&[1, 1, 1])),              // no helper in use, so none is out of place
        (1, 1, 9, 0, &[0], Ok(&[])),
        (2, 2, 0, 0, &[0, 2], Ok(&[])),
        (1, 4_294_967_295, 0, 0, &[0], Ok(&[])),
        (0, 0, 0, 3, &[0], Err((2, 0))),
        (4_097, 0, 0, 0, &[], Err((2, 0))),               // 2 before 18
        (1, 0, 0, 0, &[], Err((18, 0))),
        (1, 0, 0, 9, &[2], Err((18, 0))),
        (1, 0, 0, 0, &[2, 2], Err((18, 0))),              // 18 before 19
        (1, 2, 0, 0, &[0, 0], Err((19, 0))),              // also where nothing is written
        (2, 0, 0, 9, &[0, 1], Err((19, 0))),
        (3, 1, 0, 8, &[0, 2], Err((19, 0))),              // a helper among the literals
        (3, 1, 1, 8, &[0, 2], Err((19, 0))),
        (3, 1, 3, 8, &[0, 2], Err((19, 0))),              // a helper that is V
        (3, 1, 4_294_967_295, 8, &[0, 2], Err((19, 0))),  // past 32 bits
        (3, 1, 3, 0, &[0, 2], Err((19, 0))),              // 19 before 20
        (1, 0, 0, 2, &[1], Err((20, 3))),
    ];
    for (v, k, first, room, literals, want) in calls {
        let want = want.map(<[u32]>::to_vec).map_err(|(number, place)| Refusal { number, place });
        assert_eq!(written(v, literals, k, first, room), want, "V={v} k={k} first={first} room={room} literals={literals:?}");
    }
    let many: Vec<u32> = (0..65).map(|i| 2 * i).collect();
    assert_eq!(written(100, &many, 0, 0, 999), Err(Refusal { number: 18, place: 0 }));
    assert_eq!(engine::at_most_len(65, 1), 0);
    calls.len() + 1
}

/// The largest call: 64 literals, k = 63.
fn largest() {
    let literals: Vec<u32> = (0..64).map(|i| 2 * i).collect();
    assert_eq!(engine::at_most_len(64, 63), 35_534);
    let records = written(64 + 63 * 63, &literals, 63, 64, 35_534 + EXTRA).expect("a call in order");
    assert_eq!((records.len(), clauses(&records)), (35_534, 7_938));
    assert_eq!(solved(64 + 63 * 63, &records, &literals), engine::FALSE);
    assert_eq!(solved(64 + 63 * 63, &records, &literals[1..]), engine::TRUE);
}

fn main() {
    let calls = calls();
    let solves: u32 = (1..=6).map(|n| (0..=n + 1).map(|k| counted(n, k)).sum::<u32>()).sum();
    largest();
    println!("Rust, at most k: {calls} calls, {solves} solves against counting, and the largest call: as they should be");
    process::exit(0);
}

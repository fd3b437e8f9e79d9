//! Runs the cases of files through the library, in slices filled with noise, and compares all that the slices hold afterwards.
//! usage: check FILE... A line: name | script cells | out cells, or with the lengths of work, activities and out before the script. In place of the out
//! cells may stand `refused NUMBER PLACE`; `{N: cells}` stands for the cells N times over; lines with # are comments.
mod engine;

use engine::Refusal;
use std::{env, fs, process};

const EXTRA: usize = 16; // elements behind what is asked for: they must stay as they were

fn noise(i: usize) -> u32 {
    (i % 65521) as u32 * 65537 + 7
}

/// What an activity holds before a run, by its bits: plain numbers, both zeros, infinities, and NaNs of both signs, quiet and signalling, with payloads. A NaN that is
/// found is to be left bit by bit, which the proof does not see: to it all NaNs are one.
fn noise_bits(i: usize) -> u64 {
    let payload = u64::from(noise(i)) << 19 | 1; // not 0, and below the quiet bit
    match i % 8 {
        0 => 0x7ff0_0000_0000_0000 | payload, // signalling
        1 => 0xfff0_0000_0000_0000 | payload,
        2 => 0x7ff8_0000_0000_0000 | payload, // quiet
        3 => 0xfff8_0000_0000_0000 | payload,
        4 => f64::INFINITY.to_bits(),
        5 => (-0.0f64).to_bits(),
        6 => u64::MAX,
        _ => f64::from(noise(i)).to_bits(),
    }
}

fn numbers(text: &str) -> Vec<u32> {
    text.split_whitespace().map(|word| word.parse().expect("a number")).collect()
}

fn cells(text: &str) -> Vec<u32> {
    let mut all = Vec::new();
    for part in text.split('}') {
        let (plain, repeated) = part.split_once('{').unwrap_or((part, "0:"));
        let (times, inner) = repeated.split_once(':').expect("{N: cells}");
        all.extend(numbers(plain));
        all.extend(numbers(inner).repeat(times.parse().expect("a count")));
    }
    all
}

fn refusal(text: &str) -> Option<Refusal> {
    let words: Vec<u64> = text.strip_prefix("refused")?.split_whitespace().map(|word| word.parse().expect("a number")).collect();
    Some(Refusal { number: words[0] as u32, place: words[1] })
}

fn holds(script: &[u32], lengths: [usize; 3], want: Result<Vec<u32>, Refusal>) -> bool {
    let mut work: Vec<u32> = (0..lengths[0]).map(noise).collect();
    let mut activities: Vec<f64> = (0..lengths[1]).map(|i| f64::from_bits(noise_bits(i))).collect();
    let mut out: Vec<u32> = (0..lengths[2]).map(noise).collect();
    let got = engine::run(script, &mut work, &mut activities, &mut out);
    // what is written, and how many cells of work and activities are cleared
    let (answered, first, used, vars) = match want {
        Ok(cells) if script.is_empty() => (Ok(cells.len() as u64), cells, 0, 0),
        Ok(cells) => (Ok(cells.len() as u64), cells, engine::work_len(script[0], script[1], script[2]) as usize, script[0] as usize),
        Err(refusal) => (Err(refusal), vec![], 0, 0),
    };
    got == answered
        && (0..out.len()).all(|i| out[i] == *first.get(i).unwrap_or(&noise(i)))
        && (0..work.len()).all(|i| work[i] == if i < used { 0 } else { noise(i) })
        && (0..activities.len()).all(|i| activities[i].to_bits() == if i < vars { 0 } else { noise_bits(i) })
}

fn check(line: &str) -> bool {
    let fields: Vec<&str> = line.split('|').map(str::trim).collect();
    let script = cells(fields[fields.len() - 2]);
    let expected = fields[fields.len() - 1];
    let lengths = if fields.len() == 4 {
        numbers(fields[1]).iter().map(|&n| n as usize).collect()
    } else if script.is_empty() {
        vec![EXTRA; 3]
    } else {
        vec![
            engine::work_len(script[0], script[1], script[2]) as usize + EXTRA,
            script[0] as usize + EXTRA,
            engine::out_len(&script) as usize + EXTRA,
        ]
    };
    let want = refusal(expected).map_or_else(|| Ok(cells(expected)), Err);
    let more = match &want {
        Err(Refusal { number: 1..=5 | 7.., .. }) => EXTRA, // with more activities it is refused alike, and each kind of NaN is left
        _ => 0,
    };
    holds(&script, [lengths[0], lengths[1], lengths[2]], want.clone()) && holds(&script, [lengths[0], lengths[1] + more, lengths[2]], want)
}

fn main() {
    let mut failures = 0;
    for file in env::args().skip(1) {
        let text = fs::read_to_string(&file).expect("a file");
        let lines: Vec<&str> = text.lines().filter(|line| !line.starts_with('#') && line.contains('|')).collect();
        let failed: Vec<&str> = lines.iter().copied().filter(|line| !check(line)).collect();
        for line in &failed {
            println!("FAILED {}", line.split('|').next().unwrap_or(line));
        }
        println!("Rust, {}: {} passed, {} failed", file, lines.len() - failed.len(), failed.len());
        failures += failed.len() + usize::from(lines.is_empty());
    }
    process::exit((failures > 0) as i32);
}

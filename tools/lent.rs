//! The engine (the static library) on lent slices, and all that document 01 says of the slices after a run.

#[path = "../bindings/rust/engine.rs"]
#[allow(dead_code)]
mod binding;

use crate::shapes::{Record, Script};

#[derive(PartialEq, Debug)]
pub enum Answer {
    Ran(Vec<u32>),
    Refused(u32, u64),
}

/// The slices that are lent.
#[derive(Default)]
pub struct Lent {
    work: Vec<u32>,
    activities: Vec<f64>,
    out: Vec<u32>,
}

fn noise(i: usize) -> u32 {
    (i as u32).wrapping_mul(0x9e3779b9) | 1
}

fn noise_float(i: usize) -> f64 {
    if i % 3 == 0 { f64::NAN } else { 1e300 / (i + 1) as f64 }
}

pub fn work_needed(script: &[u32]) -> usize {
    32 * script[0] as usize + 8 * script[1] as usize + script[2] as usize + 64
}

pub fn out_needed(script: &Script) -> usize {
    let solves = script.records.iter().filter(|r| matches!(r, Record::Solve(..))).count();
    script.records.len() - solves + solves * (script.vars as usize + 4)
}

impl Lent {
    pub fn fill(&mut self, work: usize, activities: usize, out: usize) {
        self.work.clear();
        self.work.extend((0..work).map(noise));
        self.activities.clear();
        self.activities.extend((0..activities).map(noise_float));
        self.out.clear();
        self.out.extend((0..out).map(noise));
    }

    fn run(&mut self, script: &[u32]) -> (u32, u64) {
        let mut refusal = 77;
        let result = unsafe {
            binding::c::engine_run(
                script.as_ptr(),
                script.len(),
                self.work.as_mut_ptr(),
                self.work.len(),
                self.activities.as_mut_ptr(),
                self.activities.len(),
                self.out.as_mut_ptr(),
                self.out.len(),
                &mut refusal,
            )
        };
        (refusal, result)
    }

    /// Cells from the given places on are as `fill` left them.
    fn untouched(&self, work: usize, activities: usize, out: usize) -> Result<(), String> {
        let same = |a: f64, b: f64| a.to_bits() == b.to_bits();
        if let Some(i) = (work..self.work.len()).find(|&i| self.work[i] != noise(i)) {
            return Err(format!("work cell {} was written", i));
        }
        if let Some(i) = (activities..self.activities.len()).find(|&i| !same(self.activities[i], noise_float(i))) {
            return Err(format!("activity {} was written", i));
        }
        if let Some(i) = (out..self.out.len()).find(|&i| self.out[i] != noise(i)) {
            return Err(format!("out cell {} was written", i));
        }
        Ok(())
    }

    /// The answer, and all that document 01 says of the slices.
    pub fn answer(&mut self, script: &[u32]) -> Result<Answer, String> {
        let (refusal, result) = self.run(script);
        if refusal != 0 {
            self.untouched(0, 0, 0)?;
            return Ok(Answer::Refused(refusal, result));
        }
        let n = result as usize;
        if n > self.out.len() {
            return Err(format!("{} out cells, and {} were lent", n, self.out.len()));
        }
        let (need, vars) = if script.is_empty() { (0, 0) } else { (work_needed(script), script[0] as usize) };
        self.untouched(need, vars, n)?;
        if let Some(i) = (0..need).find(|&i| self.work[i] != 0) {
            return Err(format!("work cell {} is not zero", i));
        }
        if let Some(i) = (0..vars).find(|&i| self.activities[i].to_bits() != 0) {
            return Err(format!("activity {} is not zero", i));
        }
        Ok(Answer::Ran(self.out[..n].to_vec()))
    }
}

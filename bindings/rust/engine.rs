//! The SAT engine from Rust, over target/staticlib/libengine.a. include/engine.h says what the C functions ask of a caller; the borrow checker sees to it here.

/// The functions as include/engine.h has them.
pub mod c {
    extern "C" {
        pub fn engine_run(
            script: *const u32,
            script_len: usize,
            work: *mut u32,
            work_len: usize,
            activities: *mut f64,
            activities_len: usize,
            out: *mut u32,
            out_len: usize,
            refusal: *mut u32,
        ) -> u64;
        pub fn engine_work_len(v: u32, c: u32, l: u32) -> u64;
        pub fn engine_out_len(script: *const u32, script_len: usize) -> u64;
        pub fn engine_at_most(
            v: u32,
            literals: *const u32,
            literals_len: usize,
            k: u32,
            first_helper: u32,
            out: *mut u32,
            out_len: usize,
            refusal: *mut u32,
        ) -> u64;
        pub fn engine_at_most_len(n: u32, k: u32) -> u64;
    }
}

/// A solve's first out cell.
pub const TRUE: u32 = 0;
pub const FALSE: u32 = 1;
pub const UNDEF: u32 = 2;

/// The out cell of a clause for which there was no storage.
pub const UNTAKEN: u32 = 2;

/// Why a script is turned back: the number and the place of docs/FORMAT.md.
#[derive(Clone, Copy, Debug, PartialEq, Eq)]
pub struct Refusal {
    pub number: u32,
    pub place: u64,
}

/// Runs a script in lent slices; the result is how many cells of `out` were written.
pub fn run(script: &[u32], work: &mut [u32], activities: &mut [f64], out: &mut [u32]) -> Result<u64, Refusal> {
    let mut number = 0;
    // SAFETY: each slice is passed with its own length, and none that is written overlaps another
    let result = unsafe {
        c::engine_run(
            script.as_ptr(),
            script.len(),
            work.as_mut_ptr(),
            work.len(),
            activities.as_mut_ptr(),
            activities.len(),
            out.as_mut_ptr(),
            out.len(),
            &mut number,
        )
    };
    if number == 0 {
        Ok(result)
    } else {
        Err(Refusal { number, place: result })
    }
}

/// The work cells that a script of these V, C and L needs.
pub fn work_len(v: u32, c: u32, l: u32) -> u64 {
    // SAFETY: it takes numbers alone
    unsafe { c::engine_work_len(v, c, l) }
}

/// The out cells that an accepted script needs.
pub fn out_len(script: &[u32]) -> u64 {
    // SAFETY: the slice is passed with its length, and only read
    unsafe { c::engine_out_len(script.as_ptr(), script.len()) }
}

/// Writes clauses that say 'at most k of these literals', of a script of `v` variables, into `out`, with helper variables from `first_helper` on; the result is
/// how many cells were written.
pub fn at_most(v: u32, literals: &[u32], k: u32, first_helper: u32, out: &mut [u32]) -> Result<u64, Refusal> {
    let mut number = 0;
    // SAFETY: each slice is passed with its own length, and the one that is written does not overlap the other
    let result =
        unsafe { c::engine_at_most(v, literals.as_ptr(), literals.len(), k, first_helper, out.as_mut_ptr(), out.len(), &mut number) };
    if number == 0 {
        Ok(result)
    } else {
        Err(Refusal { number, place: result })
    }
}

/// The cells that the clauses for n literals take.
pub fn at_most_len(n: u32, k: u32) -> u64 {
    // SAFETY: it takes numbers alone
    unsafe { c::engine_at_most_len(n, k) }
}

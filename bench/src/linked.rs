//! The proved code, linked. A slice crosses as a pointer and a length. The functions require nothing, so every call here is safe.

use model::tree::Form;

#[link(name = "racing", kind = "static")]
extern "C" {
    fn duha_run(file: *const u8, bytes: usize, out: *mut u32, places: usize) -> u32;
}

#[link(name = "timing", kind = "static")]
extern "C" {
    fn duha_one_by_one(n: u32, form: u32, span: u32, events: *const u32, numbers: usize, out: *mut u32, places: usize) -> u32;
    fn duha_in_handfuls(n: u32, form: u32, span: u32, size: u32, events: *const u32, numbers: usize, out: *mut u32, places: usize) -> u32;
}

/// Starts a group of n in a form and calls `event` once for each event.
pub fn one_by_one(n: u32, form: Form, events: &[u32], out: &mut [u32]) -> u32 {
    unsafe { duha_one_by_one(n, form.number, form.span, events.as_ptr(), events.len(), out.as_mut_ptr(), out.len()) }
}

/// Starts a group of n in a form and calls `batch` once for each `size` events.
pub fn in_handfuls(n: u32, form: Form, size: u32, events: &[u32], out: &mut [u32]) -> u32 {
    unsafe { duha_in_handfuls(n, form.number, form.span, size, events.as_ptr(), events.len(), out.as_mut_ptr(), out.len()) }
}

/// Runs a schedule file.
pub fn run(file: &[u8], out: &mut [u32]) -> u32 {
    unsafe { duha_run(file.as_ptr(), file.len(), out.as_mut_ptr(), out.len()) }
}

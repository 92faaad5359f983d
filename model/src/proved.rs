//! The proved library, reached by its two C functions, and by a third that is there
//! to be measured. Code is unsafe here and in `timing::stack`.

use crate::compare::Player;

extern "C" {
    fn fenderacai_report(file: *const u8, file_len: usize, out: *mut u8, out_len: usize) -> usize;
    fn fenderacai_trace(file: *const u8, file_len: usize, out: *mut u32, out_len: usize) -> usize;
    fn fenderacai_apply(file: *const u8, file_len: usize, out: *mut u8, out_len: usize) -> usize;
}

/// The proved library as a player.
#[derive(Clone, Copy, Default, Debug)]
pub struct Proved;

impl Player for Proved {
    fn report(&mut self, file: &[u8], out: &mut [u8]) -> usize {
        // SAFETY: both slices are alive for the call, and their true lengths are handed over.
        unsafe { fenderacai_report(file.as_ptr(), file.len(), out.as_mut_ptr(), out.len()) }
    }

    fn trace(&mut self, file: &[u8], out: &mut [u32]) -> usize {
        // SAFETY: both slices are alive for the call, and their true lengths are handed over.
        unsafe { fenderacai_trace(file.as_ptr(), file.len(), out.as_mut_ptr(), out.len()) }
    }
}

impl Proved {
    /// Plays a file by `Bench::apply`, and writes the answers to the start of `out`; says how many
    /// there are. If that is more than `out` holds, it stays.
    pub fn apply(self, file: &[u8], out: &mut [u8]) -> usize {
        // SAFETY: both slices are alive for the call, and their true lengths are handed over.
        unsafe { fenderacai_apply(file.as_ptr(), file.len(), out.as_mut_ptr(), out.len()) }
    }
}

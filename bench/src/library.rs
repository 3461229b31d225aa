//! The proved library, as Rust calls it. A slice is handed over as a pointer and a length.

extern "C" {
    fn lnianotka_check(network: *const u8, length: usize, place: *mut usize) -> u8;
    fn lnianotka_judge(input: *const u8, length: usize, out: *mut u8, room: usize) -> usize;
    fn lnianotka_census(input: *const u8, length: usize, out: *mut u8, room: usize) -> usize;
    fn lnianotka_trail_answer() -> usize;
    fn lnianotka_trail(input: *const u8, length: usize, out: *mut u8, room: usize) -> usize;
    fn lnianotka_cut(input: *const u8, length: usize, out: *mut u8, room: usize) -> usize;
    fn lnianotka_join(input: *const u8, length: usize, out: *mut u8, room: usize) -> usize;
}

/// Number and place of the first refusal of 1 to 10 that applies to a network, or two zeros.
pub fn check(network: &[u8]) -> (u8, usize) {
    let mut place = 0;
    // SAFETY: the function reads the bytes of the slice and writes the place alone.
    let number = unsafe { lnianotka_check(network.as_ptr(), network.len(), &mut place) };
    (number, place)
}

/// The judge's answer, laid at the start of `out` where it fits; gives its length.
pub fn judge(input: &[u8], out: &mut [u8]) -> usize {
    // SAFETY: the function reads the bytes of the one slice and writes within the other.
    unsafe { lnianotka_judge(input.as_ptr(), input.len(), out.as_mut_ptr(), out.len()) }
}

/// The census's answer, laid at the start of `out` where it fits; gives its length.
pub fn census(input: &[u8], out: &mut [u8]) -> usize {
    // SAFETY: as above.
    unsafe { lnianotka_census(input.as_ptr(), input.len(), out.as_mut_ptr(), out.len()) }
}

/// Room enough for every trail: where an answer has it, it is not measured before it is laid.
pub fn trail_room() -> usize {
    // SAFETY: the function answers with a number.
    unsafe { lnianotka_trail_answer() }
}

/// The trail's answer, laid at the start of `out` where it fits; gives its length.
pub fn trail(input: &[u8], out: &mut [u8]) -> usize {
    // SAFETY: as above.
    unsafe { lnianotka_trail(input.as_ptr(), input.len(), out.as_mut_ptr(), out.len()) }
}

/// The cutter's answer, laid at the start of `out` where it fits; gives its length.
pub fn cut(input: &[u8], out: &mut [u8]) -> usize {
    // SAFETY: as above.
    unsafe { lnianotka_cut(input.as_ptr(), input.len(), out.as_mut_ptr(), out.len()) }
}

/// The join's answer, laid at the start of `out` where it fits; gives its length.
pub fn join(input: &[u8], out: &mut [u8]) -> usize {
    // SAFETY: as above.
    unsafe { lnianotka_join(input.as_ptr(), input.len(), out.as_mut_ptr(), out.len()) }
}

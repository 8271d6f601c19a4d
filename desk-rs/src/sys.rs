//! The entries of `libdesk.a` as docs/DESK.md gives them, each behind a safe
//! function on numbers and byte slices. All unsafe code of the package is here.
//!
//! An answer is `16 × value + reason`. Most programs want the functions at the
//! top of this library, which take it apart.

#![allow(unsafe_code)]

// A slice is passed as a pointer and a length.
extern "C" {
    fn tenderchock_check(kind: u64, text: *const u8, text_length: usize) -> u64;
    fn tenderchock_parse(
        kind: u64,
        text: *const u8,
        text_length: usize,
        out: *mut u8,
        out_length: usize,
    ) -> u64;
    fn tenderchock_format(
        kind: u64,
        text: *const u8,
        text_length: usize,
        out: *mut u8,
        out_length: usize,
    ) -> u64;
    fn tenderchock_convert(start: u64, end: u64, size: u64, out: *mut u8, out_length: usize)
        -> u64;
    fn tenderchock_lift_position(
        text: *const u8,
        text_length: usize,
        position: u64,
        out: *mut u8,
        out_length: usize,
    ) -> u64;
    fn tenderchock_lift_region(
        text: *const u8,
        text_length: usize,
        start: u64,
        end: u64,
        out: *mut u8,
        out_length: usize,
    ) -> u64;
    fn tenderchock_turn(
        text: *const u8,
        text_length: usize,
        out: *mut u8,
        out_length: usize,
    ) -> u64;
    fn tenderchock_tally(
        text: *const u8,
        text_length: usize,
        start: u64,
        end: u64,
        tally: *mut u8,
        tally_length: usize,
    ) -> u64;
    fn tenderchock_lift_batch(
        text: *const u8,
        text_length: usize,
        regions: *const u8,
        regions_length: usize,
        tally: *mut u8,
        tally_length: usize,
        out: *mut u8,
        out_length: usize,
    ) -> u64;
    fn tenderchock_numbers(
        text: *const u8,
        text_length: usize,
        out: *mut u8,
        out_length: usize,
    ) -> u64;
}

// SAFETY, for every call below: an entry is total, keeps no pointer, reads only
// the text, the regions and what is lent, and writes only what is lent. Each
// pointer and length come from one live slice; each lent one is borrowed mutably,
// so no other overlaps it.

/// Whether a text of this kind is accepted; counts its blocks.
pub fn check(kind: u64, text: &[u8]) -> u64 {
    unsafe { tenderchock_check(kind, text.as_ptr(), text.len()) }
}

/// The record of a text and its rows, as numbers of 8 bytes; counts them.
pub fn parse(kind: u64, text: &[u8], out: &mut [u8]) -> u64 {
    let (out, room) = (out.as_mut_ptr(), out.len());
    unsafe { tenderchock_parse(kind, text.as_ptr(), text.len(), out, room) }
}

/// The standard text of a text; counts its bytes.
pub fn format(kind: u64, text: &[u8], out: &mut [u8]) -> u64 {
    let (out, room) = (out.as_mut_ptr(), out.len());
    unsafe { tenderchock_format(kind, text.as_ptr(), text.len(), out, room) }
}

/// Start and end on the other strand, as 2 numbers.
pub fn convert(start: u64, end: u64, size: u64, out: &mut [u8]) -> u64 {
    unsafe { tenderchock_convert(start, end, size, out.as_mut_ptr(), out.len()) }
}

/// Partner and drift of a position through a chain, as 2 numbers.
pub fn lift_position(text: &[u8], position: u64, out: &mut [u8]) -> u64 {
    let (out, room) = (out.as_mut_ptr(), out.len());
    unsafe { tenderchock_lift_position(text.as_ptr(), text.len(), position, out, room) }
}

/// Kept, dropped, start and end of a region through a chain, as 4 numbers.
pub fn lift_region(text: &[u8], start: u64, end: u64, out: &mut [u8]) -> u64 {
    let (out, room) = (out.as_mut_ptr(), out.len());
    unsafe { tenderchock_lift_region(text.as_ptr(), text.len(), start, end, out, room) }
}

/// The standard text of a turned chain; counts its bytes.
pub fn turn(text: &[u8], out: &mut [u8]) -> u64 {
    let (out, room) = (out.as_mut_ptr(), out.len());
    unsafe { tenderchock_turn(text.as_ptr(), text.len(), out, room) }
}

/// One region of a batch; its tally, 3 numbers, grows in place. Counts the bases kept.
pub fn tally(text: &[u8], start: u64, end: u64, tally: &mut [u8]) -> u64 {
    let (lent, length) = (tally.as_mut_ptr(), tally.len());
    unsafe { tenderchock_tally(text.as_ptr(), text.len(), start, end, lent, length) }
}

/// A batch of regions through a chain, each a start and an end, 2 numbers; each gets a
/// row of 5 numbers, and the tally, 3 numbers, grows in place. Counts the regions.
pub fn lift_batch(text: &[u8], regions: &[u8], tally: &mut [u8], out: &mut [u8]) -> u64 {
    unsafe {
        tenderchock_lift_batch(
            text.as_ptr(),
            text.len(),
            regions.as_ptr(),
            regions.len(),
            tally.as_mut_ptr(),
            tally.len(),
            out.as_mut_ptr(),
            out.len(),
        )
    }
}

/// The numbers of a text of one line, 8 bytes each; counts them.
pub fn numbers(text: &[u8], out: &mut [u8]) -> u64 {
    let (out, room) = (out.as_mut_ptr(), out.len());
    unsafe { tenderchock_numbers(text.as_ptr(), text.len(), out, room) }
}

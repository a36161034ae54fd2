//! The exported report call, and what is asked of one call of it.

use crate::model::file::{Verdict, SHORTEST_BUFFER};

#[cfg(not(feature = "standin"))]
extern "C" {
    fn reel_report(file: *const u8, file_len: usize, out: *mut u8, out_len: usize) -> usize;
}

/// The stand-in for the library: this project's own implementation behind the same call.
#[cfg(feature = "standin")]
unsafe fn reel_report(file: *const u8, file_len: usize, out: *mut u8, out_len: usize) -> usize {
    let file = std::slice::from_raw_parts(file, file_len);
    let out = std::slice::from_raw_parts_mut(out, out_len);
    crate::model::file::report(file, out)
}

/// The buffer lengths with which every file is reported.
pub const BUFFERS: [usize; 3] = [63, 64, 200];

/// Bytes before and after the buffer that must stay as they are.
const GUARD: usize = 64;

/// What a byte of the buffer holds before the call.
fn untouched(place: usize) -> u8 {
    (place as u8).wrapping_mul(37).wrapping_add(11)
}

/// Calls the report and compares its answer, the bytes it wrote, and that it wrote no others.
pub fn compare(file: &[u8], verdict: &Verdict, buffer: usize) -> Result<(), String> {
    let text = verdict.text();
    let (answer, written) = if buffer < SHORTEST_BUFFER {
        (7, "")
    } else {
        (text.len(), text.as_str())
    };
    let mut expected: Vec<u8> = (0..GUARD + buffer + GUARD).map(untouched).collect();
    let mut memory = expected.clone();
    expected[GUARD..GUARD + written.len()].copy_from_slice(written.as_bytes());

    let given = file.to_vec();
    // Safety: both pointers come from live buffers of at least the lengths given.
    let got = unsafe {
        let out = memory.as_mut_ptr().add(GUARD);
        reel_report(given.as_ptr(), given.len(), out, buffer)
    };
    if got != answer {
        let shown = String::from_utf8_lossy(&memory[GUARD..GUARD + got.min(buffer)]).into_owned();
        return Err(format!(
            "answered {got} ({shown:?}), expected {answer} ({written:?})"
        ));
    }
    if memory != expected {
        let first = (0..memory.len())
            .find(|&i| memory[i] != expected[i])
            .unwrap();
        let place = first as isize - GUARD as isize;
        let shown = String::from_utf8_lossy(&memory[GUARD..GUARD + written.len()]).into_owned();
        return Err(format!(
            "byte {place} of the buffer differs: wrote {shown:?}, expected {written:?}"
        ));
    }
    if given != file {
        return Err("the file's bytes were changed".to_string());
    }
    Ok(())
}

/// Calls the report, and answers what it does.
pub fn report(file: &[u8], out: &mut [u8]) -> usize {
    // Safety: both pointers come from live slices of the lengths given.
    unsafe { reel_report(file.as_ptr(), file.len(), out.as_mut_ptr(), out.len()) }
}

#[cfg(not(feature = "standin"))]
extern "C" {
    fn reel_check(file: *const u8, file_len: usize) -> u64;
}

/// What the exported check answers for a file of any length: 0 for an approval.
#[cfg(not(feature = "standin"))]
pub fn check(file: &[u8]) -> u64 {
    // Safety: the pointer comes from a live slice of the length given.
    unsafe { reel_check(file.as_ptr(), file.len()) }
}

#[cfg(feature = "standin")]
pub fn check(_file: &[u8]) -> u64 {
    0
}

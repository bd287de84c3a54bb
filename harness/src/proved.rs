//! The proved library's four functions, wrapped.

/// Told for want of memory, for a line that is accepted, or for one that cannot be written.
const NONE: usize = usize::MAX;
/// Told where the caller's place is too short.
const TOO_SHORT: usize = usize::MAX - 1;

/// More than the longest line has.
pub const LINE_ROOM: usize = 400;

mod exports {
    extern "C" {
        pub fn marginbook_serve(
            input: *const u8,
            input_len: usize,
            out: *mut u8,
            out_len: usize,
        ) -> usize;
        pub fn marginbook_serve_large(
            input: *const u8,
            input_len: usize,
            out: *mut u8,
            out_len: usize,
        ) -> usize;
        pub fn marginbook_refused_field(line: usize, bytes: *const u8, len: usize) -> usize;
        pub fn marginbook_rewrite_line(
            line: usize,
            bytes: *const u8,
            len: usize,
            out: *mut u8,
            out_len: usize,
        ) -> usize;
    }
}

type Serve = unsafe extern "C" fn(*const u8, usize, *mut u8, usize) -> usize;

/// Why nothing was written.
#[derive(Clone, Copy, Debug, PartialEq, Eq)]
pub enum Failure {
    Memory,
    TooShort,
    /// The line is not in the format.
    Refused,
}

/// All that is printed for an input.
pub fn serve(input: &[u8]) -> Vec<u8> {
    printed(exports::marginbook_serve, input)
}

/// The same over a book of 4,096 lot places and 8,192 slip places.
pub fn serve_large(input: &[u8]) -> Vec<u8> {
    printed(exports::marginbook_serve_large, input)
}

/// What `serve` gives, to the front of `out`: its length.
pub fn serve_into(input: &[u8], out: &mut [u8]) -> Result<usize, Failure> {
    print_into(exports::marginbook_serve, input, out)
}

/// What `serve_large` gives, to the front of `out`: its length.
pub fn serve_large_into(input: &[u8], out: &mut [u8]) -> Result<usize, Failure> {
    print_into(exports::marginbook_serve_large, input, out)
}

fn printed(serve: Serve, input: &[u8]) -> Vec<u8> {
    // a report's line of 4 bytes has the longest answer, at most 5 + 7 * 21 bytes
    let mut out = vec![0; 64 + 40 * input.len()];
    let length = print_into(serve, input, &mut out).expect("there is memory, and room");
    out.truncate(length);
    out
}

fn print_into(serve: Serve, input: &[u8], out: &mut [u8]) -> Result<usize, Failure> {
    // SAFETY: both pointers come with the lengths of live places that do not overlap, and are only
    // used during the call.
    let length = unsafe { serve(input.as_ptr(), input.len(), out.as_mut_ptr(), out.len()) };
    match length {
        NONE => Err(Failure::Memory),
        TOO_SHORT => Err(Failure::TooShort),
        _ => Ok(length),
    }
}

/// The refused field of a line; none if the line is accepted.
pub fn refused_field(line_number: usize, line: &[u8]) -> Option<u64> {
    // SAFETY: the pointer comes with the length of a live slice.
    let field =
        unsafe { exports::marginbook_refused_field(line_number, line.as_ptr(), line.len()) };
    (field != NONE).then_some(field as u64)
}

/// An accepted line, read and written again; none if it is refused.
pub fn rewrite(line_number: usize, line: &[u8]) -> Option<Vec<u8>> {
    let mut out = [0; LINE_ROOM];
    match rewrite_into(line_number, line, &mut out) {
        Ok(length) => Some(out[..length].to_vec()),
        Err(Failure::Refused) => None,
        Err(failure) => panic!("a line has at most 381 bytes, and needs no memory: {failure:?}"),
    }
}

/// The same to the front of `out`: its length.
pub fn rewrite_into(line_number: usize, line: &[u8], out: &mut [u8]) -> Result<usize, Failure> {
    // SAFETY: as for `print_into`.
    let length = unsafe {
        exports::marginbook_rewrite_line(
            line_number,
            line.as_ptr(),
            line.len(),
            out.as_mut_ptr(),
            out.len(),
        )
    };
    match length {
        NONE => Err(Failure::Refused),
        TOO_SHORT => Err(Failure::TooShort),
        _ => Ok(length),
    }
}

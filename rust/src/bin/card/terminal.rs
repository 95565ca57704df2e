//! What is known of the terminal.

use std::ffi::{c_int, c_ulong};
use std::io::{self, IsTerminal};
use std::os::fd::AsRawFd;

/// What the terminal's driver tells of its size: rows and columns of cells, then
/// both in picture elements.
#[repr(C)]
#[derive(Default)]
struct Size {
    rows: u16,
    columns: u16,
    elements: [u16; 2],
}

/// The request for it, on Linux.
const SIZE_REQUEST: c_ulong = 0x5413;

extern "C" {
    fn ioctl(file: c_int, request: c_ulong, ...) -> c_int;
}

/// Whether this is a terminal that knows how to move and to show styles.
pub fn is_able(stream: &impl IsTerminal) -> bool {
    stream.is_terminal() && std::env::var_os("TERM").is_none_or(|name| name != "dumb")
}

/// The rows and columns of the terminal that is standard output; none if it is
/// not one, or does not know.
pub fn size() -> Option<(usize, usize)> {
    let mut size = Size::default();
    let out = io::stdout().as_raw_fd();
    // SAFETY: the request writes one struct of this layout, to which the
    // pointer is, and whose numbers may have any value.
    let answer = unsafe { ioctl(out, SIZE_REQUEST, &mut size as *mut Size) };
    let known = answer == 0 && size.rows > 0 && size.columns > 0;
    known.then_some((size.rows.into(), size.columns.into()))
}

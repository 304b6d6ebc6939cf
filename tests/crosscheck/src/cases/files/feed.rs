//! A pipe that a program gets a run file through, in pieces that its reads see.

use crate::make_up::pieces::Pieces;
use std::ffi::c_int;
use std::io::{self, ErrorKind, PipeReader, PipeWriter, Write};
use std::os::fd::AsRawFd;

/// Linux: a write of no more bytes is one packet in packet mode.
const PACKET_BYTES: usize = 4096;
const F_SETFL: c_int = 4;
/// On a pipe, packet mode: a read ends where a write did. What a read has no room
/// for of a packet is lost; so a program must read into more than a piece.
const O_DIRECT: c_int = if cfg!(any(target_arch = "aarch64", target_arch = "arm")) {
    0o200_000
} else {
    0o40_000
};

extern "C" {
    fn fcntl(file: c_int, command: c_int, ...) -> c_int;
}

/// The reads see pieces of more than a packet as the pipe holds them.
pub fn pipe(pieces: Pieces) -> io::Result<(PipeReader, PipeWriter)> {
    let (reader, writer) = io::pipe()?;
    if pieces.largest() <= PACKET_BYTES {
        // SAFETY: the writer is open, and the command takes a number.
        let set = unsafe { fcntl(writer.as_raw_fd(), F_SETFL, O_DIRECT) };
        if set < 0 {
            return Err(io::Error::last_os_error());
        }
    }
    Ok((reader, writer))
}

/// One write for each piece, until the program reads no further.
pub fn feed(mut writer: PipeWriter, file: &[u8], pieces: Pieces) -> io::Result<()> {
    for piece in pieces.of(file) {
        match writer.write_all(piece) {
            Err(error) if error.kind() == ErrorKind::BrokenPipe => break,
            other => other?,
        }
    }
    Ok(())
}

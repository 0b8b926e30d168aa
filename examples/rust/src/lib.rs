//! Bevelrose from Rust: a safe `Network` over the functions of `bevelrose.h`.

use std::error::Error;
use std::ffi::c_void;
use std::fmt;
use std::marker::PhantomData;

#[repr(C)]
struct Handle {
    network: *mut c_void,
}

extern "C" {
    fn bevelrose_check(text: *const u8, text_length: usize, room: *mut u8, room_length: usize, length: *mut usize) -> u8;
    fn bevelrose_open(
        network: *mut Handle,
        text: *const u8,
        text_length: usize,
        room: *mut u8,
        room_length: usize,
        length: *mut usize,
    ) -> u8;
    fn bevelrose_run(
        network: *mut Handle,
        records: *const u8,
        records_length: usize,
        limit: u64,
        room: *mut u8,
        room_length: usize,
        length: *mut usize,
    ) -> u8;
    fn bevelrose_close(network: *mut Handle);
}

/// Why a text was refused, or was not run.
#[derive(Debug, Clone, PartialEq, Eq)]
pub struct Refusal {
    /// 2 to 5, as the program `flow_run` ends with.
    pub status: u8,
    /// The line that tells of it.
    pub line: String,
}

impl fmt::Display for Refusal {
    fn fmt(&self, f: &mut fmt::Formatter<'_>) -> fmt::Result {
        f.write_str(&self.line)
    }
}

impl Error for Refusal {}

/// How a run ended.
#[derive(Debug, Clone, Copy, PartialEq, Eq)]
pub enum Ended {
    /// Every block is done, and no record waits.
    Quiet,
    /// Nothing can move any more, but a block is not done, or records wait.
    Left,
    /// As many events happened as may.
    Stopped,
}

/// What tells of a refusal has at most so many bytes.
const LINE: usize = 128;

/// Calls with this much room, and where the answer is longer once more with as much as it takes.
fn answer(room: usize, mut call: impl FnMut(&mut [u8], &mut usize) -> u8) -> (u8, String) {
    let mut text = vec![0; room];
    let mut length = 0;
    let mut status = call(&mut text, &mut length);
    if length > text.len() {
        text.resize(length, 0);
        status = call(&mut text, &mut length);
    }
    text.truncate(length);
    (status, String::from_utf8_lossy(&text).into_owned())
}

/// Whether this text is a network.
pub fn check(text: &[u8]) -> Result<(), Refusal> {
    // SAFETY: each pointer leads to as many bytes as the length beside it says.
    let (status, line) = answer(LINE, |room, length| unsafe {
        bevelrose_check(text.as_ptr(), text.len(), room.as_mut_ptr(), room.len(), length)
    });
    match status {
        0 => Ok(()),
        status => Err(Refusal { status, line }),
    }
}

/// A network that is ready to run.
#[derive(Debug)]
pub struct Network {
    handle: *mut c_void,
    // It stays on its thread.
    stays: PhantomData<*const ()>,
}

impl Network {
    /// Makes the network of this text ready.
    pub fn open(text: &[u8]) -> Result<Network, Refusal> {
        let mut handle = Handle { network: std::ptr::null_mut() };
        // SAFETY: as above, and the handle is zero.
        let (status, line) = answer(LINE, |room, length| unsafe {
            bevelrose_open(&mut handle, text.as_ptr(), text.len(), room.as_mut_ptr(), room.len(), length)
        });
        match status {
            0 => Ok(Network { handle: handle.network, stays: PhantomData }),
            status => Err(Refusal { status, line }),
        }
    }

    /// Runs the network over these records until nothing can move, or so many events have happened. Answers how it ended, and the report.
    pub fn run(&mut self, records: &[u8], limit: u64) -> Result<(Ended, String), Refusal> {
        let mut handle = Handle { network: self.handle };
        // SAFETY: as above, and the handle is the one that was opened.
        let (status, text) = answer(4096, |room, length| unsafe {
            bevelrose_run(&mut handle, records.as_ptr(), records.len(), limit, room.as_mut_ptr(), room.len(), length)
        });
        self.handle = handle.network;
        match status {
            0 => Ok((Ended::Quiet, text)),
            1 => Ok((Ended::Left, text)),
            3 if text != "ids" => Ok((Ended::Stopped, text)),
            status => Err(Refusal { status, line: text }),
        }
    }
}

impl Drop for Network {
    fn drop(&mut self) {
        let mut handle = Handle { network: self.handle };
        // SAFETY: the handle is the one that was opened, and nobody uses it after this.
        unsafe { bevelrose_close(&mut handle) }
    }
}

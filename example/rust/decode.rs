//! decode REC FILE: the octets of a recording, from plain Rust.
//!
//!     rustc -O -L native=lib -l static=modem example/rust/decode.rs
use std::ffi::c_void;
use std::process::ExitCode;
use std::{env, error, fs, ptr};

const DONE: i32 = 0;
const FULL: i32 = 2;
const LOST: i32 = 3;
const LAST_BITS: usize = 512;

/// `modem_decoder` of modem.h.
#[repr(C)]
struct Handle {
    at: *mut c_void,
}

/// `modem_progress` of modem.h.
#[repr(C)]
#[derive(Default)]
struct Progress {
    read: usize,
    written: usize,
    lost: u64,
}

unsafe extern "C" {
    fn modem_free(handle: &mut Handle);
    fn modem_decoder_new(handle: &mut Handle, line: u8, mode: u8) -> i32;
    fn modem_decoder_push(handle: &mut Handle, parts: *const i16, count: usize, bits: *mut u8, room: usize, progress: &mut Progress) -> i32;
    fn modem_decoder_finish(handle: &mut Handle, bits: *mut u8, room: usize, progress: &mut Progress) -> i32;
}

/// Why samples weren't decoded.
#[derive(Debug)]
enum Fault {
    /// The line is lost since this symbol.
    Lost(u64),
    /// Any other code.
    Code(i32),
}

/// A decoder that frees itself.
struct Decoder(Handle);

impl Decoder {
    fn new(line: u8, mode: u8) -> Result<Decoder, Fault> {
        let mut decoder = Decoder(Handle { at: ptr::null_mut() });
        // SAFETY: the handle is empty.
        match unsafe { modem_decoder_new(&mut decoder.0, line, mode) } {
            DONE => Ok(decoder),
            code => Err(Fault::Code(code)),
        }
    }

    /// Puts the bits that these samples decide behind the others.
    fn push(&mut self, mut parts: &[i16], bits: &mut Vec<u8>) -> Result<(), Fault> {
        let mut room = [0; 4096];
        let mut progress = Progress::default();
        loop {
            // SAFETY: the handle is what the calls left in it, and both lengths are those of the slices.
            let code = unsafe { modem_decoder_push(&mut self.0, parts.as_ptr(), parts.len(), room.as_mut_ptr(), room.len(), &mut progress) };
            bits.extend_from_slice(&room[..progress.written]);
            parts = &parts[2 * progress.read..];
            match code {
                DONE => return Ok(()),
                FULL => {}
                LOST => return Err(Fault::Lost(progress.lost)),
                code => return Err(Fault::Code(code)),
            }
        }
    }

    /// Puts the bits that still waited behind the others.
    fn finish(mut self, bits: &mut Vec<u8>) -> Result<(), Fault> {
        let mut room = [0; LAST_BITS];
        let mut progress = Progress::default();
        // SAFETY: as above.
        match unsafe { modem_decoder_finish(&mut self.0, room.as_mut_ptr(), room.len(), &mut progress) } {
            DONE => bits.extend_from_slice(&room[..progress.written]),
            code => return Err(Fault::Code(code)),
        }
        Ok(())
    }
}

impl Drop for Decoder {
    fn drop(&mut self) {
        // SAFETY: the handle is what the calls left in it.
        unsafe { modem_free(&mut self.0) }
    }
}

fn decode(recording: &[u8]) -> Result<Vec<u8>, Fault> {
    let parts: Vec<i16> = recording[8..].chunks_exact(2).map(|pair| i16::from_le_bytes([pair[0], pair[1]])).collect();
    let line = recording[4] & 2;
    let mut decoder = Decoder::new(line, recording[4] & 1)?;
    let mut bits = Vec::new();
    for some in parts.chunks(2 * 240) {
        decoder.push(some, &mut bits)?;
    }
    decoder.finish(&mut bits)?;
    Ok(bits.chunks_exact(8).map(|octet| octet.iter().rev().fold(0, |value, bit| 2 * value + bit)).collect())
}

fn main() -> Result<ExitCode, Box<dyn error::Error>> {
    let words: Vec<String> = env::args().collect();
    let [_, recording, file] = &words[..] else {
        eprintln!("usage: decode REC FILE");
        return Ok(ExitCode::from(2));
    };
    let recording = fs::read(recording)?;
    if recording.len() < 8 || !recording.starts_with(b"V32R") {
        eprintln!("decode: no recording");
        return Ok(ExitCode::from(3));
    }
    match decode(&recording) {
        Ok(octets) => fs::write(file, octets)?,
        Err(fault) => {
            eprintln!("decode: {fault:?}");
            return Ok(ExitCode::FAILURE);
        }
    }
    Ok(ExitCode::SUCCESS)
}

//! The static library over the decoder, called as C calls it.

use std::fmt;

unsafe extern "C" {
    /// Decodes frames one after another, from the state before any frame up to the first fault, and answers how many bytes its
    /// answers have, or 0 for want of memory. They are written where they fit. Frame k has the next `lengths[k]` bytes.
    fn sal_decode_frames(
        bytes: *const u8,
        bytes_len: usize,
        lengths: *const u32,
        lengths_len: usize,
        out: *mut u8,
        out_len: usize,
    ) -> usize;
}

/// What decoding a frame answered; a picture's samples are Y, U and V, without gaps.
pub enum Answer<'a> {
    Frame {
        shown: bool,
        width: usize,
        height: usize,
        digest: &'a [u8],
        samples: &'a [u8],
    },
    Fault(Fault),
}

/// Why a frame can't be decoded, under the names of the format's description.
#[derive(Clone, Copy, PartialEq, Eq, Debug)]
pub enum Fault {
    Short,
    BadVersion(u32),
    BadStart,
    ZeroSize,
    TooLarge(u32, u32),
    NoReference,
    FirstPart(u32, u32),
    Partition(u32),
}

impl fmt::Display for Fault {
    fn fmt(&self, f: &mut fmt::Formatter) -> fmt::Result {
        write!(f, "{self:?}")
    }
}

/// The samples of a picture.
pub fn sample_count(width: usize, height: usize) -> usize {
    width * height + 2 * width.div_ceil(2) * height.div_ceil(2)
}

/// A buffer for answers.
pub struct Buffer(Vec<u8>);

impl Buffer {
    pub fn new() -> Buffer {
        Buffer(Vec::new())
    }

    /// Decodes these frames; the bytes of all answers.
    pub fn decode(&mut self, frames: &[Vec<u8>]) -> Result<&[u8], String> {
        let bytes = frames.concat();
        let lengths: Vec<u32> = frames.iter().map(|frame| frame.len() as u32).collect();
        let room = room(frames);
        if self.0.len() < room {
            self.0.resize(room, 0);
        }
        let out = &mut self.0;
        // The slices are whole and apart; the library reads the first two and writes the third alone.
        let length = unsafe {
            sal_decode_frames(
                bytes.as_ptr(),
                bytes.len(),
                lengths.as_ptr(),
                lengths.len(),
                out.as_mut_ptr(),
                out.len(),
            )
        };
        match length {
            0 if !frames.is_empty() => Err("no memory".into()),
            _ => self.0.get(..length).ok_or(format!(
                "the answers have {length} bytes, more than the {room} that frames can need"
            )),
        }
    }
}

/// How many bytes the answers of frames have at most: each picture has the sides that the last key frame before it says.
fn room(frames: &[Vec<u8>]) -> usize {
    let (mut all, mut picture) = (0, 0);
    for frame in frames {
        if frame.len() >= 10 && frame[0] & 1 == 0 {
            let side =
                |at: usize| usize::from(u16::from_le_bytes([frame[at], frame[at + 1]]) & 0x3fff);
            let (width, height) = (side(6), side(8));
            // Greater ones are refused.
            picture = if width <= 1280 && height <= 720 {
                sample_count(width, height)
            } else {
                0
            };
        }
        all += 38 + picture;
    }
    all
}

/// The answers in these bytes, in the order of the frames.
pub fn answers(mut bytes: &[u8]) -> Result<Vec<Answer<'_>>, String> {
    let mut answers = Vec::new();
    while !bytes.is_empty() {
        let code = take(&mut bytes, 1)?[0];
        if code == 0 {
            let shown = take(&mut bytes, 1)?[0] != 0;
            let width = number(&mut bytes, 2)? as usize;
            let height = number(&mut bytes, 2)? as usize;
            let digest = take(&mut bytes, 32)?;
            let samples = take(&mut bytes, sample_count(width, height))?;
            answers.push(Answer::Frame {
                shown,
                width,
                height,
                digest,
                samples,
            });
        } else {
            let (first, second) = (number(&mut bytes, 4)?, number(&mut bytes, 4)?);
            answers.push(Answer::Fault(fault(code, first, second)?));
        }
    }
    Ok(answers)
}

fn fault(code: u8, first: u32, second: u32) -> Result<Fault, String> {
    Ok(match code {
        1 => Fault::Short,
        2 => Fault::BadVersion(first),
        3 => Fault::BadStart,
        4 => Fault::ZeroSize,
        5 => Fault::TooLarge(first, second),
        6 => Fault::NoReference,
        7 => Fault::FirstPart(first, second),
        8 => Fault::Partition(first),
        other => return Err(format!("the library answered code {other}")),
    })
}

fn take<'a>(bytes: &mut &'a [u8], count: usize) -> Result<&'a [u8], String> {
    if bytes.len() < count {
        return Err("the library's answers end early".into());
    }
    let (front, rest) = bytes.split_at(count);
    *bytes = rest;
    Ok(front)
}

/// A number of some bytes, the highest first.
fn number(bytes: &mut &[u8], count: usize) -> Result<u32, String> {
    Ok(take(bytes, count)?
        .iter()
        .fold(0, |number, &byte| number << 8 | u32::from(byte)))
}

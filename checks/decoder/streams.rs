//! Streams in IVF, pictures in YUV4MPEG2 or bare, and where two pictures differ.

use crate::library::sample_count;

/// The frames of an IVF file.
pub fn read_ivf(bytes: &[u8]) -> Result<Vec<Vec<u8>>, String> {
    if bytes.len() < 32 || &bytes[..4] != b"DKIF" {
        return Err("no IVF file".into());
    }
    let mut rest = &bytes[usize::from(u16::from_le_bytes([bytes[6], bytes[7]]))..];
    let mut frames = Vec::new();
    while rest.len() >= 12 {
        let size = u32::from_le_bytes([rest[0], rest[1], rest[2], rest[3]]) as usize;
        let end = rest.len().min(12 + size);
        frames.push(rest[12..end].to_vec());
        rest = &rest[end..];
    }
    Ok(frames)
}

/// An IVF file of these frames; the sides in its header serve nobody here.
pub fn write_ivf(frames: &[Vec<u8>]) -> Vec<u8> {
    let mut out = b"DKIF\0\0\x20\0VP80\x10\0\x10\0\x1e\0\0\0\x01\0\0\0".to_vec();
    out.extend((frames.len() as u32).to_le_bytes());
    out.extend([0; 4]);
    for (time, frame) in frames.iter().enumerate() {
        out.extend((frame.len() as u32).to_le_bytes());
        out.extend((time as u64).to_le_bytes());
        out.extend(frame);
    }
    out
}

/// What is left of the pictures of a file.
pub struct Pictures<'a> {
    rest: &'a [u8],
    lines: bool,
}

impl<'a> Pictures<'a> {
    /// Of a YUV4MPEG2 file, or of one that has samples alone.
    pub fn new(bytes: &'a [u8]) -> Result<Pictures<'a>, String> {
        if !bytes.starts_with(b"YUV4MPEG2") {
            return Ok(Pictures {
                rest: bytes,
                lines: false,
            });
        }
        let end = bytes
            .iter()
            .position(|&b| b == b'\n')
            .ok_or("a header without its end")?;
        Ok(Pictures {
            rest: &bytes[end + 1..],
            lines: true,
        })
    }

    /// The next picture, which has these sides.
    pub fn next(&mut self, width: usize, height: usize) -> Result<&'a [u8], String> {
        if self.lines && !self.rest.is_empty() {
            let end = self
                .rest
                .iter()
                .position(|&b| b == b'\n')
                .ok_or("a line without its end")?;
            self.rest = &self.rest[end + 1..];
        }
        let count = sample_count(width, height);
        if self.rest.len() < count {
            return Err(format!(
                "{} samples are left in place of {count}",
                self.rest.len()
            ));
        }
        let (picture, rest) = self.rest.split_at(count);
        self.rest = rest;
        Ok(picture)
    }

    pub fn is_empty(&self) -> bool {
        self.rest.is_empty()
    }
}

/// The first place where two pictures of these sides differ, in words: the plane, its macroblock, and the sample.
pub fn difference(ours: &[u8], theirs: &[u8], width: usize, height: usize) -> Option<String> {
    let at = (0..ours.len()).find(|&i| ours[i] != theirs[i])?;
    let (chroma_width, chroma_height) = (width.div_ceil(2), height.div_ceil(2));
    let (luma, chroma) = (width * height, chroma_width * chroma_height);
    let (plane, start, side, block) = match at {
        _ if at < luma => ("Y", 0, width, 16),
        _ if at < luma + chroma => ("U", luma, chroma_width, 8),
        _ => ("V", luma + chroma, chroma_width, 8),
    };
    let (row, column) = ((at - start) / side, (at - start) % side);
    let different = (0..ours.len()).filter(|&i| ours[i] != theirs[i]).count();
    Some(format!(
        "plane {plane}, macroblock at row {} and column {}, sample at row {row} and column {column}: ours {}, theirs {} ({different} of {} samples differ)",
        row / block,
        column / block,
        ours[at],
        theirs[at],
        ours.len()
    ))
}

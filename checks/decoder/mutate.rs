//! Streams with flipped bits, cut frames, frames of random bits and frames that are lost or come twice: an answer each time, equal to
//! another program's.

use std::collections::BTreeMap;
use std::path::{Path, PathBuf};
use std::process::{Command, Stdio};
use std::sync::atomic::{AtomicUsize, Ordering};
use std::sync::Mutex;

use crate::compare;
use crate::library::Buffer;
use crate::streams::{read_ivf, write_ivf};

/// SplitMix64: numbers that a seed determines.
struct Draws(u64);

impl Draws {
    fn next(&mut self) -> u64 {
        self.0 = self.0.wrapping_add(0x9e37_79b9_7f4a_7c15);
        let mut z = self.0;
        z = (z ^ z >> 30).wrapping_mul(0xbf58_476d_1ce4_e5b9);
        z = (z ^ z >> 27).wrapping_mul(0x94d0_49bb_1331_11eb);
        z ^ z >> 31
    }

    /// A number below n, which is at least 1.
    fn below(&mut self, n: usize) -> usize {
        (self.next() % n as u64) as usize
    }
}

/// Flips a few bits, all of them near the start, in the first partition or anywhere.
fn flip(draws: &mut Draws, frame: &mut [u8]) -> String {
    if frame.is_empty() {
        return "an empty frame".into();
    }
    let reach = match draws.below(4) {
        0 => frame.len().min(12),
        1 => frame.len().min(60),
        _ => frame.len(),
    };
    let most = if draws.below(4) == 0 { 16 } else { 2 };
    let count = 1 + draws.below(most);
    let mut places = Vec::new();
    for _ in 0..count {
        let (at, bit) = (draws.below(reach), draws.below(8));
        frame[at] ^= 1 << bit;
        places.push(format!("{at}.{bit}"));
    }
    format!("bits {} flipped", places.join(" "))
}

/// Fills a run of bytes with zeros, ones or draws.
fn fill(draws: &mut Draws, frame: &mut [u8]) -> String {
    if frame.is_empty() {
        return "an empty frame".into();
    }
    let from = draws.below(frame.len());
    let to = (from + 1 + draws.below(40)).min(frame.len());
    let kind = draws.below(3);
    for byte in &mut frame[from..to] {
        *byte = [0, 255, draws.next() as u8][kind];
    }
    format!(
        "bytes {from} to {to} filled with {}",
        ["zeros", "ones", "draws"][kind]
    )
}

/// Puts a frame of the same kind and size in its place whose partitions are draws, so that it has any header, modes and levels.
fn noise(draws: &mut Draws, frame: &mut Vec<u8>) -> String {
    let key = frame.len() >= 10 && frame[0] & 1 == 0;
    let (first, rest) = (10 + draws.below(200), 32 + draws.below(400));
    let shown = usize::from(draws.below(8) != 0);
    let tag = usize::from(!key) | shown << 4 | first << 5;
    let mut new = vec![tag as u8, (tag >> 8) as u8, (tag >> 16) as u8];
    if key {
        new.extend(&frame[3..10]);
    }
    new.extend((0..first).map(|_| draws.next() as u8));
    // Seven sizes that fit, where the header names as many partitions; else they are levels too.
    for _ in 0..7 {
        new.extend([draws.below(rest / 8) as u8, 0, 0]);
    }
    new.extend((0..rest).map(|_| draws.next() as u8));
    *frame = new;
    format!("drawn anew with {first} bytes and {rest}")
}

/// Changes a stream once or twice, and says how.
fn mutate(draws: &mut Draws, frames: &mut Vec<Vec<u8>>) -> String {
    let mut words = Vec::new();
    for _ in 0..1 + usize::from(draws.below(6) == 0) {
        let index = draws.below(frames.len());
        let done = match draws.below(20) {
            0..=8 => flip(draws, &mut frames[index]),
            9..=11 => noise(draws, &mut frames[index]),
            12..=15 => {
                let length = draws.below(frames[index].len() + 1);
                frames[index].truncate(length);
                format!("cut to {length} bytes")
            }
            16..=17 => fill(draws, &mut frames[index]),
            18 if frames.len() > 1 => {
                frames.remove(index);
                "lost".into()
            }
            _ => {
                let again = frames[index].clone();
                let to = draws.below(frames.len() + 1);
                frames.insert(to, again);
                format!("again as frame {to}")
            }
        };
        words.push(format!("frame {index} {done}"));
    }
    words.join(", ")
}

/// What the other program says of a stream: the pictures that are shown, and the digests of the states.
fn theirs(
    peer: &[String],
    folder: &Path,
    name: &Path,
    out: &Path,
) -> Result<(Vec<u8>, String, Option<String>), String> {
    let run = |command: &str, words: &[&Path]| {
        let output = Command::new(&peer[0])
            .args(&peer[1..])
            .arg(command)
            .args(words)
            .current_dir(folder)
            .stdin(Stdio::null())
            .output();
        let output = output.map_err(|fault| format!("the other program: {fault}"))?;
        let text = String::from_utf8_lossy(&output.stdout).into_owned();
        match output.status.code() {
            Some(0 | 3) => Ok(text),
            _ => Err(format!(
                "the other program ended with {}: {text}",
                output.status
            )),
        }
    };
    let said = run("decode-ivf", &[name, out])?;
    let mut digests = run("digest", &[name])?;
    let pictures = std::fs::read(out).map_err(|fault| fault.to_string())?;
    // The last line of both is the fault, where there is one.
    let refused = said
        .lines()
        .last()
        .filter(|line| line.starts_with("frame "))
        .map(String::from);
    if let Some(fault) = &refused {
        match digests.strip_suffix(&format!("{fault}\n")) {
            Some(front) => digests = front.to_string(),
            None => {
                return Err(format!(
                    "the other program says {fault}, and then of the states {digests}"
                ))
            }
        }
    }
    Ok((pictures, digests, refused))
}

struct Work<'a> {
    folder: &'a Path,
    seed: u64,
    peer: &'a [String],
    streams: Vec<(String, Vec<Vec<u8>>)>,
}

impl Work<'_> {
    /// Tries mutation `number`, and gives the fault that both answered; an error has a name, and the stream is kept.
    fn one(
        &self,
        number: usize,
        job: usize,
        buffer: &mut Buffer,
    ) -> Result<Option<String>, String> {
        let mut draws = Draws(self.seed << 32 ^ number as u64);
        draws.next();
        let (name, frames) = &self.streams[draws.below(self.streams.len())];
        let mut frames = frames.clone();
        let how = mutate(&mut draws, &mut frames);
        let (ivf, out) = (
            self.folder.join(format!("mutated-{job}.ivf")),
            self.folder.join(format!("mutated-{job}.y4m")),
        );
        std::fs::write(&ivf, write_ivf(&frames)).map_err(|fault| fault.to_string())?;
        let compared = (|| {
            let (pictures, digests, their_fault) = theirs(self.peer, self.folder, &ivf, &out)?;
            let (_, our_fault) = compare(buffer.decode(&frames)?, &pictures, Some(&digests))?;
            if our_fault != their_fault {
                let word = |fault: Option<String>| fault.unwrap_or("no fault".into());
                return Err(format!(
                    "ours says {}, theirs {}",
                    word(our_fault),
                    word(their_fault)
                ));
            }
            Ok(our_fault)
        })();
        compared.map_err(|why: String| {
            let kept = self.folder.join(format!("difference-{number}.ivf"));
            let _ = std::fs::copy(&ivf, &kept);
            format!(
                "mutation {number} of {name} ({how}): {why}; kept as {}",
                kept.display()
            )
        })
    }
}

/// Words: FOLDER SEED FROM COUNT JOBS PEER.. -- STREAM.ivf ..
pub fn command(words: &[&str]) -> Result<String, String> {
    let [folder, seed, from, count, jobs, rest @ ..] = words else {
        return Err("mutate FOLDER SEED FROM COUNT JOBS PEER.. -- STREAM.ivf ..".into());
    };
    let number = |word: &str| {
        word.parse::<usize>()
            .map_err(|_| format!("{word} is no number"))
    };
    let (from, count, jobs) = (number(from)?, number(count)?, number(jobs)?);
    let split = rest
        .iter()
        .position(|&word| word == "--")
        .ok_or("-- stands between the other program and the streams")?;
    let peer: Vec<String> = rest[..split].iter().map(|word| word.to_string()).collect();
    let mut streams = Vec::new();
    for &name in &rest[split + 1..] {
        let frames = read_ivf(&std::fs::read(name).map_err(|fault| format!("{name}: {fault}"))?)?;
        let short = PathBuf::from(name)
            .file_stem()
            .map_or(name.to_string(), |stem| stem.to_string_lossy().into_owned());
        streams.push((short, frames));
    }
    let work = Work {
        folder: Path::new(folder),
        seed: number(seed)? as u64,
        peer: &peer,
        streams,
    };
    let next = AtomicUsize::new(from);
    let faults = Mutex::new(BTreeMap::<String, usize>::new());
    let errors = Mutex::new(Vec::new());
    std::thread::scope(|scope| {
        for job in 0..jobs {
            let (work, next, faults, errors) = (&work, &next, &faults, &errors);
            scope.spawn(move || {
                let mut buffer = Buffer::new();
                loop {
                    let number = next.fetch_add(1, Ordering::SeqCst);
                    if number >= from + count || errors.lock().unwrap().len() >= 10 {
                        break;
                    }
                    match work.one(number, job, &mut buffer) {
                        Ok(fault) => {
                            let kind = fault.map_or("decoded".to_string(), |text| {
                                text.split(": ")
                                    .nth(1)
                                    .unwrap_or("")
                                    .split('(')
                                    .next()
                                    .unwrap_or("")
                                    .to_string()
                            });
                            *faults.lock().unwrap().entry(kind).or_default() += 1;
                        }
                        Err(text) => errors.lock().unwrap().push(text),
                    }
                }
            });
        }
    });
    let errors = errors.into_inner().unwrap();
    if !errors.is_empty() {
        return Err(errors.join("\n"));
    }
    let faults: Vec<String> = faults
        .into_inner()
        .unwrap()
        .iter()
        .map(|(kind, count)| format!("{count} {kind}"))
        .collect();
    Ok(faults.join(", "))
}

//! Runs the static library over streams and compares what it answers with what other decoders gave.
//!
//!     harness check STREAM.ivf PICTURES [DIGESTS]      pictures that are shown, and digests of states, one a line
//!     harness mutate FOLDER SEED FROM COUNT JOBS PEER.. -- STREAM.ivf ..
//!                                                      changed streams beside another program, which decodes each one
//!     harness run STREAM.ivf FRAMES TIMES              decodes the first frames so many times and prints milliseconds
//!
//! A difference is named by its stream, frame, plane and macroblock, and the status is then 1.

mod library;
mod mutate;
mod streams;

use std::process::ExitCode;
use std::time::Instant;

use library::{answers, Answer, Buffer};
use streams::{difference, read_ivf, Pictures};

fn read(name: &str) -> Result<Vec<u8>, String> {
    std::fs::read(name).map_err(|fault| format!("{name}: {fault}"))
}

/// Lower-case hexadecimal digits.
fn hex(bytes: &[u8]) -> String {
    bytes.iter().map(|b| format!("{b:02x}")).collect()
}

/// Compares answers with the pictures that are shown and the digests of the states, as far as these are given. The last
/// fault is given back.
pub fn compare(
    bytes: &[u8],
    pictures: &[u8],
    digests: Option<&str>,
) -> Result<(usize, Option<String>), String> {
    let mut pictures = Pictures::new(pictures)?;
    let mut digests = digests.map(str::lines);
    let (mut decoded, mut refused) = (0, None);
    for (index, answer) in answers(bytes)?.into_iter().enumerate() {
        match answer {
            Answer::Frame {
                shown,
                width,
                height,
                digest,
                samples,
            } => {
                if shown {
                    let theirs = pictures
                        .next(width, height)
                        .map_err(|why| format!("frame {index}: {why}"))?;
                    if let Some(place) = difference(samples, theirs, width, height) {
                        return Err(format!("frame {index}, {width} by {height}: {place}"));
                    }
                }
                if let Some(lines) = &mut digests {
                    let theirs = lines.next().unwrap_or("none");
                    if theirs != hex(digest) {
                        return Err(format!(
                            "frame {index}: the state's digest is {}, and theirs {theirs}",
                            hex(digest)
                        ));
                    }
                }
                decoded += 1;
            }
            Answer::Fault(fault) => refused = Some(format!("frame {index}: {fault}")),
        }
    }
    if !pictures.is_empty() {
        return Err(format!(
            "theirs has more pictures than the {decoded} frames that were decoded"
        ));
    }
    if let Some(line) = digests.and_then(|mut lines| lines.next()) {
        return Err(format!(
            "theirs has another line after {decoded} states: {line}"
        ));
    }
    Ok((decoded, refused))
}

fn check(stream: &str, pictures: &str, digests: Option<&String>) -> Result<String, String> {
    let frames = read_ivf(&read(stream)?)?;
    let digests = digests
        .map(|name| std::fs::read_to_string(name).map_err(|fault| format!("{name}: {fault}")))
        .transpose()?;
    let mut buffer = Buffer::new();
    let (decoded, refused) = compare(
        buffer.decode(&frames)?,
        &read(pictures)?,
        digests.as_deref(),
    )?;
    match refused {
        Some(fault) => Err(fault),
        None => Ok(format!("{decoded} frames")),
    }
}

fn run(stream: &str, count: &str, times: &str) -> Result<String, String> {
    let number = |word: &str| {
        word.parse::<usize>()
            .map_err(|_| format!("{word} is no number"))
    };
    let mut frames = read_ivf(&read(stream)?)?;
    frames.truncate(number(count)?);
    let mut buffer = Buffer::new();
    let mut least = f64::INFINITY;
    for _ in 0..number(times)? {
        let began = Instant::now();
        buffer.decode(&frames)?;
        least = least.min(began.elapsed().as_secs_f64() * 1000.0);
    }
    Ok(format!("{least:.3}"))
}

fn command(words: &[String]) -> Result<String, String> {
    let texts: Vec<&str> = words.iter().map(String::as_str).collect();
    match texts.as_slice() {
        ["check", stream, pictures] => check(stream, pictures, None),
        ["check", stream, pictures, _] => check(stream, pictures, words.get(3)),
        ["mutate", rest @ ..] => mutate::command(rest),
        ["run", stream, frames, times] => run(stream, frames, times),
        _ => Err("check, mutate or run: see the head of main.rs".into()),
    }
}

fn main() -> ExitCode {
    let words: Vec<String> = std::env::args().skip(1).collect();
    match command(&words) {
        Ok(text) => {
            println!("{text}");
            ExitCode::SUCCESS
        }
        Err(text) => {
            println!("{text}");
            ExitCode::FAILURE
        }
    }
}

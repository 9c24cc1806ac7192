//! Damaged frame files: small valid ones with bytes or lines flipped, cut, doubled or moved.

use std::fs;
use std::io;
use std::path::Path;

use crate::random::{Calls, Rng};
use crate::replay::replay;

const LARGEST: usize = 4096;
const STRANGE: &[u8] = b"0123456789ABCDEFabcdefGg \r\n\n\t\0-x\xFF\x80";
const CODES: [&[u8]; 14] =
    [b"01", b"02", b"03", b"0300", b"0301", b"0302", b"0303", b"0304", b"10", b"11", b"20", b"FF", b"00", b"30"];

/// A few small calls.
fn valid(rng: &mut Rng) -> Vec<u8> {
    loop {
        let mut frames = Vec::new();
        let mut calls = Calls::new(rng.next(), true);
        for _ in 0..1 + rng.below(4) {
            calls.put_next(&mut frames);
        }
        if frames.len() <= LARGEST {
            return frames;
        }
    }
}

fn place(rng: &mut Rng, length: usize) -> usize {
    rng.below(length as u32 + 1) as usize
}

fn damage_bytes(rng: &mut Rng, frames: &mut Vec<u8>) {
    let at = place(rng, frames.len());
    let end = (at + 1 + rng.below(9) as usize).min(frames.len());
    match rng.below(7) {
        0 if at < frames.len() => frames[at] ^= 1 << rng.below(8),
        1 if at < frames.len() => frames[at] = rng.pick(STRANGE),
        2 => frames.insert(at, rng.pick(STRANGE)),
        3 if at < end => drop(frames.drain(at..end)),
        4 if at < end => drop(frames.splice(at..at, frames[at..end].to_vec())),
        5 => frames.truncate(at),
        _ if at < frames.len() => frames[at] = b"0123456789ABCDEF"[rng.below(16) as usize],
        _ => frames.push(rng.pick(STRANGE)),
    }
}

fn damage_lines(rng: &mut Rng, frames: &mut Vec<u8>) {
    let mut lines: Vec<Vec<u8>> = frames.split(|byte| *byte == b'\n').map(<[u8]>::to_vec).collect();
    let at = rng.below(lines.len() as u32) as usize;
    let other = rng.below(lines.len() as u32) as usize;
    match rng.below(6) {
        0 => drop(lines.remove(at)),
        1 => lines.insert(at, lines[other].clone()),
        2 => lines.swap(at, other),
        3 => {
            let code = rng.pick(&CODES);
            let cut = code.len().min(lines[at].len());
            lines[at].splice(..cut, code.iter().copied());
        }
        4 => lines.insert(at, rng.pick(&CODES).to_vec()),
        _ => {
            let two: Vec<u8> = [&lines[at][..], &lines[other][..]].concat();
            lines[at] = two;
        }
    }
    *frames = lines.join(&b'\n');
}

/// One damaged file; a few stay whole but for their last line end.
pub fn damaged(rng: &mut Rng) -> Vec<u8> {
    let mut frames = valid(rng);
    for _ in 0..rng.pick(&[0, 1, 1, 1, 1, 2, 3]) {
        if rng.chance(600) { damage_bytes(rng, &mut frames) } else { damage_lines(rng, &mut frames) }
    }
    if rng.chance(60) {
        frames.pop();
    }
    frames
}

/// Writes `count` damaged files and the answers to them into `folder`.
pub fn write(seed: u64, count: u64, folder: &Path) -> io::Result<()> {
    let mut rng = Rng::new(seed);
    fs::create_dir_all(folder)?;
    for number in 0..count {
        let frames = damaged(&mut rng);
        let mut answers = Vec::new();
        replay(&frames[..], &mut answers)?;
        fs::write(folder.join(format!("{number}.frames")), frames)?;
        fs::write(folder.join(format!("{number}.answers")), answers)?;
    }
    Ok(())
}

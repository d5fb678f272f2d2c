//! Reading a frame: a line of hexadecimal, to a kind and entries, or refusal 8 to 13.
use crate::frame::{entries_refusal, Branch, Frame};
use crate::Entry;

fn digit(b: u8) -> Option<u8> {
    match b {
        b'0'..=b'9' => Some(b - b'0'),
        b'a'..=b'f' => Some(b - b'a' + 10),
        _ => None,
    }
}

/// The bytes that a line spells; none where its length is odd or a byte is no digit.
pub fn unhex(line: &[u8]) -> Option<Vec<u8>> {
    if line.len() % 2 == 1 {
        return None;
    }
    line.chunks(2).map(|c| Some(digit(c[0])? * 16 + digit(c[1])?)).collect()
}

fn number(bytes: &[u8]) -> u64 {
    bytes.iter().fold(0, |n, &b| n * 256 + u64::from(b))
}

fn entry(b: &[u8]) -> Entry {
    Entry { key: number(&b[..8]), place: number(&b[8..16]), size: number(&b[16..20]) as u32 }
}

fn branch(b: &[u8]) -> Branch {
    Branch {
        key: number(&b[..8]),
        child: number(&b[8..12]) as u32,
        live: number(&b[12..16]) as u32,
        dead: number(&b[16..20]) as u32,
        size: number(&b[20..28]),
    }
}

pub fn read_line(line: &[u8]) -> Result<Frame, u32> {
    let bytes = unhex(line).ok_or(9u32)?;
    let (header, rest) = bytes.split_first().ok_or(8u32)?;
    let (width, frame) = match header {
        1 => (20, Frame::Leaf(rest.chunks_exact(20).map(entry).collect())),
        0 => (28, Frame::Interior(rest.chunks_exact(28).map(branch).collect())),
        _ => return Err(13),
    };
    if rest.len() % width != 0 {
        return Err(10);
    }
    match entries_refusal(&frame.keys()) {
        0 => Ok(frame),
        n => Err(n),
    }
}

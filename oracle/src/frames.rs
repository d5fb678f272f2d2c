//! Frames read and written by value: the library beside the plain model and the published reader and writer.
use crate::library::{Library, RawFrame};
use crate::random::Random;
use crate::session::Difference;
use crate::stand_in::raw_frame;
use crate::tally::Tally;
use nebari_v3::Tree;
use plain::frame::{hex, Branch, Frame};
use plain::read_frame::{read_line, unhex};
use plain::Entry;

fn untold() -> RawFrame {
    RawFrame { head: [71, 72], keys: [73; 32], wide: [74; 32], narrow: [75; 32], live: [76; 32], dead: [77; 32] }
}

fn text(line: &[u8]) -> String {
    String::from_utf8_lossy(line).into_owned()
}

pub fn read(lib: &dyn Library, line: &[u8], tally: &mut Tally) -> Result<(), Difference> {
    let before = line.to_vec();
    let mut got = untold();
    let number = lib.read_frame(line, &mut got);
    tally.answered("frame read", number);
    let (wanted, frame) = match read_line(line) {
        Err(n) => (n, untold()),
        Ok(f) => (0, raw_frame(&f)),
    };
    if number != wanted || got != frame || line != before {
        return Err(format!("frame read: {:?}\n  got {number}, {got:?}\n  wanted {wanted}, {frame:?}", text(line)));
    }
    published_reads(line, wanted)
}

/// The published reader gives the same frame; it refuses what is refused as 8, 10 and 13, and reads what is refused as 11 and 12.
fn published_reads(line: &[u8], wanted: u32) -> Result<(), Difference> {
    let Some(bytes) = unhex(line) else { return Ok(()) };
    let agrees = match (Tree::read(&bytes), wanted) {
        (Ok(f), 0) => Ok(f) == read_line(line),
        (Ok(_), 11 | 12) | (Err(_), 8 | 10 | 13) => true,
        _ => false,
    };
    if agrees {
        Ok(())
    } else {
        Err(format!("third variant, frame read: {:?}, {wanted} beside {:?}", text(line), Tree::read(&bytes)))
    }
}

/// A frame of `count` entries written from its entries, with so much room.
pub fn write(lib: &dyn Library, f: &Frame, count: u64, room: usize, tally: &mut Tally) -> Result<(), Difference> {
    let mut raw = untold();
    let shown = raw_frame(f);
    let n = f.keys().len();
    raw.keys[..n].copy_from_slice(&shown.keys[..n]);
    raw.wide[..n].copy_from_slice(&shown.wide[..n]);
    raw.narrow[..n].copy_from_slice(&shown.narrow[..n]);
    raw.live[..n].copy_from_slice(&shown.live[..n]);
    raw.dead[..n].copy_from_slice(&shown.dead[..n]);
    let (mut line, mut len) = (vec![b'~'; room], 99);
    let before = raw.clone();
    let number = match f {
        Frame::Leaf(_) => lib.write_leaf(count, &raw.keys, &raw.wide, &raw.narrow, &mut line, &mut len),
        Frame::Interior(_) => lib.write_interior(count, &raw, &mut line, &mut len),
    };
    tally.answered("frame written", number);
    let wanted = if count > 32 { Err(11) } else { plain::frame::write_frame(room, f) };
    let (mut wanted_line, mut wanted_len, mut wanted_number) = (vec![b'~'; room], 99, 0);
    match &wanted {
        Err(n) => wanted_number = *n,
        Ok(l) => {
            wanted_line[..l.len()].copy_from_slice(l);
            wanted_len = l.len() as u64;
        }
    }
    if (number, &line, len) != (wanted_number, &wanted_line, wanted_len) || raw != before {
        return Err(format!(
            "frame written: {f:?}, count {count}, room {room}\n  got {number}, {:?}, {len}\n  wanted {wanted_number}, {:?}, {wanted_len}",
            text(&line),
            text(&wanted_line)
        ));
    }
    if let Ok(l) = wanted {
        if hex(&Tree::write(f)) != l {
            return Err(format!("third variant, frame written: {f:?}"));
        }
        read(lib, &l, tally)?;
    }
    Ok(())
}

/// A frame of n entries; its keys ascend but, where `fault`, in one place.
pub fn random(r: &mut Random, n: usize, fault: bool) -> Frame {
    let mut keys: Vec<u64> = (0..n).map(|_| if r.one_in(2) { r.next() } else { r.below(200) as u64 }).collect();
    keys.sort_unstable();
    keys.dedup();
    while keys.len() < n {
        let next = keys.last().map_or(0, |k| k.wrapping_add(1));
        keys.push(next);
    }
    if fault && n > 1 {
        let i = r.between(1, n - 1);
        keys[i] = r.pick(&[keys[i - 1], keys[i - 1].wrapping_sub(1)]);
    }
    if r.one_in(2) {
        Frame::Leaf(keys.into_iter().map(|key| Entry { key, place: r.next() >> r.below(64), size: r.next() as u32 }).collect())
    } else {
        Frame::Interior(
            keys.into_iter()
                .map(|key| Branch { key, child: r.next() as u32, live: r.next() as u32, dead: r.below(9) as u32, size: r.next() })
                .collect(),
        )
    }
}

/// A valid line damaged in each place: other bytes, cut, and with more behind it.
pub fn damaged(lib: &dyn Library, line: &[u8], r: &mut Random, tally: &mut Tally) -> Result<(), Difference> {
    for at in 0..line.len() {
        for b in [b'0', b'1', b'2', b'9', b'a', b'f', b'g', b'A', b'F', b'/', b':', b'`', b' ', b'\n', 0, 255] {
            let mut l = line.to_vec();
            l[at] = b;
            read(lib, &l, tally)?;
        }
        read(lib, &line[..at], tally)?;
    }
    for n in 1..=60 {
        let l: Vec<u8> = line.iter().copied().chain((0..n).map(|_| r.pick(b"0123456789abcdef"))).collect();
        read(lib, &l, tally)?;
        let l: Vec<u8> = line.iter().copied().chain((0..n).map(|_| b'0')).collect();
        read(lib, &l, tally)?;
    }
    Ok(())
}

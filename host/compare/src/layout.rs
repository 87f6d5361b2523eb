//! Where the lists of an accepted entry stand, the bytes of each value, the stored rates, and the pairs of a scale: a reading of the bytes by
//! document 01's layout, beside the Rust, which keeps none of them.

fn word16(s: &[u8], p: usize) -> usize {
    u16::from_le_bytes([s[p], s[p + 1]]) as usize
}

fn word32(s: &[u8], p: usize) -> usize {
    u32::from_le_bytes([s[p], s[p + 1], s[p + 2], s[p + 3]]) as usize
}

fn bits(x: usize, from: usize, to: usize) -> usize {
    x >> from & ((1 << (to - from + 1)) - 1)
}

/// A datum of the info block at `p`: the zero byte, the count, three u16 and a u32, a u32 for each, the datums' size and a u16 come first.
fn datum(s: &[u8], p: usize, size: usize, i: usize) -> usize {
    p + 12 + 4 * s[p + 1] as usize + 4 + size * i
}

/// An entry's own place: its offset is a datum of the section's info block.
pub fn entry(s: &[u8], i: usize) -> usize {
    word32(s, datum(s, 8, 4, i))
}

/// Where the names of the section's entries stand: behind the last datum.
pub fn names(s: &[u8]) -> usize {
    datum(s, 8, 4, s[9] as usize)
}

/// Where they end, and with them the section's info block.
pub fn names_end(s: &[u8]) -> usize {
    names(s) + 16 * s[9] as usize
}

/// A name up to its first zero byte, or all of it: what finding compares names by. The Rust compares all sixteen bytes.
pub fn front(name: &[u8; 16]) -> &[u8] {
    name.split(|&b| b == 0).next().unwrap()
}

/// Where a list stands in the section, the bytes of each value, and the stored rate.
#[derive(Clone, Copy)]
pub struct List {
    place: usize,
    size: usize,
    rate: usize,
}

impl List {
    /// The record of a list that has so many values from a start to an end: what its values leave over of its frames is the rest.
    pub fn record(self, start: u16, end: u16, length: usize) -> motion::List {
        let List { place, size, rate } = self;
        let rest = end as usize - start as usize - length * [1, 2, 4, 8][rate];
        motion::List { start, end, place, length, size, rate: rate as u16, rest: rest as u16 }
    }
}

/// A list's record as the calls for C write it.
pub fn words(l: motion::List) -> [u64; 8] {
    let motion::List { start, end, place, length, size, rate, rest } = l;
    [2, start as u64, end as u64, place as u64, length as u64, size as u64, rate as u64, rest as u64]
}

/// Where the values of a curve stand in the section; of a list also how many there are.
#[derive(Clone, Copy)]
enum Values {
    None,
    Constant(usize),
    List(List, usize),
}

/// The lists of a JNT0 object: three of its translation, the rotation, three of its scale; none for a constant or no curve.
pub fn object(s: &[u8], i: usize, o: usize) -> [Option<List>; 7] {
    values(s, i, o).map(|v| match v {
        Values::List(list, _) => Some(list),
        _ => None,
    })
}

/// The values of the same seven curves.
fn values(s: &[u8], i: usize, o: usize) -> [Values; 7] {
    let e = entry(s, i);
    let p = e + word16(s, e + 20 + 2 * o);
    let flags = word16(s, p);
    let mut at = p + 4;
    let mut curves = [Values::None; 7];
    for (k, curve) in curves.iter_mut().enumerate() {
        let (left_out, constant, numbers) = match k {
            0..=2 => (bits(flags, 1, 2), 3 + k, 1),
            3 => (bits(flags, 6, 7), 8, 1),
            _ => (bits(flags, 9, 10), 11 + k - 4, 2),
        };
        if bits(flags, 0, 0) == 1 || left_out != 0 {
            continue;
        }
        if bits(flags, constant, constant) == 1 {
            *curve = Values::Constant(at);
            at += 4 * numbers;
            continue;
        }
        let word = word32(s, at);
        let size = if k == 3 || bits(word, 28, 29) != 0 { 2 } else { 4 };
        let rate = bits(word, 30, 31);
        let count = (bits(word, 16, 27) - bits(word, 0, 15)) >> rate;
        *curve = Values::List(List { place: e + word32(s, at + 4), size: numbers * size, rate }, count);
        at += 8;
    }
    curves
}

/// The pairs that each axis of an object's scale stores: signed numbers of 32 or 16 bits, over 4096. The Rust drops the second of each.
pub fn scale(s: &[u8], i: usize, o: usize) -> [Vec<motion::Pair>; 3] {
    let long = |p: usize| word32(s, p) as i32 as f64 / 4096.0;
    let short = |p: usize| word16(s, p) as i16 as f64 / 4096.0;
    let pair = |p: usize, size: usize| match size {
        8 => motion::Pair { first: long(p), second: long(p + 4) },
        _ => motion::Pair { first: short(p), second: short(p + 2) },
    };
    let curves = values(s, i, o);
    [4, 5, 6].map(|k| match curves[k] {
        Values::None => vec![],
        Values::Constant(place) => vec![pair(place, 8)],
        Values::List(List { place, size, .. }, count) => (0..count).map(|n| pair(place + size * n, size)).collect(),
    })
}

/// A channel of an SRT0 track that carries a list: a value for each frame.
pub fn channel(s: &[u8], i: usize, track: usize, channel: usize) -> List {
    let e = entry(s, i);
    List { place: e + word32(s, datum(s, e + 8, 40, track) + 8 * channel + 4), size: 2, rate: 0 }
}

/// The texture names of a PAT0 entry.
pub fn textures(s: &[u8], i: usize) -> usize {
    let e = entry(s, i);
    e + word16(s, e + 8)
}

pub fn palettes(s: &[u8], i: usize) -> usize {
    let e = entry(s, i);
    e + word16(s, e + 10)
}

/// The keys of a PAT0 track.
pub fn keys(s: &[u8], i: usize, track: usize) -> usize {
    let e = entry(s, i);
    e + word16(s, datum(s, e + 12, 8, track) + 6)
}

//! Sections to compare on: laid out from their parts, then damaged.
use crate::layout;
use crate::oracle;
use crate::rng::Rng;

fn put16(out: &mut Vec<u8>, x: usize) {
    out.extend((x as u16).to_le_bytes());
}

fn put32(out: &mut Vec<u8>, x: usize) {
    out.extend((x as u32).to_le_bytes());
}

/// An info block: its data, and as many names.
fn info_block(out: &mut Vec<u8>, size: usize, data: &[Vec<u8>], names: &[[u8; 16]]) {
    out.extend([0, data.len() as u8]);
    out.extend([0; 10]);
    out.extend(vec![0xee; 4 * data.len()]);
    put16(out, size);
    put16(out, 0);
    data.iter().for_each(|d| out.extend(d));
    names.iter().for_each(|n| out.extend(n));
}

fn name(rng: &mut Rng) -> [u8; 16] {
    let mut name = [0; 16];
    name[0] = b'a' + rng.below(4) as u8;
    if rng.once_in(4) {
        name[15] = rng.next() as u8;
    }
    name
}

/// A section of a stamp, with its entries one after the other, or some of them at one place.
#[allow(clippy::needless_range_loop)]
pub fn section(stamp: &[u8; 4], entries: &[Vec<u8>], rng: &mut Rng) -> Vec<u8> {
    let head = 8 + 12 + 4 + 24 * entries.len();
    let mut at = head;
    let mut offsets = Vec::new();
    for entry in entries {
        offsets.push(at);
        at += entry.len();
    }
    for i in 0..offsets.len() {
        if rng.once_in(10) {
            offsets[i] = rng.pick(&offsets.clone());
        }
        if rng.once_in(40) {
            offsets[i] = rng.pick(&[0, 8, 4, head - 16, at, at + 1, 0xffff_ffff, 0xffff_fffc]);
        }
    }
    let mut s = stamp.to_vec();
    put32(&mut s, at);
    let data: Vec<_> = offsets.iter().map(|&o| (o as u32).to_le_bytes().to_vec()).collect();
    let names: Vec<_> = entries.iter().map(|_| name(rng)).collect();
    info_block(&mut s, 4, &data, &names);
    entries.iter().for_each(|e| s.extend(e));
    s
}

// ---- JNT0

/// The lists of an entry: each is put behind the last, or over one that is already there.
struct Pool {
    base: usize,
    bytes: Vec<u8>,
}

impl Pool {
    /// The offset of some bytes.
    fn put(&mut self, bytes: &[u8], rng: &mut Rng) -> usize {
        if rng.once_in(5) && self.bytes.len() >= bytes.len() {
            return self.base + rng.below(self.bytes.len() - bytes.len() + 1);
        }
        let at = self.base + self.bytes.len();
        self.bytes.extend(bytes);
        at
    }
}

fn curve_word(rng: &mut Rng, longest: usize) -> (usize, usize) {
    let start = rng.below(6);
    let end = if rng.once_in(60) { start } else { start + 1 + rng.below(longest) };
    let (width, rate) = (rng.below(4), if rng.once_in(2) { 0 } else { rng.below(4) });
    let count = (end.saturating_sub(start)) >> rate;
    (start | end << 16 | width << 28 | rate << 30, count)
}

/// Bytes of numbers, with the extremes among them.
fn numbers(rng: &mut Rng, n: usize) -> Vec<u8> {
    match rng.below(4) {
        0 => vec![rng.pick(&[0, 0x80, 0xff, 0x7f]); n],
        _ => rng.bytes(n),
    }
}

/// A JNT0 entry of so many objects: those with these flags serve in turn.
fn animation(flags: &[u16], objects: usize, rng: &mut Rng) -> Vec<u8> {
    let longest = if rng.once_in(30) { 300 } else { 12 };
    let (pivots, bases) = (1 + rng.below(3), 1 + rng.below(3));
    let first = 20 + 2 * objects;
    let fields = first + flags.len() * 72;
    let mut pool = Pool { base: fields, bytes: Vec::new() };
    let mut pivot = Vec::new();
    for _ in 0..pivots {
        put16(&mut pivot, rng.below(256));
        pivot.extend(numbers(rng, 4));
    }
    let basis: Vec<u8> = (0..bases).flat_map(|_| numbers(rng, 10)).collect();
    let (pivot_off, basis_off) = (pool.put(&pivot, rng), pool.put(&basis, rng));
    let reference = |rng: &mut Rng| {
        if rng.once_in(2) {
            0x8000 | rng.below(pivots)
        } else {
            rng.below(bases)
        }
    };

    let mut bytes = Vec::new();
    let mut offsets = Vec::new();
    for &flag in flags {
        offsets.push(first + bytes.len());
        let mut o = Vec::new();
        put16(&mut o, flag as usize);
        o.extend([0, 0]);
        let axes = |o: &mut Vec<u8>, rng: &mut Rng, pool: &mut Pool, first: usize, numbers_each: usize| {
            for axis in 0..3 {
                if flag >> (first + axis) & 1 == 1 {
                    o.extend(numbers(rng, 4 * numbers_each));
                } else {
                    let (word, count) = curve_word(rng, longest);
                    let width = if word >> 28 & 3 == 0 { 4 } else { 2 };
                    put32(o, word);
                    let list = numbers(rng, count * width * numbers_each);
                    let off = pool.put(&list, rng);
                    put32(o, off);
                }
            }
        };
        if flag & 1 == 0 {
            if flag & 0b110 == 0 {
                axes(&mut o, rng, &mut pool, 3, 1);
            }
            if flag & 0b1100_0000 == 0 {
                if flag >> 8 & 1 == 1 {
                    put16(&mut o, reference(rng));
                    put16(&mut o, 0);
                } else {
                    let (word, count) = curve_word(rng, longest);
                    let mut list = Vec::new();
                    (0..count).for_each(|_| put16(&mut list, reference(rng)));
                    put32(&mut o, word);
                    // references stand alone: other bytes would lead far out
                    let off = pool.base + pool.bytes.len();
                    pool.bytes.extend(list);
                    put32(&mut o, off);
                }
            }
            if flag & 0b110_0000_0000 == 0 {
                axes(&mut o, rng, &mut pool, 11, 2);
            }
        }
        bytes.extend(o);
    }
    bytes.resize(flags.len() * 72, 0);

    let mut e = b"J\0AC".to_vec();
    put16(&mut e, if rng.once_in(50) { 0 } else { 1 + rng.below(60) });
    put16(&mut e, objects);
    put32(&mut e, 0);
    put32(&mut e, pivot_off);
    put32(&mut e, basis_off);
    offsets.iter().cycle().take(objects).for_each(|&o| put16(&mut e, o));
    e.extend(bytes);
    e.extend(pool.bytes);
    e
}

fn flags(rng: &mut Rng) -> u16 {
    let mut f = rng.next() as u16 & 0x3fff;
    // every pair leaves something out; most objects are animated
    if !rng.once_in(8) {
        f &= !1;
    }
    for pair in [0b110, 0b1100_0000, 0b110_0000_0000] {
        if !rng.once_in(4) {
            f &= !pair;
        }
    }
    f
}

fn random_animation(rng: &mut Rng) -> Vec<u8> {
    let n = match rng.below(200) {
        0 if rng.once_in(20) => rng.pick(&[240, 998, 999]),
        0 => rng.pick(&[99, 100, 1000, 1001]),
        k => k % 4,
    };
    // a crowd stands still
    let f: Vec<_> = if n > 50 { vec![1] } else { (0..n).map(|_| flags(rng)).collect() };
    animation(&f, n, rng)
}

/// How many objects the crowd scenes have: the limit that once was, one more, a crowd, the limit, and one more.
pub const CROWDS: [usize; 5] = [99, 100, 240, 999, 1000];

/// A crowd scene: a JNT0 section with one entry of so many objects, and some bytes behind its reach. Seven serve in turn: with lists alone, with
/// constants alone, without a translation, without a rotation, without a scale, with lists and constants, and a still one. So no object is the
/// one 256 further on.
pub fn crowd(objects: usize) -> Vec<u8> {
    let flags = [0, 0x3938, 0x0002, 0x0040, 0x0200, 0x1110, 0x0001];
    let scene = |seed| {
        let entry = animation(&flags, objects, &mut Rng::new(seed));
        [section(b"JNT0", &[entry], &mut Rng::new(1)), vec![0xee; 5]].concat()
    };
    // the first that the Rust reads: there are frames, and every curve's start is below its end
    (0..).map(scene).find(|s| oracle::read(s).is_ok_and(|entries| entries[0].read)).unwrap()
}

/// A crowd scene as it is, without frames, and with another stamp.
pub fn damaged_crowd(objects: usize) -> [Vec<u8>; 3] {
    let whole = crowd(objects);
    let entry = layout::entry(&whole, 0);
    let with = |at: usize, bytes: [u8; 2]| {
        let mut s = whole.clone();
        s[entry + at..][..2].copy_from_slice(&bytes);
        s
    };
    [whole.clone(), with(4, [0, 0]), with(2, *b"AX")]
}

/// A JNT0 section whose entry has a hundred objects, and none of them stands there.
pub fn hundred() -> Vec<u8> {
    let mut e = b"J\0AC\x01\0\x64\0".to_vec();
    e.resize(20 + 2 * 100, 0);
    section(b"JNT0", &[e], &mut Rng::new(1))
}

/// Sections whose object has a scale alone: one axis is constant, one a list of some width, one a list without values. The numbers are the
/// extremes and those next to zero, and a pair's two are never equal.
pub fn scaled() -> Vec<Vec<u8>> {
    let numbers = [0, 1, 0xffff_ffff, 0x7fff_ffff, 0x8000_0000, 0x1000, 0xf000];
    let mut found = Vec::new();
    for width in 0..4 {
        for turn in 0..3 {
            // no translation and no rotation
            let mut object = Vec::new();
            put16(&mut object, 1 << 1 | 1 << 6 | 1 << (11 + turn));
            put16(&mut object, 0);
            for axis in 0..3 {
                match (axis + 3 - turn) % 3 {
                    0 => numbers[width..][..2].iter().for_each(|&x| put32(&mut object, x)),
                    // six values, or one frame at half the rate
                    role => {
                        put32(&mut object, if role == 1 { 6 << 16 | width << 28 } else { 1 << 16 | width << 28 | 1 << 30 });
                        put32(&mut object, 22 + 28);
                    }
                }
            }
            let mut e = b"J\0AC\x06\0\x01\0".to_vec();
            e.resize(20, 0);
            put16(&mut e, 22);
            e.extend(object);
            let put = if width == 0 { put32 } else { put16 };
            numbers.windows(2).flatten().for_each(|&x| put(&mut e, x));
            found.push(section(b"JNT0", &[e], &mut Rng::new(1)));
        }
    }
    found
}

/// Sections whose object has a list in its translation on x, in its rotation and in its scale on x, all of one rate and as many frames: each rate
/// with one to eleven frames, so that every rest is there. The widths are other numbers than the rate.
pub fn rated() -> Vec<Vec<u8>> {
    let mut found = Vec::new();
    for rate in 0..4 {
        for frames in 1..=11 {
            let start = frames % 3;
            let list = |e: &mut Vec<u8>, turn: usize, offset: usize| {
                put32(e, start | (start + frames) << 16 | ((rate + turn) % 4) << 28 | rate << 30);
                put32(e, offset);
            };
            let mut e = b"J\0AC\x0c\0\x01\0\0\0\0\0".to_vec();
            put32(&mut e, 184);
            put32(&mut e, 0);
            put16(&mut e, 22);
            // y and z are constant
            put16(&mut e, 0b11 << 4 | 0b11 << 12);
            put16(&mut e, 0);
            list(&mut e, 1 + frames % 3, 74);
            e.extend([0x10; 8]);
            list(&mut e, 3, 162);
            list(&mut e, 1 + (frames + 1) % 3, 74);
            e.extend([0x20; 16]);
            // the values of both lists of numbers, the references, and two pivot records
            e.extend((0..88).map(|k| (37 * k + 11 * frames + rate) as u8));
            (0..11).for_each(|k| put16(&mut e, 0x8000 | k % 2));
            e.extend((0..12).map(|k| k + rate as u8));
            found.push(section(b"JNT0", &[e], &mut Rng::new(1)));
        }
    }
    found
}

// ---- SRT0

fn material(rng: &mut Rng) -> Vec<u8> {
    let n = rng.below(4);
    let head = 8 + 12 + 4 + n * (4 + 40 + 16);
    let mut pool = Pool { base: head, bytes: rng.bytes(8) };
    let mut data = Vec::new();
    for _ in 0..n {
        let mut d = Vec::new();
        for _ in 0..5 {
            let frames = if rng.once_in(6) { 0 } else { 1 + rng.below(12) };
            let list = numbers(rng, 2 * frames);
            put16(&mut d, frames);
            d.push(0);
            d.push(if rng.once_in(4) { rng.next() as u8 } else { 16 });
            let off = pool.put(&list, rng);
            put32(&mut d, if rng.once_in(40) { rng.next() as usize } else { off });
        }
        data.push(d);
    }
    let names: Vec<_> = (0..n).map(|_| name(rng)).collect();
    let mut e = b"M\0AT".to_vec();
    put16(&mut e, rng.below(30));
    put16(&mut e, 0);
    info_block(&mut e, 40, &data, &names);
    e.extend(pool.bytes);
    e
}

// ---- PAT0

fn pattern(rng: &mut Rng) -> Vec<u8> {
    let n = rng.below(4);
    let (textures, palettes) = (rng.below(4), rng.below(4));
    let head = 12 + 12 + 4 + n * (4 + 8 + 16);
    let mut pool = Pool { base: head, bytes: Vec::new() };
    let (texture_bytes, palette_bytes) = (rng.bytes(16 * textures), rng.bytes(16 * palettes));
    let texture_off = pool.put(&texture_bytes, rng);
    let palette_off = pool.put(&palette_bytes, rng);
    let mut data = Vec::new();
    for _ in 0..n {
        let count = if rng.once_in(6) { 0 } else { 1 + rng.below(5) };
        let mut keys = Vec::new();
        for k in 0..count {
            // most keys are in order
            put16(&mut keys, if rng.once_in(4) { rng.below(20) } else { 4 * k });
            for names in [textures, palettes] {
                let beyond = rng.once_in(60) as usize;
                keys.push(rng.below(names.max(1) + beyond) as u8);
            }
        }
        // keys stand alone, so that their indexes are the ones meant
        let off = pool.base + pool.bytes.len();
        pool.bytes.extend(keys);
        let mut d = Vec::new();
        put32(&mut d, if rng.once_in(60) { rng.pick(&[0x4000_0001, 0xffff_ffff, count + 1]) } else { count });
        put16(&mut d, 0);
        put16(&mut d, if rng.once_in(60) { rng.next() as usize } else { off });
        data.push(d);
    }
    let names: Vec<_> = (0..n).map(|_| name(rng)).collect();
    let mut e = b"P\0AT".to_vec();
    put16(&mut e, rng.below(30));
    e.extend([textures as u8, palettes as u8]);
    put16(&mut e, texture_off);
    put16(&mut e, palette_off);
    info_block(&mut e, 8, &data, &names);
    e.extend(pool.bytes);
    e
}

// ---- SRT0 and PAT0 together

/// An SRT0 and a PAT0 section, each whole or damaged, and sometimes in the other's place.
pub fn pair(rng: &mut Rng) -> (Vec<u8>, Vec<u8>) {
    let mut side = |stamp: &[u8; 4], entry: fn(&mut Rng) -> Vec<u8>| {
        let n = 1 + rng.below(3);
        let entries: Vec<_> = (0..n).map(|_| entry(rng)).collect();
        let mut s = section(stamp, &entries, rng);
        if rng.once_in(3) {
            damage(&mut s, rng);
        }
        s
    };
    let (srt, pat) = (side(b"SRT0", material), side(b"PAT0", pattern));
    match rng.below(40) {
        0 => (pat, srt),
        1 => (any(rng), pat),
        2 => (srt, any(rng)),
        _ => (srt, pat),
    }
}

/// An SRT0 and a PAT0 section of one entry, with tracks of these names. Of four tracks the last carries no list, and of three the last has no
/// keys; each of the others has values of its own.
fn with_tracks(srt: &[[u8; 16]], pat: &[[u8; 16]]) -> (Vec<u8>, Vec<u8>) {
    let mut data = Vec::new();
    let head = 8 + 12 + 4 + srt.len() * (4 + 40 + 16);
    for t in 0..srt.len() {
        let mut d = vec![0; 24];
        for channel in 0..2 {
            put16(&mut d, 2);
            d.extend([0, if t % 4 == 3 { 0 } else { 16 }]);
            put32(&mut d, head + 4 * t + 2 * channel);
        }
        data.push(d);
    }
    let mut e = vec![0; 6];
    put16(&mut e, 0);
    info_block(&mut e, 40, &data, srt);
    (0..2 * srt.len() + 2).for_each(|k| put16(&mut e, 40 * k + 1));
    let srt = section(b"SRT0", &[e], &mut Rng::new(1));

    let mut data = Vec::new();
    let head = 12 + 12 + 4 + pat.len() * (4 + 8 + 16);
    for t in 0..pat.len() {
        let mut d = Vec::new();
        put32(&mut d, if t % 3 == 2 { 0 } else { 2 });
        put16(&mut d, 0);
        put16(&mut d, head + 8 * t);
        data.push(d);
    }
    let mut e = vec![0; 6];
    // a texture and a palette for each key; their names stand anywhere
    let choices = 2 * pat.len();
    e.extend([choices as u8, choices as u8, 0, 0, 0, 0]);
    info_block(&mut e, 8, &data, pat);
    for t in 0..pat.len() {
        for k in 0..2 {
            put16(&mut e, 4 * k);
            e.extend([(2 * t + k) as u8, (choices - 1 - 2 * t - k) as u8]);
        }
    }
    e.resize(e.len().max(16 * choices), 0xee);
    (srt, section(b"PAT0", &[e], &mut Rng::new(1)))
}

/// Tracks by their names: that end at each of the sixteen places, the shortest first on one side and the longest on the other; that are equal by
/// their fronts alone, the first with keys and without; that stand on one side; and none.
pub fn pairs() -> Vec<(Vec<u8>, Vec<u8>)> {
    let rising: Vec<_> = (0..=16).map(|n| ended(n, b'q')).collect();
    let falling: Vec<_> = (0..=16).rev().map(|n| ended(n, 0xff)).collect();
    let turn = |leftovers| ended(4, leftovers);
    let other = |leftovers| ended(5, leftovers);
    vec![
        with_tracks(&rising, &falling),
        with_tracks(&falling, &rising),
        with_tracks(&[turn(1), turn(0)], &[turn(2), turn(0)]),
        with_tracks(&[other(0), turn(1), turn(0), other(1)], &[other(1), other(0), turn(1), turn(0)]),
        with_tracks(&[other(0), other(1), other(2), turn(1), turn(0)], &[turn(1), other(0)]),
        with_tracks(&[turn(0)], &[other(0)]),
        with_tracks(&[other(0), turn(0)], &[]),
        with_tracks(&[], &[turn(0)]),
        with_tracks(&[], &[]),
        with_tracks(&(0..127).map(other).chain([turn(0)]).collect::<Vec<_>>(), &(0..63).map(turn).chain([other(0)]).collect::<Vec<_>>()),
    ]
}

/// An SRT0 and a PAT0 section with a track of one name, each as it is and refused with 1 to 4: every one of the one with every one of the other.
pub fn refused_pairs() -> Vec<(Vec<u8>, Vec<u8>)> {
    let (srt, pat) = with_tracks(&[ended(4, 0)], &[ended(4, 0)]);
    let damaged = |s: &[u8]| {
        // the stamp, the info block's first byte, and the size of its datums
        let mut found: Vec<_> = [0, 8, 24].map(|at| [&s[..at], &[7], &s[at + 1..]].concat()).to_vec();
        found.extend([s.to_vec(), s[..40].to_vec()]);
        found
    };
    let patterns = damaged(&pat);
    damaged(&srt).into_iter().flat_map(|srt| patterns.iter().map(move |pat| (srt.clone(), pat.clone())).collect::<Vec<_>>()).collect()
}

// ---- whole sections, and damage

/// A section as it should be, of a kind that the numbers choose.
pub fn whole(rng: &mut Rng) -> Vec<u8> {
    let kind = rng.below(3);
    let n = if rng.once_in(40) { 0 } else { 1 + rng.below(3) };
    let entries: Vec<_> = (0..n)
        .map(|_| match kind {
            0 => random_animation(rng),
            1 => material(rng),
            _ => pattern(rng),
        })
        .collect();
    section([b"JNT0", b"SRT0", b"PAT0"][kind], &entries, rng)
}

/// A section, damaged or not.
pub fn any(rng: &mut Rng) -> Vec<u8> {
    let mut s = whole(rng);
    for _ in 0..rng.below(3) {
        damage(&mut s, rng);
    }
    s
}

/// A PAT0 section of one to three entries, damaged or not.
pub fn any_pattern(rng: &mut Rng) -> Vec<u8> {
    let entries: Vec<_> = (0..1 + rng.below(3)).map(|_| pattern(rng)).collect();
    let mut s = section(b"PAT0", &entries, rng);
    for _ in 0..rng.below(3) {
        damage(&mut s, rng);
    }
    s
}

fn damage(s: &mut Vec<u8>, rng: &mut Rng) {
    if s.is_empty() {
        return;
    }
    let at = rng.below(s.len());
    match rng.below(6) {
        0 => s[at] = rng.next() as u8,
        1 => s[at] ^= 1 << rng.below(8),
        2 => s[at] = rng.pick(&[0, 1, 0x7f, 0x80, 0xff]),
        3 => s.truncate(at),
        4 => {
            // an extreme in the place of a word
            let extreme = rng.pick(&[0, 0xffff_ffffu32, 0x8000_0000, 0x7fff_ffff, 0xffff_fffc, 0x0001_0000]);
            for (b, x) in s[at..].iter_mut().zip(extreme.to_le_bytes()) {
                *b = x;
            }
        }
        _ => {
            let n = rng.below(8);
            s.extend(rng.bytes(n));
        }
    }
}

/// One object with every value of its flags in turn.
pub fn with_flags(flag: u16, rng: &mut Rng) -> Vec<u8> {
    let entry = animation(&[flag], 1, rng);
    section(b"JNT0", &[entry], rng)
}

/// One constant rotation by a pivot record, with every select and neg in turn.
pub fn with_pivot(selneg: usize, rng: &mut Rng) -> Vec<u8> {
    let mut e = b"J\0AC".to_vec();
    put16(&mut e, 1);
    put16(&mut e, 1);
    [0, 32, 38].iter().for_each(|&x| put32(&mut e, x));
    put16(&mut e, 24);
    e.extend([0, 0]);
    put16(&mut e, 0b110_0001_0000_0110);
    e.extend([0, 0]);
    put16(&mut e, 0x8000);
    put16(&mut e, 0);
    put16(&mut e, selneg);
    e.extend(numbers(rng, 4));
    section(b"JNT0", &[e], rng)
}

/// A section of each stamp whose entry stands inside the info block, in the names: no objects, no tracks.
pub fn inside_the_block(rng: &mut Rng) -> Vec<Vec<u8>> {
    let names = 24 + 8 * 3;
    let mut entries = [b"J\0AC\x07\0".to_vec(), b"M\0AT\x07\0\0\0".to_vec(), b"P\0AT\x07\0".to_vec()];
    // the empty info block of the other two: datum size 40 and 8
    entries[1].extend([0; 12]);
    put16(&mut entries[1], 40);
    entries[2].extend([0; 6 + 12]);
    put16(&mut entries[2], 8);
    let stamps = [b"JNT0", b"SRT0", b"PAT0"];
    let mut found = Vec::new();
    for (stamp, entry) in stamps.into_iter().zip(entries) {
        let mut s = section(stamp, &[vec![], vec![], vec![]], rng);
        s[names..].fill(0);
        s[names..names + entry.len()].copy_from_slice(&entry);
        for datum in 0..3 {
            s[36 + 4 * datum..][..4].copy_from_slice(&(names as u32).to_le_bytes());
        }
        found.push(s);
    }
    found
}

/// The first so many letters, a zero if there is room, and other bytes behind it.
pub fn ended(letters: usize, leftovers: u8) -> [u8; 16] {
    let mut name = [leftovers; 16];
    name[..letters].copy_from_slice(&b"abcdefghijklmnop"[..letters]);
    if letters < 16 {
        name[letters] = 0;
    }
    name
}

/// A section of each stamp in turn for each list of names. Its entries stand past the end.
fn with_names<const N: usize>(lists: [Vec<[u8; 16]>; N]) -> Vec<Vec<u8>> {
    let mut found = Vec::new();
    for (stamp, names) in [b"JNT0", b"SRT0", b"PAT0"].into_iter().cycle().zip(lists) {
        let mut s = [&stamp[..], &[0; 4]].concat();
        info_block(&mut s, 4, &vec![vec![0xff; 4]; names.len()], &names);
        found.push(s);
    }
    found
}

/// Names that end at each of the sixteen places, or have sixteen bytes: the shortest first, the longest first, and each of them twice.
pub fn named() -> Vec<Vec<u8>> {
    let rising: Vec<_> = (0..=16).map(|n| ended(n, b'q')).collect();
    let falling: Vec<_> = (0..=16).rev().map(|n| ended(n, 0xff)).collect();
    let twice = [&rising[..], &falling].concat();
    with_names([rising, falling, twice])
}

/// Names that are equal by their fronts alone: two, three and 255 by themselves, two and three among others, and one behind 254 others.
pub fn equally_named() -> Vec<Vec<u8>> {
    let turn = |leftovers| ended(4, leftovers);
    let other = |leftovers| ended(5, leftovers);
    with_names([
        vec![turn(0), turn(1)],
        vec![other(0), turn(2), other(1), turn(0)],
        vec![turn(0), turn(1), turn(2)],
        vec![other(0), turn(3), turn(2), other(1), turn(1)],
        (0..255).map(turn).collect(),
        (0..254).map(other).chain([turn(0)]).collect(),
    ])
}

/// A section with a word of two or four bytes at `at` in the place of what stood there: the extremes, and positions around its end.
pub fn with_words(s: &[u8], at: usize) -> Vec<Vec<u8>> {
    let n = s.len() as u32;
    let mut found = Vec::new();
    for word in [0, 1, 0x7fff_ffff, 0x8000_0000, 0xffff_fffc, u32::MAX, n - 1, n, n + 1] {
        for bytes in [&word.to_le_bytes()[..], &(word as u16).to_le_bytes()] {
            let mut changed = s.to_vec();
            for (b, x) in changed[at..].iter_mut().zip(bytes) {
                *b = *x;
            }
            found.push(changed);
        }
    }
    found
}

/// Small sections, one of each stamp and more, whose every byte is tried with every value.
pub fn small(rng: &mut Rng) -> Vec<Vec<u8>> {
    let mut found = Vec::new();
    for stamp in [b"JNT0", b"SRT0", b"PAT0"] {
        let mut kept = 0;
        while kept < 2 {
            let s = whole(rng);
            if s.starts_with(stamp) && s.len() < 260 && s.len() > 90 {
                found.push(s);
                kept += 1;
            }
        }
    }
    found.push(motion::example::WALK.to_vec());
    found
}

// ---- sections of a stated size, for the benchmark

/// A JNT0 section with one entry: so many objects, each with lists of so many frames on every axis and for its rotation.
pub fn walk_cycle(objects: usize, frames: usize) -> Vec<u8> {
    let rng = &mut Rng::new(7);
    let fields = 20 + 2 * objects + 60 * objects;
    let lists = fields + 10 * 16 + 6 * 16;
    let mut e = b"J\0AC".to_vec();
    put16(&mut e, frames);
    put16(&mut e, objects);
    put32(&mut e, 0);
    put32(&mut e, fields + 10 * 16);
    put32(&mut e, fields);
    (0..objects).for_each(|o| put16(&mut e, 20 + 2 * objects + 60 * o));
    let list = 8 * frames;
    for o in 0..objects {
        e.extend([0; 4]);
        for curve in 0..7 {
            // width 1, two bytes a number
            put32(&mut e, frames << 16 | 1 << 28);
            put32(&mut e, lists + (7 * o + curve) * list);
        }
    }
    e.extend(rng.bytes(10 * 16));
    for k in 0..16 {
        put16(&mut e, k % 9);
        e.extend(rng.bytes(4));
    }
    for _ in 0..objects {
        for curve in 0..7 {
            let at = e.len();
            if curve == 3 {
                (0..frames).for_each(|k| put16(&mut e, (k % 2) << 15 | k % 16));
            } else {
                e.extend(rng.bytes(4 * frames));
            }
            e.resize(at + list, 0);
        }
    }
    section(b"JNT0", &[e], &mut Rng::new(1))
}

/// A longer walk cycle, of 60 objects and 300 frames, in under 65,536 bytes. Each object has a list of rotations of its own. The lists of numbers are
/// shared: those of translations are eight for each axis, which serve in turn, and those of scales three.
pub fn long_walk() -> Vec<u8> {
    let rng = &mut Rng::new(7);
    let (objects, frames) = (60, 300);
    let fields = 20 + 2 * objects + 60 * objects;
    let rotations = fields + 10 * 16 + 6 * 16;
    let translations = rotations + objects * 2 * frames;
    let scales = translations + 3 * 8 * 2 * frames;
    let mut e = b"J\0AC".to_vec();
    put16(&mut e, frames);
    put16(&mut e, objects);
    put32(&mut e, 0);
    put32(&mut e, fields + 10 * 16);
    put32(&mut e, fields);
    (0..objects).for_each(|o| put16(&mut e, 20 + 2 * objects + 60 * o));
    for o in 0..objects {
        e.extend([0; 4]);
        let moved = [0, 1, 2].map(|axis| translations + (3 * (o % 8) + axis) * 2 * frames);
        let grown = [0, 1, 2].map(|axis| scales + (3 * (o % 3) + axis) * 4 * frames);
        for list in [&moved[..], &[rotations + o * 2 * frames], &grown].concat() {
            put32(&mut e, frames << 16 | 1 << 28);
            put32(&mut e, list);
        }
    }
    e.extend(rng.bytes(10 * 16));
    for k in 0..16 {
        put16(&mut e, k % 9);
        e.extend(rng.bytes(4));
    }
    (0..objects * frames).for_each(|k| put16(&mut e, (k % 2) << 15 | k % 16));
    e.extend(rng.bytes(3 * 8 * 2 * frames + 3 * 3 * 4 * frames));
    section(b"JNT0", &[e], &mut Rng::new(1))
}

/// The name of a track of the two sections below.
pub fn track_name(t: usize) -> [u8; 16] {
    let mut name = *b"material\0\0\0\0\0\0\0\0";
    name[8] = b'a' + t as u8;
    name
}

/// An SRT0 section with one entry: so many tracks, each with lists of so many frames for u and v.
pub fn scroll(tracks: usize, frames: usize) -> Vec<u8> {
    let rng = &mut Rng::new(7);
    let head = 8 + 12 + 4 + tracks * (4 + 40 + 16);
    let mut data = Vec::new();
    for t in 0..tracks {
        let mut d = vec![0; 24];
        for channel in 0..2 {
            put16(&mut d, frames);
            d.extend([0, 16]);
            put32(&mut d, head + (2 * t + channel) * 2 * frames);
        }
        data.push(d);
    }
    let mut e = vec![0; 4];
    put16(&mut e, frames);
    put16(&mut e, 0);
    info_block(&mut e, 40, &data, &(0..tracks).map(track_name).collect::<Vec<_>>());
    e.extend(rng.bytes(tracks * 4 * frames));
    section(b"SRT0", &[e], &mut Rng::new(1))
}

/// A PAT0 section with one entry: so many tracks, each with so many keys, and four names in each list.
pub fn blink(tracks: usize, keys: usize) -> Vec<u8> {
    let head = 12 + 12 + 4 + tracks * (4 + 8 + 16);
    let mut data = Vec::new();
    for t in 0..tracks {
        let mut d = Vec::new();
        put32(&mut d, keys);
        put16(&mut d, 0);
        put16(&mut d, head + 128 + t * 4 * keys);
        data.push(d);
    }
    let mut e = vec![0; 4];
    put16(&mut e, keys);
    e.extend([4, 4]);
    put16(&mut e, head);
    put16(&mut e, head + 64);
    info_block(&mut e, 8, &data, &(0..tracks).map(track_name).collect::<Vec<_>>());
    e.extend([b'n'; 128]);
    for _ in 0..tracks {
        for k in 0..keys {
            put16(&mut e, k);
            e.extend([(k % 4) as u8, (k % 3) as u8]);
        }
    }
    section(b"PAT0", &[e], &mut Rng::new(1))
}

// ---- sections of up to 65,536 bytes that take longest to list: 255 entries at one place, whose objects or tracks share their lists

/// A section of 255 entries at one place.
fn at_one_place(stamp: &[u8; 4], place: usize) -> Vec<u8> {
    let mut s = [&stamp[..], &[0; 4]].concat();
    info_block(&mut s, 4, &vec![(place as u32).to_le_bytes().to_vec(); 255], &[[0; 16]; 255]);
    s
}

/// JNT0: 999 objects whose rotations are so many lists of 4,095 references in turn, to the basis and the pivot data in turn.
pub fn crowded(lists: usize) -> Vec<u8> {
    let (objects, references) = (999, 4095);
    let mut s = at_one_place(b"JNT0", 6144);
    s.extend(b"J\0AC");
    put16(&mut s, 9);
    put16(&mut s, objects);
    s.extend([0; 12]);
    let places = 20 + 2 * objects;
    (0..objects).for_each(|o| put16(&mut s, places + 12 * (o % lists)));
    for list in 0..lists {
        // neither translation nor scale
        put16(&mut s, 1 << 1 | 1 << 9);
        put16(&mut s, 0);
        put32(&mut s, references << 16);
        put32(&mut s, places + 12 * lists + 2 * references * list);
    }
    (0..lists * references).for_each(|k| put16(&mut s, (k % 2) << 15));
    s
}

/// PAT0: 255 tracks of the same keys, behind the entry's tracks, as many as there is room for: 13,056.
pub fn keyed() -> Vec<u8> {
    let mut s = at_one_place(b"PAT0", 6144);
    let (keys, behind) = (13_056, 12 + 16 + 28 * 255);
    s.extend([0, 0, 0, 0, 9, 0, 255, 255, 0, 0, 0, 0]);
    info_block(&mut s, 8, &vec![track_of(keys, behind); 255], &[[0; 16]; 255]);
    s.resize(65_536, 0);
    s
}

/// The same with 16,127 keys: the entries' place is inside the section's own info block, so that the tracks stand in its names, and the keys begin
/// with the eighth byte of the entry.
pub fn keyed_over() -> Vec<u8> {
    let (place, keys) = (1020, 16_127);
    let mut s = at_one_place(b"PAT0", place);
    // up to the words that nobody reads
    s[place..place + 12].copy_from_slice(&[0, 0, 0, 0, 9, 0, 255, 255, 0, 0, 0, 0]);
    s[place + 12..1040].copy_from_slice(&[0, 255, 0, 0, 0, 0, 0, 0]);
    // from the names on
    s.truncate(2064);
    put32(&mut s, 8);
    (0..255).for_each(|_| s.extend(track_of(keys, 8)));
    s.resize(65_536, 0);
    s
}

/// A track's datum: how many keys it has, and where they stand.
fn track_of(keys: usize, place: usize) -> Vec<u8> {
    let mut datum = Vec::new();
    put32(&mut datum, keys);
    put16(&mut datum, 0);
    put16(&mut datum, place);
    datum
}

#[test]
fn entries_inside_the_block_are_whole() {
    for s in inside_the_block(&mut Rng::new(1)) {
        let record = motion::check(&s, 2).unwrap();
        assert_eq!((record.reach, record.frames, record.count), (s.len(), 7, 0));
    }
}

//! Patterns that are written: a second program of what is written from some lists, and what is read of it, by the Rust and here.
//!
//! A section of more than 4,294,967,295 bytes is refused with 16 too; its keys alone would take four gigabytes, so no run tries that.
use crate::agree::{self, Agreed};
use crate::lists::Lists;
use crate::oracle::{self, Value};
use crate::rng::Rng;
use apicula::nitro::pattern as rust;
use motion::{Pattern, Place, Refusal};
use std::fmt::Debug;

extern "C" {
    fn motion_write_pattern(
        name: *const u8,
        frames: u16,
        textures: *const u8,
        textures_length: usize,
        palettes: *const u8,
        palettes_length: usize,
        tracks: *const u8,
        tracks_length: usize,
        keys: *const u8,
        keys_length: usize,
        out: *mut u8,
        out_length: usize,
        written: *mut u64,
    ) -> u32;
}

/// How much was compared.
#[derive(Default)]
pub struct Counts {
    /// Lists that were to be written, and how many of them were.
    pub lists: usize,
    pub accepted: usize,
    /// Lists refused with each number.
    pub refused: [usize; 17],
    /// Lists with cause for two refusals, by their places in the order of the tests.
    pub both: [[usize; 5]; 5],
    /// Entries that were read and written again, and how many of them are too long for it.
    pub again: usize,
    pub too_long: usize,
    /// Cuts of what was written.
    pub cuts: usize,
    /// What was compared of written sections as of any others.
    pub compared: agree::Counts,
}

impl Counts {
    /// What should have occurred and did not.
    pub fn missing(&self) -> Vec<String> {
        let mut missing = Vec::new();
        let mut note = |count: usize, what: String| {
            if count == 0 {
                missing.push(what);
            }
        };
        note(self.accepted, "no pattern was written".into());
        note(self.again, "no entry was written again".into());
        note(self.too_long, "no entry was too long to be written again".into());
        for (i, n) in REFUSALS.into_iter().enumerate() {
            note(self.refused[n as usize], format!("no pattern was refused with {n}"));
            for (j, m) in REFUSALS.into_iter().enumerate().skip(i + 1) {
                note(self.both[i][j], format!("no pattern had cause for {n} and for {m}"));
            }
        }
        missing
    }
}

// ---- what is to come back

/// The refusals in the order of their tests.
pub const REFUSALS: [u32; 5] = [15, 9, 8, 16, 11];

/// The bytes of a name, of a track and of a key.
pub const NAME: usize = 16;
pub const TRACK: usize = 20;
pub const KEY: usize = 4;

/// How many keys each whole track says that it has.
fn counts(p: &Pattern) -> Vec<u64> {
    p.tracks.chunks_exact(TRACK).map(|t| u32::from_le_bytes([t[16], t[17], t[18], t[19]]) as u64).collect()
}

/// How many bytes the section has before the first key: stamp, size, info block of one entry, the entry's header, its info block, the names.
fn before_the_keys(p: &Pattern) -> u64 {
    let blocks = 8 + (16 + 24) + 12 + (16 + 28 * (p.tracks.len() / TRACK));
    (blocks + NAME * (p.textures.len() / NAME) + NAME * (p.palettes.len() / NAME)) as u64
}

/// How many bytes it has with as many keys as there are, whatever the tracks say.
pub fn length(p: &Pattern) -> u64 {
    before_the_keys(p) + (p.keys.len() - p.keys.len() % KEY) as u64
}

/// Whether there is cause for each of the refusals, whatever the others say.
pub fn causes(p: &Pattern, room: usize) -> [bool; 5] {
    let [textures, palettes, tracks, keys] = [(p.textures, NAME), (p.palettes, NAME), (p.tracks, TRACK), (p.keys, KEY)]
        .map(|(list, size)| (list.len() / size, list.len() % size));
    let many = [textures, palettes, tracks].iter().any(|n| n.0 > 255);
    let left_over = [textures, palettes, tracks, keys].iter().any(|n| n.1 > 0);
    let counts = counts(p);
    let other_count = counts.iter().sum::<u64>() != keys.0 as u64;
    let beyond = p.keys.chunks_exact(KEY).any(|k| k[2] as usize >= textures.0 || k[3] as usize >= palettes.0);
    // where a track's keys stand, counted from the entry; names stand before all keys, and never so far out
    let mut place = before_the_keys(p) - 48;
    let mut far = length(p) > u32::MAX as u64;
    for count in counts {
        far |= place > 65_535;
        place += KEY as u64 * count;
    }
    [many, left_over || other_count, beyond, far, (room as u64) < length(p)]
}

/// What is written from these lists into so many bytes, or the number of the refusal.
pub fn expected(p: &Pattern, room: usize) -> Result<Vec<u8>, u32> {
    match REFUSALS.into_iter().zip(causes(p, room)).find(|(_, cause)| *cause) {
        Some((number, _)) => Err(number),
        None => Ok(section(p)),
    }
}

fn set16(s: &mut [u8], at: usize, x: usize) {
    s[at..at + 2].copy_from_slice(&u16::try_from(x).unwrap().to_le_bytes());
}

/// An info block up to its datums.
fn block(s: &mut Vec<u8>, items: usize, size: u8) {
    s.extend([0, items as u8]);
    s.extend([0; 10]);
    s.extend(vec![0; 4 * items]);
    s.extend([size, 0, 0, 0]);
}

/// The section, part behind part. Each offset is where its list comes to stand, and so is put in afterwards.
pub fn section(p: &Pattern) -> Vec<u8> {
    let mut s = b"PAT0....".to_vec();
    block(&mut s, 1, 4);
    s.extend([48, 0, 0, 0]);
    s.extend(p.name);

    let entry = s.len();
    s.extend([0; 4]);
    s.extend(p.frames.to_le_bytes());
    s.extend([(p.textures.len() / NAME) as u8, (p.palettes.len() / NAME) as u8]);
    s.extend(b"....");
    let tracks = p.tracks.chunks_exact(TRACK);
    block(&mut s, tracks.len(), 8);
    let datums = s.len();
    for track in tracks.clone() {
        s.extend(&track[16..]);
        s.extend(b"\0\0..");
    }
    for track in tracks {
        s.extend(&track[..16]);
    }

    let place = s.len() - entry;
    set16(&mut s, entry + 8, place);
    s.extend(p.textures);
    let place = s.len() - entry;
    set16(&mut s, entry + 10, place);
    s.extend(p.palettes);
    let mut keys = p.keys;
    for (t, count) in counts(p).into_iter().enumerate() {
        let place = s.len() - entry;
        set16(&mut s, datums + 8 * t + 6, place);
        let (own, others) = keys.split_at(KEY * count as usize);
        s.extend(own);
        keys = others;
    }
    let size = s.len() as u32;
    s[4..8].copy_from_slice(&size.to_le_bytes());
    s
}

// ---- the comparison

fn same<T: PartialEq + Debug>(what: &str, here: T, there: T) -> Agreed {
    match here == there {
        true => Ok(()),
        false => Err(format!("{what}: {here:?}, and should be {there:?}")),
    }
}

/// Long lists by their lengths and the first place where they differ.
fn same_bytes(what: &str, here: &[u8], there: &[u8]) -> Agreed {
    let differs = here.iter().zip(there).position(|(a, b)| a != b);
    match differs {
        None => same(what, here.len(), there.len()),
        Some(at) => Err(format!("{what}: byte {at} is {:#04x}, and should be {:#04x}", here[at], there[at])),
    }
}

/// The call for C with these bytes and this word lent.
fn call(p: &Pattern, out: &mut [u8], written: &mut u64) -> u32 {
    let Pattern { name, frames, textures, palettes, tracks, keys } = *p;
    unsafe {
        motion_write_pattern(
            name.as_ptr(),
            frames,
            textures.as_ptr(),
            textures.len(),
            palettes.as_ptr(),
            palettes.len(),
            tracks.as_ptr(),
            tracks.len(),
            keys.as_ptr(),
            keys.len(),
            out.as_mut_ptr(),
            out.len(),
            written,
        )
    }
}

/// These lists, written into so many bytes: the number, the count and every byte lent; and what is read of an accepted section.
pub fn lists(p: &Pattern, room: usize, rng: &mut Rng, counts: &mut Counts) -> Agreed {
    let wanted = expected(p, room);
    let (before, word) = (rng.bytes(room), rng.next());
    let (mut out, mut written) = (before.clone(), word);
    let number = call(p, &mut out, &mut written);
    let section = wanted.as_deref().unwrap_or(&[]);
    let n = section.len();
    same("the number", number, *wanted.as_ref().err().unwrap_or(&0))?;
    same("the count", written, if wanted.is_ok() { n as u64 } else { word })?;
    same_bytes("the section", &out[..n], section)?;
    same_bytes("what stands behind the section", &out[n..], &before[n..])?;
    let mut out = before;
    let answer = motion::write_pattern(p, &mut out);
    same("the answer in Rust", answer, wanted.as_ref().map(Vec::len).map_err(|&n| Refusal(n)))?;
    same_bytes("the section in Rust", &out[..n], section)?;

    counts.lists += 1;
    let causes = causes(p, room);
    for (i, j) in (0..5).flat_map(|i| (i + 1..5).map(move |j| (i, j))) {
        counts.both[i][j] += (causes[i] && causes[j]) as usize;
    }
    if let Err(number) = wanted {
        counts.refused[number as usize] += 1;
        return Ok(());
    }
    counts.accepted += 1;
    same("the length, counted", n as u64, length(p))?;
    read_back(section, n, p, rng)?;
    let more = rng.below(20);
    read_back(&[section, &rng.bytes(more)].concat(), n, p, rng).map_err(|m| format!("with other bytes behind it: {m}"))?;
    for cut in [0, n - 1, rng.below(n), rng.below(n)] {
        same("the check of a cut section", motion::check(&section[..cut], 0), Err(Refusal(2))).map_err(|m| format!("{m}, cut at {cut}"))?;
        counts.cuts += 1;
    }
    if p.keys.len() < 400 && rng.once_in(8) {
        agree::section(section, rng, &mut counts.compared)?;
    }
    Ok(())
}

/// What the Rust reads of a section is what it was written from, and so is what the calls here read.
fn read_back(s: &[u8], reach: usize, p: &Pattern, rng: &mut Rng) -> Agreed {
    let mut entries = oracle::read(s).map_err(|n| format!("the Rust refuses the section with {n}"))?;
    same("the entries that the Rust reads", entries.len(), 1)?;
    let entry = entries.remove(0);
    same("the entry's offset", entry.offset, 48)?;
    same("the entry's name in the Rust", entry.name, p.name)?;
    match entry.value {
        Ok(Value::Pat(a)) => {
            in_the_rust(&a, p)?;
            here(s, reach, p, &a, rng)
        }
        Ok(_) => Err("the Rust reads another kind of entry".into()),
        Err(n) => Err(format!("the Rust refuses the entry with {n}")),
    }
}

fn in_the_rust(a: &rust::Pattern, p: &Pattern) -> Agreed {
    let names = |names: &[apicula::nitro::Name]| names.iter().flat_map(|n| n.0).collect::<Vec<_>>();
    same("the pattern's name in the Rust", a.name.0, p.name)?;
    same("the frames in the Rust", a.num_frames, p.frames)?;
    same_bytes("the texture names in the Rust", &names(&a.texture_names), p.textures)?;
    same_bytes("the palette names in the Rust", &names(&a.palette_names), p.palettes)?;
    let (mut tracks, mut keys) = (Vec::new(), Vec::new());
    for track in &a.material_tracks {
        tracks.extend(track.name.0);
        tracks.extend((track.keyframes.len() as u32).to_le_bytes());
        for key in &track.keyframes {
            keys.extend(key.frame.to_le_bytes());
            keys.extend([key.texture_idx, key.palette_idx]);
        }
    }
    same_bytes("the tracks in the Rust", &tracks, p.tracks)?;
    same_bytes("the keys in the Rust", &keys, p.keys)
}

fn here(s: &[u8], reach: usize, p: &Pattern, a: &rust::Pattern, rng: &mut Rng) -> Agreed {
    let tracks = p.tracks.len() / TRACK;
    let record = motion::Record { name: p.name, reach, frames: p.frames, count: tracks };
    same("the record", motion::check(s, 0), Ok(record))?;
    same("the check of a second entry", motion::check(s, 1), Err(Refusal(9)))?;
    let read = gathered(s, 0).map_err(|n| format!("reading the section: {n}"))?;
    same_bytes("the texture names", &read.textures, p.textures)?;
    same_bytes("the palette names", &read.palettes, p.palettes)?;
    same_bytes("the tracks", &read.tracks, p.tracks)?;
    same_bytes("the keys", &read.keys, p.keys)?;
    same("the names of a track after the last", motion::pattern_name(s, 0, tracks), Err(Refusal(9)))?;
    for t in some_tracks(tracks) {
        let track = &a.material_tracks[t];
        for frame in frames(&read, rng) {
            let theirs = if track.keyframes.is_empty() { Err(Refusal(10)) } else { Ok(track.sample(frame)) };
            let ours = motion::choice(s, 0, t, frame).map(|c| (c.texture, c.palette));
            same("the choice", ours, theirs).map_err(|m| format!("{m}, of track {t} at frame {frame}"))?;
        }
    }
    Ok(())
}

/// The first five tracks and the last.
fn some_tracks(tracks: usize) -> impl Iterator<Item = usize> {
    (0..tracks).filter(move |&t| t < 5 || t + 1 == tracks)
}

/// Frames around those of some keys, and others.
fn frames(read: &Lists, rng: &mut Rng) -> Vec<u16> {
    let mut frames = vec![0, 65_535, rng.next() as u16];
    let keys = read.keys.len() / KEY;
    if keys > 0 {
        let at = KEY * rng.below(keys);
        let frame = u16::from_le_bytes([read.keys[at], read.keys[at + 1]]);
        frames.extend([frame.wrapping_sub(1), frame, frame.wrapping_add(1)]);
    }
    frames
}

/// The lists of an accepted entry, by the calls that read it.
fn gathered(s: &[u8], i: usize) -> motion::Result<Lists> {
    let record = motion::check(s, i)?;
    let bytes = |list: Place, size: usize| s[list.place..list.place + size * list.length].to_vec();
    let textures = bytes(motion::texture_names(s, i)?, NAME);
    let palettes = bytes(motion::palette_names(s, i)?, NAME);
    let mut read = Lists { name: record.name, frames: record.frames, textures, palettes, ..Lists::default() };
    for t in 0..record.count {
        let keys = motion::keys(s, i, t)?;
        read.track(motion::pattern_name(s, i, t)?, keys.length as u32);
        read.keys.extend(bytes(keys, KEY));
    }
    Ok(read)
}

/// The accepted entries of a PAT0 section, each read and written again: as it was, or 16 where it is too long.
pub fn again(s: &[u8], rng: &mut Rng, counts: &mut Counts) -> Agreed {
    if !s.starts_with(b"PAT0") || motion::find(s, &[0; 16]).is_err() {
        return Ok(());
    }
    for i in (0..s[9] as usize).filter(|&i| motion::number(s, i) == 0) {
        let read = gathered(s, i).map_err(|n| format!("the lists of entry {i}: {n}"))?;
        let p = read.lent();
        let mut out = vec![0; length(&p) as usize + rng.below(9)];
        counts.again += 1;
        match motion::write_pattern(&p, &mut out) {
            Ok(n) => written_again(s, i, &out[..n], rng).map_err(|m| format!("entry {i} written again: {m}"))?,
            Err(Refusal(16)) => counts.too_long += 1,
            Err(n) => return Err(format!("entry {i}, written again, is {n}")),
        }
        lists(&p, out.len(), rng, counts).map_err(|m| format!("the lists of entry {i}: {m}"))?;
    }
    Ok(())
}

/// An entry and the one that was written of it say the same, places apart.
fn written_again(s: &[u8], i: usize, written: &[u8], rng: &mut Rng) -> Agreed {
    let [was, is] = [(s, i), (written, 0)].map(|(s, i)| motion::check(s, i).map(|r| (r.name, r.frames, r.count)));
    same("name, frames and tracks", is, was)?;
    same("the lists", gathered(written, 0), gathered(s, i))?;
    let (tracks, read) = (was.map_or(0, |r| r.2), gathered(s, i).unwrap_or_default());
    for t in some_tracks(tracks) {
        for frame in frames(&read, rng) {
            let [was, is] = [(s, i), (written, 0)].map(|(s, i)| motion::choice(s, i, t, frame));
            same("the choice", is, was).map_err(|m| format!("{m}, of track {t} at frame {frame}"))?;
        }
    }
    Ok(())
}

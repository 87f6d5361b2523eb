//! The stored list that crates/replay runs with no Rust at hand: sections with calls on them, and what the Rust answers to each.
//!
//! The list is how many calls there are, in two bytes; each call in 33 bytes: its code, entry, object or track in two bytes, axis or channel,
//! the frame in two bytes, the place (or a value's index) and the room of a lent slice, a name of sixteen bytes, the section's place in the
//! list and its length, four bytes each; and then the sections. A material's two sections stand as one, with the length of the first in the place
//! of an object or track and the entry of the second in that of an axis or channel. The lists of a pattern that is written stand as one too, textures,
//! palettes, tracks and keys: the bytes of the textures in the place of an object or track, those of the palettes in that of an axis or channel, and
//! those of the tracks in that of a place. A clip has its first frame in the place of the frame, and how many frames there are in that of an object or
//! track. A player has its four words in the place of the name, four bytes each, and the mode that is set, 0 or not, in that of an object or track.
//! An answer is a line: the number, then every word and every float's bits that the call was lent, as they stand afterwards, in sixteen hex digits, and
//! every byte in two. Where the Rust's answer is one of the intended differences (9 to 12), document 01's number stands; the second number of a scale's
//! value, which the Rust drops, is read from the bytes by the layout; what is written is the second program's, and what a player does the plain
//! machine's.
use crate::layout;
use crate::lists::{self, Lists};
use crate::materials::Pair;
use crate::oracle::{self, Entry, Value};
use crate::players::{self, Event, Machine, Picture};
use crate::rng::Rng;
use crate::sections;
use crate::writes;
use apicula::nitro::animation::{Animation, Curve};
use std::collections::{HashMap, HashSet};

/// The bytes of a call.
const SIZE: usize = 33;

#[derive(Clone, Copy, Default)]
struct Call {
    code: u8,
    entry: u8,
    index: u16,
    part: u8,
    frame: u16,
    place: u8,
    room: u8,
    name: [u8; 16],
}

const RECORD: u8 = 0;
const FIND: u8 = 1;
const TRANSLATION: u8 = 2;
const ROTATION: u8 = 3;
const SCALE: u8 = 4;
const CHANNEL: u8 = 5;
const UV: u8 = 6;
const MATERIAL_NAME: u8 = 7;
const PATTERN_NAME: u8 = 8;
const TEXTURES: u8 = 9;
const PALETTES: u8 = 10;
const KEYS: u8 = 11;
const CHOICE: u8 = 12;
const RESAMPLE_TRANSLATION: u8 = 13;
const RESAMPLE_SCALE: u8 = 14;
const MATRIX: u8 = 15;
const CHECK: u8 = 16;
const SCALE_VALUE: u8 = 17;
const MATERIAL: u8 = 18;
const WRITE: u8 = 19;
const POSE: u8 = 20;
const CLIP: u8 = 21;
const KIND: u8 = 22;
const PICK: u8 = 23;
const TICK: u8 = 24;
const MODE: u8 = 25;
const PICTURE: u8 = 26;

/// What stands in the words and floats before a call, and in the bytes. No answer is such a word or float.
const FILL: u64 = 0x5555_5555_5555_5555;
const BYTE: u8 = 0x55;

/// All that a call is lent, floats as their bits.
struct Lent {
    words: Vec<u64>,
    floats: Vec<u64>,
    bytes: Vec<u8>,
}

impl Lent {
    fn line(&self, number: u32) -> String {
        let words = [&[number as u64], &self.words[..], &self.floats].concat();
        let all = words.iter().map(|w| format!("{w:016x}")).chain(self.bytes.iter().map(|b| format!("{b:02x}")));
        all.collect::<Vec<_>>().join(" ") + "\n"
    }
}

impl Call {
    fn bytes(&self, section: usize, length: usize) -> Vec<u8> {
        let ([index, above], [frame, later]) = (self.index.to_le_bytes(), self.frame.to_le_bytes());
        let head = [self.code, self.entry, index, above, self.part, frame, later, self.place, self.room];
        [&head[..], &self.name, &(section as u32).to_le_bytes(), &(length as u32).to_le_bytes()].concat()
    }

    /// The stamp that the call takes; the first three take all.
    fn stamp(&self) -> Option<&'static [u8]> {
        match self.code {
            RECORD | FIND | CHECK => None,
            CHANNEL | UV | MATERIAL_NAME => Some(b"SRT0"),
            PATTERN_NAME | TEXTURES | PALETTES | KEYS | CHOICE => Some(b"PAT0"),
            _ => Some(b"JNT0"),
        }
    }

    fn lent(&self) -> Lent {
        let (words, floats, bytes) = match self.code {
            RECORD => (5, 0, 0),
            TRANSLATION | CHANNEL => (8, 1, 0),
            SCALE => (8, 2, 0),
            SCALE_VALUE => (0, 2, 0),
            ROTATION => (8, 9, 0),
            UV => (0, 16, 0),
            RESAMPLE_TRANSLATION | RESAMPLE_SCALE => (4, 40, 0),
            MATRIX => (0, 0, 140),
            CHECK => (0, 0, 0),
            MATERIAL => (3, 2, 0),
            WRITE => (1, 0, 240),
            POSE | CLIP => (1, 100, 0),
            KIND => (1, 0, 0),
            PICK | TICK | MODE => return Lent { words: self.player().to_vec(), floats: vec![], bytes: vec![] },
            PICTURE => (3, 16, 0),
            _ => (2, 0, 0),
        };
        Lent { words: vec![FILL; words], floats: vec![FILL; floats], bytes: vec![BYTE; bytes] }
    }

    /// The player's words.
    fn player(&self) -> [u64; 4] {
        [0, 4, 8, 12].map(|at| u32::from_le_bytes(self.name[at..at + 4].try_into().unwrap()) as u64)
    }
}

fn put<T: Copy>(lent: &mut [T], values: &[T]) {
    lent[..values.len()].copy_from_slice(values);
}

fn name_words(name: [u8; 16]) -> [u64; 2] {
    let n = u128::from_le_bytes(name);
    [n as u64, (n >> 64) as u64]
}

fn floats<'a>(m: impl IntoIterator<Item = &'a f64>) -> Vec<u64> {
    m.into_iter().map(|x| x.to_bits()).collect()
}

/// The record of a curve, whose list stands as the layout says.
fn put_curve<T: Copy>(lent: &mut Lent, c: &Curve<T>, list: Option<layout::List>, say: impl Fn(T) -> Vec<u64>) {
    match c {
        Curve::None => put(&mut lent.words, &[0]),
        Curve::Constant(v) => {
            put(&mut lent.words, &[1]);
            put(&mut lent.floats, &say(*v));
        }
        Curve::Samples { start_frame, end_frame, values } => {
            put(&mut lent.words, &layout::words(list.unwrap().record(*start_frame, *end_frame, values.len())));
        }
    }
}

fn put_record(s: &[u8], at: usize, name: [u8; 16], value: &Value, lent: &mut Lent) {
    let (frames, count) = oracle::frames_and_count(value);
    put(&mut lent.words, &name_words(name));
    put(&mut lent.words[2..], &[reach(s, at), frames as u64, count as u64]);
}

/// The least front that the Rust accepts the entry in.
fn reach(s: &[u8], entry: usize) -> u64 {
    let accepts = |k: usize| matches!(oracle::read(&s[..k]), Ok(entries) if entries[entry].value.is_ok());
    (0..=s.len()).find(|&k| accepts(k)).unwrap() as u64
}

/// The material of two sections, one behind the other.
fn put_material(s: &[u8], call: &Call, lent: &mut Lent) -> Result<(), u32> {
    let (srt, pat) = s.split_at(call.index as usize);
    let (shift, choice) = Pair::new(srt, call.entry as usize, pat, call.part as usize).expected(&call.name, call.frame)?;
    put(&mut lent.floats, &shift);
    match choice {
        Some((texture, palette)) => put(&mut lent.words, &[1, texture as u64, palette as u64]),
        None => put(&mut lent.words, &[0]),
    }
    Ok(())
}

/// The section that is written from lists, one behind the other.
fn put_written(s: &[u8], call: &Call, lent: &mut Lent) -> Result<(), u32> {
    let (textures, s) = s.split_at(call.index as usize);
    let (palettes, s) = s.split_at(call.part as usize);
    let (tracks, keys) = s.split_at(call.place as usize);
    let room = (call.room as usize).min(lent.bytes.len());
    let pattern = motion::Pattern { name: call.name, frames: call.frame, textures, palettes, tracks, keys };
    let section = writes::expected(&pattern, room)?;
    put(&mut lent.words, &[section.len() as u64]);
    put(&mut lent.bytes, &section);
    Ok(())
}

/// The poses of an animation at some frames, or a single one: each object in turn at each frame.
fn put_poses(a: &Animation, call: &Call, lent: &mut Lent) -> Result<(), u32> {
    let (first, frames) = (call.frame as usize, if call.code == POSE { 1 } else { call.index as usize });
    if first + frames > 65_536 {
        return Err(9);
    }
    let room = (call.room as usize).min(lent.floats.len());
    if 16 * a.objects_curves.len() * frames > room {
        return Err(11);
    }
    let at = |frame: usize| a.objects_curves.iter().map(move |curves| curves.sample_at(frame as u16));
    let matrices: Vec<_> = (first..first + frames).flat_map(at).collect();
    put(&mut lent.words, &[a.objects_curves.len() as u64]);
    put(&mut lent.floats, &floats(matrices.iter().flat_map(|m| m.columns.iter().flatten())));
    Ok(())
}

/// What an event makes of a player, or what the player shows.
fn put_player(s: &[u8], call: &Call, lent: &mut Lent) -> Result<(), u32> {
    let (read, words, index) = (oracle::read(s), call.player(), call.index as usize);
    let mut machine = Machine::of(words);
    let event = match call.code {
        PICK => Event::Pick(call.entry as usize),
        TICK => Event::Tick,
        MODE => Event::Mode(call.index as u32),
        _ => {
            match machine.picture(&read, index)? {
                Picture::Matrix(bits) => {
                    put(&mut lent.words, &[1]);
                    put(&mut lent.floats, &bits);
                }
                Picture::Choice(texture, palette) => put(&mut lent.words, &[2, texture as u64, palette as u64]),
            }
            return Ok(());
        }
    };
    machine.run(&read, event)?;
    put(&mut lent.words, &machine.words(event, words));
    Ok(())
}

/// What the Rust answers, and leaves in what is lent.
fn answer(s: &[u8], call: &Call, lent: &mut Lent) -> Result<(), u32> {
    if call.code == KIND {
        put(&mut lent.words, &[players::kind(s)?]);
        return Ok(());
    }
    if (PICK..=PICTURE).contains(&call.code) {
        return put_player(s, call, lent);
    }
    if call.code == MATERIAL {
        return put_material(s, call, lent);
    }
    if call.code == WRITE {
        return put_written(s, call, lent);
    }
    let entries = oracle::read(s);
    if let Some(stamp) = call.stamp() {
        if s.len() >= 4 && &s[..4] != stamp {
            return Err(1);
        }
    }
    let mut entries: Vec<Entry> = entries?;
    if call.code == FIND {
        match entries.iter().position(|e| layout::front(&e.name) == layout::front(&call.name)) {
            Some(i) => put(&mut lent.words, &[1, i as u64]),
            None => put(&mut lent.words, &[0]),
        }
        return Ok(());
    }
    let at = call.entry as usize;
    if at >= entries.len() {
        return Err(9);
    }
    let entry = entries.swap_remove(at);
    let value = entry.value?;
    let index = call.index as usize;
    let part = call.part as usize;
    match value {
        _ if call.code == CHECK => {}
        _ if call.code == RECORD => put_record(s, at, entry.name, &value, lent),
        Value::Jnt(a) if call.code == POSE || call.code == CLIP => put_poses(&a, call, lent)?,
        Value::Jnt(a) => {
            let curves = a.objects_curves.into_iter().nth(index).ok_or(9u32)?;
            let lists = layout::object(s, at, index);
            match call.code {
                TRANSLATION => put_curve(lent, curves.trans.get(part).ok_or(9u32)?, lists[part], |x| vec![x.to_bits()]),
                SCALE => {
                    let curve = curves.scale.get(part).ok_or(9u32)?;
                    let stored = &layout::scale(s, at, index)[part];
                    put_curve(lent, curve, lists[4 + part], |x| vec![x.to_bits(), stored[0].second.to_bits()]);
                }
                SCALE_VALUE => {
                    let scale = layout::scale(s, at, index);
                    let value = scale.get(part).ok_or(9u32)?.get(call.place as usize).ok_or(9u32)?;
                    put(&mut lent.floats, &floats(&[value.first, value.second]));
                }
                ROTATION => put_curve(lent, &curves.rotation, lists[3], |m| floats(m.columns.iter().flatten())),
                MATRIX if call.room < 128 => return Err(11),
                MATRIX => {
                    let m = curves.sample_at(call.frame);
                    let bytes: Vec<u8> = m.columns.iter().flatten().flat_map(|x| x.to_le_bytes()).collect();
                    put(&mut lent.bytes, &bytes);
                }
                _ => {
                    let translation = call.code == RESAMPLE_TRANSLATION;
                    let axes = if translation { curves.trans } else { curves.scale };
                    let (words, values) = match oracle::resampled(axes, translation).ok_or(10u32)? {
                        Curve::Samples { start_frame, end_frame, values } => {
                            (vec![1, start_frame as u64, end_frame as u64, values.len() as u64], values)
                        }
                        _ => (vec![0], vec![]),
                    };
                    let (place, room) = (call.place as usize, (call.room as usize).min(40));
                    if place + 3 * values.len() > room {
                        return Err(11);
                    }
                    put(&mut lent.words, &words);
                    for (k, v) in values.iter().enumerate() {
                        put(&mut lent.floats[place + 3 * k..], &[v.x, v.y, v.z].map(f64::to_bits));
                    }
                }
            }
        }
        Value::Srt(a) => {
            let track = a.tracks.get(index).ok_or(9u32)?;
            match call.code {
                CHANNEL => {
                    let channel = track.channels.get(part).ok_or(9u32)?;
                    put_curve(lent, &channel.curve, Some(layout::channel(s, at, index, part)), |x| vec![x.to_bits()]);
                }
                UV => put(&mut lent.floats, &floats(track.eval_uv_mat(call.frame).columns.iter().flatten())),
                _ => put(&mut lent.words, &name_words(track.name.0)),
            }
        }
        Value::Pat(a) => {
            let words = match call.code {
                TEXTURES => [layout::textures(s, at) as u64, a.texture_names.len() as u64],
                PALETTES => [layout::palettes(s, at) as u64, a.palette_names.len() as u64],
                _ => {
                    let track = a.material_tracks.get(index).ok_or(9u32)?;
                    match call.code {
                        KEYS => [layout::keys(s, at, index) as u64, track.keyframes.len() as u64],
                        CHOICE if track.keyframes.is_empty() => return Err(10),
                        CHOICE => {
                            let (texture, palette) = track.sample(call.frame);
                            [texture as u64, palette as u64]
                        }
                        _ => name_words(track.name.0),
                    }
                }
            };
            put(&mut lent.words, &words);
        }
    }
    Ok(())
}

/// A call of some kind on a section.
fn call(s: &[u8], code: u8, rng: &mut Rng) -> Call {
    let mut name = [0; 16];
    name[0] = b'a' + rng.below(4) as u8;
    // sometimes a name that stands in the section
    if s.len() > 60 && rng.once_in(2) {
        let at = layout::names(s);
        if s.len() >= at + 16 {
            name.copy_from_slice(&s[at..at + 16]);
        }
    }
    Call {
        code,
        entry: if rng.once_in(12) { rng.below(5) as u8 } else { 0 },
        index: rng.below(3) as u16,
        part: rng.below(if code == CHANNEL { 6 } else { 4 }) as u8,
        frame: rng.below(14) as u16,
        place: rng.below(4) as u8,
        room: match code {
            MATRIX if s.starts_with(b"JNT0") => 126 + rng.below(6) as u8,
            MATRIX => 2,
            _ => rng.below(41) as u8,
        },
        name,
    }
}

/// A call that writes lists of so many bytes: textures, palettes and tracks.
fn write(name: [u8; 16], frames: u16, [textures, palettes, tracks]: [usize; 3], room: usize) -> Call {
    Call {
        code: WRITE,
        index: textures as u16,
        part: palettes as u8,
        frame: frames,
        place: tracks as u8,
        room: room as u8,
        name,
        ..Call::default()
    }
}

/// Calls that write small lists, each into some rooms; and one list of 257 names that is taken apart in several ways.
fn writing_calls() -> Vec<(Vec<u8>, Vec<Call>)> {
    let mut found = Vec::new();
    for (lists, rooms) in lists::small() {
        let Lists { name, frames, textures, palettes, tracks, keys } = lists;
        let lengths = [&textures, &palettes, &tracks].map(Vec::len);
        let calls = rooms.into_iter().map(|room| write(name, frames, lengths, room)).collect();
        found.push(([textures, palettes, tracks, keys].concat(), calls));
    }
    let lengths = [[4096, 16, 0], [4096, 0, 0], [4111, 1, 0], [4112, 0, 0], [4095, 17, 0], [4095, 16, 0], [4080, 32, 0], [4080, 0, 20]];
    let calls = lengths.map(|lengths| write(*b"many\0\0\0\0\0\0\0\0\0\0\0\0", 9, lengths, 240));
    found.push((Rng::new(257).bytes(16 * 257), calls.to_vec()));
    found
}

/// Poses and clips of sections that have other calls already: of none to three objects, of more than there is room for, and refused.
fn posing_calls(kept: &[(Vec<u8>, Vec<Call>)]) -> Vec<(Vec<u8>, Vec<Call>)> {
    let pose = |frame, room| Call { code: POSE, frame, room, ..Call::default() };
    let clip = |first, frames, room| Call { code: CLIP, index: frames, frame: first, room, ..Call::default() };
    // of the sections whose first entry is of so many objects, one whose matrices at eight frames differ most
    let moving = |objects: usize| {
        let matrices = |s: &[u8]| match oracle::read(s).ok()?.into_iter().next()?.value {
            Ok(Value::Jnt(a)) if a.objects_curves.len() == objects => {
                let at = |frame| a.objects_curves.iter().map(move |o| floats(o.sample_at(frame).columns.iter().flatten()));
                Some((0..8).flat_map(at).collect::<HashSet<_>>().len())
            }
            _ => None,
        };
        kept.iter().map(|(s, _)| s).max_by_key(|s| matrices(s)).unwrap().clone()
    };
    let with = |stamp: &[u8]| kept.iter().map(|(s, _)| s).find(|s| s.starts_with(stamp)).unwrap().clone();
    let mut no_frames = motion::example::WALK.to_vec();
    no_frames[52] = 0;
    vec![
        (moving(0), vec![pose(1, 0), clip(5, 60_000, 3), clip(65_535, 2, 100)]),
        (
            moving(1),
            vec![
                pose(1, 16),
                pose(2, 15),
                Call { entry: 7, ..pose(0, 100) },
                clip(0, 6, 96),
                clip(1, 6, 95),
                clip(3, 0, 0),
                clip(65_535, 1, 16),
                clip(65_534, 2, 40),
                clip(65_535, 2, 100),
            ],
        ),
        (moving(2), vec![pose(0, 32), pose(1, 33), pose(2, 31), clip(0, 3, 96), clip(1, 3, 100), clip(1, 2, 63), clip(65_535, 65_535, 0)]),
        (moving(3), vec![pose(0, 48), pose(2, 100), clip(1, 2, 96), clip(0, 3, 100)]),
        (with(b"TEX0"), vec![pose(0, 100)]),
        (with(b"SRT0"), vec![clip(0, 1, 100)]),
        (b"JNT".to_vec(), vec![clip(65_535, 2, 0)]),
        (no_frames, vec![pose(0, 100)]),
        (sections::crowd(999), vec![pose(0, 100)]),
        (sections::crowd(1000), vec![clip(65_535, 2, 0)]),
    ]
}

/// The kind of a section, and the frames of its first entry, if that is whole.
fn first(s: &[u8]) -> Option<(u64, u16)> {
    let value = oracle::read(s).ok()?.into_iter().next()?.value.ok()?;
    Some((players::kind(s).ok()?, oracle::frames_and_count(&value).0))
}

/// Kinds and players of sections that have other calls already: of each kind, of 0 frames, with several entries, and refused.
fn player_calls(kept: &[(Vec<u8>, Vec<Call>)]) -> Vec<(Vec<u8>, Vec<Call>)> {
    let with =
        |code, player: [u32; 4]| Call { code, name: player.map(u32::to_le_bytes).as_flattened().try_into().unwrap(), ..Call::default() };
    let kind = || Call { code: KIND, ..Call::default() };
    let pick = |player, entry| Call { entry, ..with(PICK, player) };
    let tick = |player| with(TICK, player);
    let mode = |player, looping| Call { index: looping, ..with(MODE, player) };
    let picture = |player, index| Call { index, ..with(PICTURE, player) };
    let sections = || kept.iter().map(|(s, _)| s);
    // of those whose first entry is such a one, one that shows most in its first eight frames
    let moving = |is: &dyn Fn(&[u8], u64, u16) -> bool| {
        let shown = |s: &&Vec<u8>| {
            let read = oracle::read(s);
            let at = |frame| match Machine::of([1, 0, frame, 0]).picture(&read, 0) {
                Ok(Picture::Matrix(bits)) => bits.to_vec(),
                Ok(Picture::Choice(texture, palette)) => vec![texture as u64, palette as u64],
                Err(_) => vec![],
            };
            (0..8).map(at).collect::<HashSet<_>>().len()
        };
        sections().filter(|s| first(s).is_some_and(|(kind, frames)| is(s, kind, frames))).max_by_key(shown).unwrap().clone()
    };
    let mut found = Vec::new();
    // each kind: up to the last frame, at it and past it, in each mode
    for stamp in 0..3 {
        let s = moving(&|_, kind, frames| kind == stamp && (3..20).contains(&frames));
        let n = first(&s).unwrap().1 as u32;
        let mut calls = vec![kind(), pick([0; 4], 0), tick([1, 0, 0, 0]), tick([1, 0, n - 2, 1])];
        calls.extend([n - 1, n].map(|frame| tick([1, 0, frame, 0])));
        calls.extend([n - 1, n + 1].map(|frame| tick([1, 0, frame, 1])));
        calls.extend([0, 5, n - 1].map(|frame| picture([1, 0, frame, 0], 0)));
        calls.push(picture([1, 0, 1, 0], 1000));
        found.push((s, calls));
    }
    // before a pick, the last frame there is, and words that stand for the same as others
    let s = found[0].0.clone();
    let n = first(&s).unwrap().1 as u32;
    let calls = vec![
        tick([0; 4]),
        tick([0, 0, 2, 1]),
        picture([0; 4], 0),
        picture([0, 0, 1, 9], 1000),
        mode([0; 4], 1),
        mode([0, 9, 0x1234_5678, 9], 0),
        mode([7, 9, 0x1234_5678, 9], 2),
        mode([7, 9, 0xffff_ffff, 0], 0xffff),
        mode([7, 9, 0, 0], 0),
        pick([0, 9, 0x1234_5678, 9], 0),
        pick([7, 0, 2, 0], 0),
        pick([7, 0, 0x1_0002, 9], 255),
        tick([1, 0, 65_535, 0]),
        tick([1, 0, 65_535, 1]),
        tick([7, 0, 0x1_0000, 0]),
        tick([0xffff_ffff, 0, 0xffff_0000 + n - 2, 9]),
        tick([7, 0, 0xffff_0000 + n - 1, 0]),
        tick([7, 0, 0x8000_0000 + n - 1, 9]),
        tick([7, 255, 0x1_0002, 9]),
        tick([1, 0xffff_ffff, 2, 0]),
        picture([1, 0, 65_535, 0], 0),
        picture([7, 0, 0xffff_0001, 9], 0),
        picture([7, 255, 1, 0], 0),
        picture([1, 0, 1, 0], 0xffff),
    ];
    found.push((s, calls));
    // of 0 frames
    for stamp in 1..3 {
        let s = moving(&|_, kind, frames| kind == stamp && frames == 0);
        found.push((s, vec![pick([0; 4], 0), tick([1, 0, 5, 0]), tick([1, 0, 5, 1]), picture([1, 0, 0, 0], 0)]));
    }
    // two entries of which one is whole, and a track without keys
    for stamp in 0..3 {
        let whole = |s: &[u8]| match &oracle::read(s).ok()?[..] {
            [first, second, ..] if first.value.is_ok() != second.value.is_ok() => Some(second.value.is_ok() as u8),
            _ => None,
        };
        let s = sections().find(|s| players::kind(s) == Ok(stamp) && whole(s).is_some()).unwrap().clone();
        let (i, other) = whole(&s).map(|i| (i, 1 - i)).unwrap();
        let [player, refused] = [i, other].map(|i| [1, i as u32, 2, 9]);
        found.push((s, vec![pick(refused, i), tick(player), pick(player, other), picture(refused, 0)]));
    }
    let no_keys = |s: &[u8], _, _| Machine::of([1, 0, 0, 0]).picture(&oracle::read(s), 1).err() == Some(10);
    found.push((moving(&no_keys), vec![picture([1, 0, 3, 0], 0), picture([1, 0, 3, 0], 1)]));
    // a crowd scene
    found.push((sections::crowd(999), vec![pick([0; 4], 0), picture([1, 0, 2, 0], 998), picture([1, 0, 2, 0], 999)]));
    // refused sections and entries
    for s in [&b"TEX0"[..], b"JNT"] {
        let asked = [[0; 4], [1, 0, 0, 0]].map(|player| [tick(player), picture(player, 0)]);
        found.push((s.to_vec(), [&[kind(), pick([0; 4], 0)], asked.as_flattened()].concat()));
    }
    let refused = |number| {
        let answers = |s: &[u8]| Machine::default().run(&oracle::read(s), Event::Pick(0)) == Err(number);
        sections().find(|s| answers(s)).unwrap().clone()
    };
    for number in [3, 4, 5, 6, 7, 8, 12] {
        let player = [1, 0, 5, 9];
        found.push((refused(number), vec![pick(player, 0), tick(player), picture(player, 0)]));
    }
    found
}

/// The list and the answers: bytes and lines.
pub fn stored(sections: usize) -> (Vec<u8>, String) {
    let rng = &mut Rng::new(86);
    let mut kept = Vec::new();
    while kept.len() < sections {
        let s = match kept.len() {
            0 => motion::example::WALK.to_vec(),
            1 => b"TEX0".to_vec(),
            2 => b"JNT".to_vec(),
            3 => sections::hundred(),
            // the info block's first byte, and the animation's frames
            n @ (4 | 5) => {
                let mut s = motion::example::WALK.to_vec();
                let (at, byte) = if n == 4 { (8, 1) } else { (52, 0) };
                s[at] = byte;
                s
            }
            n if n % 3 == 0 => sections::whole(rng),
            _ => sections::any(rng),
        };
        if s.len() > 420 {
            continue;
        }
        let codes: &[u8] = match s.get(..4) {
            Some(b"JNT0") => &[RECORD, FIND, TRANSLATION, ROTATION, SCALE, RESAMPLE_TRANSLATION, RESAMPLE_SCALE, MATRIX, CHECK, CHOICE],
            Some(b"SRT0") => &[RECORD, FIND, CHANNEL, CHANNEL, UV, UV, MATERIAL_NAME, MATRIX],
            Some(b"PAT0") => &[RECORD, FIND, PATTERN_NAME, TEXTURES, PALETTES, KEYS, CHOICE, CHOICE, UV],
            _ => &[RECORD, FIND, CHECK, MATRIX],
        };
        let calls: Vec<Call> = codes.iter().map(|&code| call(&s, code, rng)).collect();
        kept.push((s, calls));
    }
    // names that end at each place, with other bytes behind them, and with another last letter
    for s in sections::named() {
        let there = (0..=16).map(|n| sections::ended(n, 0xee));
        let missing = (1..=16).map(|n| {
            let mut name = sections::ended(n, 0xee);
            name[n - 1] = b'z';
            name
        });
        let calls = there.chain(missing).map(|name| Call { name, ..call(&s, FIND, rng) }).collect();
        kept.push((s, calls));
    }
    // equal names: those that stand there, the first of them with other bytes behind it, and one that does not stand there
    for s in sections::equally_named() {
        let names = [(4, 0xee), (4, 0), (4, 1), (5, 0xee), (3, 0xee)].map(|(letters, leftovers)| sections::ended(letters, leftovers));
        let calls = names.into_iter().map(|name| Call { name, ..call(&s, FIND, rng) }).collect();
        kept.push((s, calls));
    }
    // one value of a scale in each, with numbers of their own, so that the calls above stay the same
    let own = &mut Rng::new(6);
    for (s, calls) in &mut kept {
        calls.push(call(s, SCALE_VALUE, own));
    }
    // every axis and value of a scale, and past them
    for s in sections::scaled() {
        let at = |code, part, place| Call { code, part, place, ..Call::default() };
        let values = (0..4).flat_map(|axis| (0..8).map(move |index| at(SCALE_VALUE, axis, index)));
        let calls = (0..4).map(|axis| at(SCALE, axis, 0)).chain(values).collect();
        kept.push((s, calls));
    }
    // crowd scenes: some objects, 256, whose number one byte does not hold, the last and the one after it
    for objects in sections::CROWDS {
        let of_object = |index| {
            let at = move |code, part, frame, room| Call { code, index, part, frame, room, ..Call::default() };
            let curves = [TRANSLATION, ROTATION, SCALE, SCALE_VALUE].map(|code| at(code, 1, 0, 0));
            let resampled = [RESAMPLE_TRANSLATION, RESAMPLE_SCALE].map(|code| at(code, 0, 0, 40));
            let matrices = [0, 3, 7, 200].map(|frame| at(MATRIX, 0, frame, 128));
            [&curves[..], &resampled, &matrices].concat()
        };
        let entry = [RECORD, CHECK].map(|code| Call { code, ..Call::default() });
        let asked = [0, 1, 5, 256, objects - 1, objects].map(|o| of_object(o as u16)).concat();
        kept.push((sections::crowd(objects), [&entry[..], &asked].concat()));
    }
    // every rest of every rate, in each sort of curve
    for s in sections::rated() {
        let calls = [TRANSLATION, ROTATION, SCALE].map(|code| Call { code, ..Call::default() }).to_vec();
        kept.push((s, calls));
    }
    // materials: tracks by their names, and two sections from numbers of their own, of which most are whole
    let own = &mut Rng::new(8);
    let mut pairs = sections::pairs()[2..9].to_vec();
    while pairs.len() < 31 {
        let (srt, pat) = sections::pair(own);
        if srt.len() + pat.len() <= 560 && (pairs.len() % 4 == 0 || Pair::new(&srt, 0, &pat, 0).whole()) {
            pairs.push((srt, pat));
        }
    }
    for (srt, pat) in pairs {
        let names = Pair::new(&srt, 0, &pat, 0).names();
        let calls = [(); 5].map(|_| Call {
            code: MATERIAL,
            entry: own.once_in(15) as u8,
            index: srt.len() as u16,
            part: own.once_in(15) as u8,
            frame: own.below(6) as u16,
            name: own.pick(&names),
            ..Call::default()
        });
        kept.push(([srt, pat].concat(), calls.to_vec()));
    }
    // patterns that are written
    kept.extend(writing_calls());
    // poses and clips
    kept.extend(posing_calls(&kept));
    // kinds and players
    kept.extend(player_calls(&kept));
    let count: usize = kept.iter().map(|(_, calls)| calls.len()).sum();
    let (mut list, mut behind, mut lines) = ((count as u16).to_le_bytes().to_vec(), Vec::<u8>::new(), String::new());
    // where each section stands: none stands there twice
    let mut places = HashMap::new();
    for (s, calls) in kept {
        let place = *places.entry(s.clone()).or_insert(behind.len());
        if place == behind.len() {
            behind.extend(&s);
        }
        for c in calls {
            list.extend(c.bytes(2 + SIZE * count + place, s.len()));
            let mut lent = c.lent();
            let number = answer(&s, &c, &mut lent).err().unwrap_or(0);
            lines += &lent.line(number);
        }
    }
    list.extend(behind);
    (list, lines)
}

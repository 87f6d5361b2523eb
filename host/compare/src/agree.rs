//! Each call against the Rust, on one section.
use crate::fill::{self, as_floats};
use crate::layout;
use crate::oracle::{self, Entry, Value};
use crate::rng::Rng;
use apicula::nitro::animation::{Curve, TRSCurves};
use apicula::nitro::rotation::{basis_mat, pivot_mat};
use apicula::util::bits::BitField;
use apicula::util::fixed::{fix16, fix32};
use apicula::{Matrix3, Vector3};
use motion::Refusal;
use std::panic::{catch_unwind, AssertUnwindSafe};

/// How much was compared.
#[derive(Default)]
pub struct Counts {
    pub sections: usize,
    pub entries: usize,
    pub accepted: usize,
    /// Sections and entries refused with each number.
    pub refused: [usize; 14],
    /// Names that were looked for.
    pub names: usize,
    pub matrices: usize,
    pub choices: usize,
    /// Answers for a material, and cuts of two sections.
    pub materials: usize,
    pub material_cuts: usize,
    /// Materials refused with each number.
    pub no_material: [usize; 15],
    pub curves: usize,
    /// Values of scales, both numbers of each.
    pub pairs: usize,
    pub resampled: usize,
    pub cuts: usize,
}

/// What did not agree.
pub type Agreed = Result<(), String>;

macro_rules! agree {
    ($left:expr, $right:expr, $($what:tt)+) => {
        let (left, right) = ($left, $right);
        if left != right {
            return Err(format!("{}: here {:?}, the Rust {:?}", format!($($what)+), left, right));
        }
    };
}

fn bits(m: [[f64; 4]; 4]) -> Vec<u64> {
    m.iter().flatten().map(|x| x.to_bits()).collect()
}

fn word16(s: &[u8], p: usize) -> u16 {
    u16::from_le_bytes([s[p], s[p + 1]])
}

fn word32(s: &[u8], p: usize) -> u32 {
    u32::from_le_bytes([s[p], s[p + 1], s[p + 2], s[p + 3]])
}

/// Frames around those where something changes, and others.
fn frames(around: &[u16], rng: &mut Rng) -> Vec<u16> {
    let mut frames = vec![0, 1, 2, 3, 65535, rng.next() as u16, rng.below(16) as u16, rng.below(300) as u16];
    for &f in around {
        frames.extend([f.wrapping_sub(2), f.wrapping_sub(1), f, f.wrapping_add(1)]);
    }
    frames
}

/// Everything that the Rust says of a section.
pub fn section(s: &[u8], rng: &mut Rng, counts: &mut Counts) -> Agreed {
    counts.sections += 1;
    let read = match oracle::read(s) {
        Err(n) => {
            agree!(motion::find(s, &[0; 16]), Err(Refusal(n)), "finding in a refused section");
            agree!(motion::check(s, 0), Err(Refusal(n)), "the check in a refused section");
            agree!(motion::number(s, 7), n, "the number of a check in a refused section");
            agree!(motion::list(s), format!("listing=2\nanswer={n}\n"), "the listing of a refused section");
            let number = if s.len() < 4 || s.starts_with(b"JNT0") { n } else { 1 };
            agree!(motion::scale_value(s, 0, 0, 0, 0), Err(Refusal(number)), "a scale's value in a refused section");
            counts.refused[n as usize] += 1;
            return Ok(());
        }
        Ok(entries) => entries,
    };
    agree!(read.iter().filter(|e| e.read).count(), oracle::kept(s), "the entries that the Rust keeps");
    finding(s, &read, counts)?;
    listing(s, &read)?;
    agree!(motion::check(s, read.len()), Err(Refusal(9)), "the entry after the last");
    agree!(motion::check(s, usize::MAX), Err(Refusal(9)), "the last index there is");
    let number = if s.starts_with(b"JNT0") { 9 } else { 1 };
    agree!(motion::scale_value(s, read.len(), 0, 0, 0), Err(Refusal(number)), "a scale's value of the entry after the last");
    for (i, e) in read.into_iter().enumerate() {
        entry(s, i, e, rng, counts).map_err(|m| format!("entry {i}: {m}"))?;
    }
    Ok(())
}

/// Names to look for: this one, with each byte a zero, with each byte another one, and with other bytes behind its zero.
fn sought(name: &[u8; 16]) -> Vec<[u8; 16]> {
    let with = |k: usize, byte: u8| {
        let mut other = *name;
        other[k] = byte;
        other
    };
    let mut names = vec![*name];
    names.extend((0..16).flat_map(|k| [with(k, 0), with(k, name[k].wrapping_add(1))]));
    let mut leftovers = *name;
    leftovers.iter_mut().skip_while(|b| **b != 0).skip(1).for_each(|b| *b = !*b);
    names.push(leftovers);
    names
}

/// The first entry whose name has the same front, or none where there is none.
fn finding(s: &[u8], read: &[Entry], counts: &mut Counts) -> Agreed {
    let there = read.iter().flat_map(|e| sought(&e.name));
    for name in there.chain([*b"no entry's name!"]) {
        let first = read.iter().position(|e| layout::front(&e.name) == layout::front(&name));
        let found = motion::find(s, &name);
        if found != Ok(first) {
            return Err(format!("finding {name:?} gives {found:?}, and the first entry with its front is {first:?}"));
        }
        counts.names += 1;
    }
    Ok(())
}

/// The listing, by what the Rust has read; the reach is the check's, which is held to the Rust by itself. A section of more than 65,536 bytes
/// is not listed.
fn listing(s: &[u8], read: &[Entry]) -> Agreed {
    if s.len() > 65_536 {
        agree!(motion::list(s), "listing=2\nanswer=13\n", "the listing of a long section");
        return Ok(());
    }
    let stamp = String::from_utf8_lossy(&s[..4]);
    let mut expected = format!("listing=2\nsection={stamp}\nentries={}\n", read.len());
    let (mut accepted, mut samples) = (0, 0);
    for (i, e) in read.iter().enumerate() {
        let name: String = e.name.iter().map(|b| format!("{b:02x}")).collect();
        expected += &format!("entry={i}\nname={name}\n");
        match &e.value {
            Err(n) => expected += &format!("answer={n}\n"),
            Ok(value) => {
                let reach = motion::check(s, i).map_or(0, |r| r.reach);
                let (frames, count) = oracle::frames_and_count(value);
                let count = if s.starts_with(b"JNT0") { format!("objects={count:03}") } else { format!("tracks={count}") };
                expected += &format!("answer=0\nreach={reach}\nframes={frames}\n{count}\n");
                accepted += 1;
                samples += oracle::samples(value);
            }
        }
    }
    expected += &format!("accepted={accepted}\nrefused={}\nsamples={samples}\n", read.len() - accepted);
    agree!(motion::list(s), expected, "the listing");
    Ok(())
}

fn entry(s: &[u8], i: usize, e: Entry, rng: &mut Rng, counts: &mut Counts) -> Agreed {
    counts.entries += 1;
    let value = match e.value {
        Err(n) => {
            agree!(motion::check(s, i), Err(Refusal(n)), "the check of a refused entry");
            agree!(motion::number(s, i), n, "the number of a refused entry");
            let refusal = Refusal(if s.starts_with(b"JNT0") { n } else { 1 });
            let before = rng.bytes(130);
            let mut out = before.clone();
            agree!(motion::matrix_bytes(s, i, 0, 0, &mut out), Err(refusal), "the matrix of a refused entry");
            agree!(out, before, "the slice of a refused matrix");
            agree!(motion::scale_value(s, i, 0, 0, 0), Err(refusal), "a scale's value of a refused entry");
            for resample in [motion::resample_translation, motion::resample_scale] {
                let before = fill::floats(rng, 8);
                let mut out = before.clone();
                agree!(resample(s, i, 0, as_floats(&mut out), 1), Err(refusal), "a refused entry resampled");
                agree!(out, before, "the slice of a refused entry");
            }
            counts.refused[n as usize] += 1;
            return Ok(());
        }
        Ok(value) => value,
    };
    counts.accepted += 1;
    let record = motion::check(s, i).map_err(|n| format!("{n}, where the Rust accepts"))?;
    agree!(motion::number(s, i), 0, "the number of an accepted entry");
    agree!(record.name, e.name, "the name");
    agree!((record.frames, record.count), oracle::frames_and_count(&value), "frames, and objects or tracks");
    reach(s, i, record.reach)?;
    match value {
        Value::Jnt(a) => {
            agree!(motion::matrix(s, i, record.count, 0), Err(Refusal(9)), "the object after the last");
            agree!(motion::scale_value(s, i, record.count, 0, 0), Err(Refusal(9)), "a scale's value of the object after the last");
            for (o, curves) in a.objects_curves.into_iter().enumerate() {
                object(s, i, o, e.offset, curves, rng, counts).map_err(|m| format!("object {o}: {m}"))?;
            }
        }
        Value::Srt(a) => {
            agree!(motion::uv_matrix(s, i, record.count, 0), Err(Refusal(9)), "the track after the last");
            for (t, track) in a.tracks.iter().enumerate() {
                agree!(motion::material_name(s, i, t), Ok(track.name.0), "the name of track {t}");
                agree!(motion::channel_curve(s, i, t, 5), Err(Refusal(9)), "channel 5");
                let mut ends = Vec::new();
                for (c, channel) in track.channels.iter().enumerate() {
                    let curve = motion::channel_curve(s, i, t, c);
                    let list = Some(layout::channel(s, i, t, c));
                    scalar(s, curve, &channel.curve, list, &|s, p, _| fix16(word16(s, p), 1, 10, 5))
                        .map_err(|m| format!("track {t}, channel {c}: {m}"))?;
                    ends.push(channel.num_frames);
                    counts.curves += 1;
                }
                for frame in frames(&ends[3..], rng) {
                    let m = motion::uv_matrix(s, i, t, frame).map(bits);
                    agree!(m, Ok(bits(track.eval_uv_mat(frame).columns)), "the matrix of track {t} at frame {frame}");
                    counts.matrices += 1;
                }
            }
        }
        Value::Pat(a) => {
            agree!(motion::choice(s, i, record.count, 0), Err(Refusal(9)), "the track after the last");
            for (ours, place, names) in [
                (motion::texture_names(s, i), layout::textures(s, i), &a.texture_names),
                (motion::palette_names(s, i), layout::palettes(s, i), &a.palette_names),
            ] {
                agree!(ours, Ok(motion::Place { place, length: names.len() }), "where the names stand, and how many there are");
                for (k, name) in names.iter().enumerate() {
                    agree!(&s[place + 16 * k..][..16], &name.0[..], "name {k}");
                }
            }
            for (t, track) in a.material_tracks.iter().enumerate() {
                agree!(motion::pattern_name(s, i, t), Ok(track.name.0), "the name of track {t}");
                let (place, length) = (layout::keys(s, i, t), track.keyframes.len());
                agree!(
                    motion::keys(s, i, t),
                    Ok(motion::Place { place, length }),
                    "where the keys of track {t} stand, and how many there are"
                );
                let mut changes = Vec::new();
                for (k, key) in track.keyframes.iter().enumerate() {
                    let bytes = &s[place + 4 * k..][..4];
                    let [lo, hi] = key.frame.to_le_bytes();
                    agree!(bytes, &[lo, hi, key.texture_idx, key.palette_idx][..], "key {k} of track {t}");
                    changes.push(key.frame);
                }
                for frame in frames(&changes, rng) {
                    let chosen = motion::choice(s, i, t, frame).map(|c| (c.texture, c.palette));
                    // without keys the Rust panics
                    let expected = catch_unwind(AssertUnwindSafe(|| track.sample(frame))).map_err(|_| Refusal(10));
                    agree!(chosen, expected, "the choice of track {t} at frame {frame}");
                    counts.choices += 1;
                }
            }
        }
    }
    Ok(())
}

/// The reach: with it the Rust accepts the entry, with a byte less it does not.
fn reach(s: &[u8], i: usize, reach: usize) -> Agreed {
    let accepts = |front: &[u8]| matches!(oracle::read(front), Ok(entries) if entries[i].value.is_ok());
    agree!(accepts(&s[..reach]), true, "the entry in the {reach} bytes of its reach");
    agree!(accepts(&s[..reach - 1]), false, "the entry in a byte less than its reach of {reach}");
    Ok(())
}

/// A curve of numbers: its record, and the values that stand at its place.
fn scalar(
    s: &[u8],
    ours: motion::Result<motion::Curve<f64>>,
    theirs: &Curve<f64>,
    list: Option<layout::List>,
    value: &dyn Fn(&[u8], usize, usize) -> f64,
) -> Agreed {
    let ours = ours.map_err(|n| n.to_string())?;
    match (ours, theirs) {
        (motion::Curve::None, Curve::None) => Ok(()),
        (motion::Curve::Constant(x), Curve::Constant(y)) => {
            agree!(x.to_bits(), y.to_bits(), "the constant");
            Ok(())
        }
        (motion::Curve::List(l), Curve::Samples { start_frame, end_frame, values }) => {
            agree!(Some(l), list.map(|x| x.record(*start_frame, *end_frame, values.len())), "the list's record");
            for (k, v) in values.iter().enumerate() {
                agree!(value(s, l.place + l.size * k, l.size).to_bits(), v.to_bits(), "value {k}");
            }
            Ok(())
        }
        _ => Err(format!("another kind of curve: {ours:?}")),
    }
}

fn rotation(
    s: &[u8],
    entry: usize,
    ours: motion::Result<motion::Curve<motion::Rotation>>,
    theirs: &Curve<Matrix3<f64>>,
    list: Option<layout::List>,
) -> Agreed {
    let ours = ours.map_err(|n| n.to_string())?;
    let nine = |m: [[f64; 3]; 3]| m.iter().flatten().map(|x| x.to_bits()).collect::<Vec<_>>();
    match (ours, theirs) {
        (motion::Curve::None, Curve::None) => Ok(()),
        (motion::Curve::Constant(m), Curve::Constant(n)) => {
            agree!(nine(m), nine(n.columns), "the constant rotation");
            Ok(())
        }
        (motion::Curve::List(l), Curve::Samples { start_frame, end_frame, values }) => {
            agree!(Some(l), list.map(|x| x.record(*start_frame, *end_frame, values.len())), "the list's record");
            let (pivot, basis) = (entry + word32(s, entry + 12) as usize, entry + word32(s, entry + 16) as usize);
            for (k, v) in values.iter().enumerate() {
                let x = word16(s, l.place + 2 * k);
                let n = x.bits(0, 15) as usize;
                let m = if x >> 15 == 1 {
                    let w = |k: usize| word16(s, pivot + 6 * n + 2 * k);
                    pivot_mat(w(0).bits(0, 4), w(0).bits(4, 8), fix16(w(1), 1, 3, 12), fix16(w(2), 1, 3, 12))
                } else {
                    let w = |k: usize| word16(s, basis + 10 * n + 2 * k);
                    basis_mat((w(0), w(1), w(2), w(3), w(4)))
                };
                agree!(nine(m.columns), nine(v.columns), "rotation {k}");
            }
            Ok(())
        }
        _ => Err(format!("another kind of curve: {ours:?}")),
    }
}

/// A curve of pairs by its first numbers, which the Rust has too.
fn first(c: motion::Curve<motion::Pair>) -> motion::Curve<f64> {
    match c {
        motion::Curve::None => motion::Curve::None,
        motion::Curve::Constant(v) => motion::Curve::Constant(v.first),
        motion::Curve::List(l) => motion::Curve::List(l),
    }
}

fn both(v: motion::Pair) -> [u64; 2] {
    [v.first, v.second].map(f64::to_bits)
}

/// The values of a scale's axis: each pair as the layout has it, its first number as the Rust has it, and 9 past them.
fn pairs(
    s: &[u8],
    i: usize,
    o: usize,
    axis: usize,
    ours: motion::Result<motion::Curve<motion::Pair>>,
    stored: &[motion::Pair],
    theirs: &Curve<f64>,
) -> Agreed {
    let firsts: Vec<u64> = match theirs {
        Curve::None => vec![],
        Curve::Constant(x) => vec![x.to_bits()],
        Curve::Samples { values, .. } => values.iter().map(|x| x.to_bits()).collect(),
    };
    agree!(stored.len(), firsts.len(), "how many values the layout has");
    if let Ok(motion::Curve::Constant(v)) = ours {
        agree!(both(v), both(stored[0]), "the constant's two numbers, as the layout has them");
    }
    for (k, (&pair, &x)) in stored.iter().zip(&firsts).enumerate() {
        let v = motion::scale_value(s, i, o, axis, k).map(both);
        agree!(v, Ok(both(pair)), "the numbers of value {k}, as the layout has them");
        agree!(v.map(|b| b[0]), Ok(x), "the first number of value {k}");
    }
    for past in [stored.len(), stored.len() + 1, usize::MAX] {
        agree!(motion::scale_value(s, i, o, axis, past), Err(Refusal(9)), "value {past}, past the last");
    }
    Ok(())
}

fn ends<T>(c: &Curve<T>) -> Vec<u16> {
    match c {
        Curve::Samples { start_frame, end_frame, .. } => vec![*start_frame, (*start_frame + *end_frame) / 2, *end_frame],
        _ => vec![],
    }
}

fn object(s: &[u8], i: usize, o: usize, offset: usize, curves: TRSCurves, rng: &mut Rng, counts: &mut Counts) -> Agreed {
    // two or four bytes a number, once for a translation and twice for a scale
    let translation =
        |s: &[u8], p: usize, size: usize| if size == 4 { fix32(word32(s, p), 1, 19, 12) } else { fix16(word16(s, p), 1, 3, 12) };
    let scale = |s: &[u8], p: usize, size: usize| if size == 8 { fix32(word32(s, p), 1, 19, 12) } else { fix16(word16(s, p), 1, 3, 12) };
    let lists = layout::object(s, i, o);
    let stored = layout::scale(s, i, o);
    for axis in 0..3 {
        scalar(s, motion::translation_curve(s, i, o, axis), &curves.trans[axis], lists[axis], &translation)
            .map_err(|m| format!("translation {axis}: {m}"))?;
        let ours = motion::scale_curve(s, i, o, axis);
        scalar(s, ours.map(first), &curves.scale[axis], lists[4 + axis], &scale).map_err(|m| format!("scale {axis}: {m}"))?;
        pairs(s, i, o, axis, ours, &stored[axis], &curves.scale[axis]).map_err(|m| format!("scale {axis}: {m}"))?;
        counts.pairs += stored[axis].len();
        counts.curves += 2;
    }
    for axis in [3, usize::MAX] {
        agree!(motion::translation_curve(s, i, o, axis), Err(Refusal(9)), "translation axis {axis}");
        agree!(motion::scale_curve(s, i, o, axis), Err(Refusal(9)), "scale axis {axis}");
        agree!(motion::scale_value(s, i, o, axis, 0), Err(Refusal(9)), "a value of scale axis {axis}");
    }
    rotation(s, offset, motion::rotation_curve(s, i, o), &curves.rotation, lists[3])?;
    counts.curves += 1;

    let mut around = ends(&curves.rotation);
    curves.trans.iter().chain(&curves.scale).for_each(|c| around.extend(ends(c)));
    for frame in frames(&around, rng) {
        let m = motion::matrix(s, i, o, frame).map(bits);
        agree!(m, Ok(bits(curves.sample_at(frame).columns)), "the matrix at frame {frame}");
        counts.matrices += 1;
    }
    let room = rng.below(140);
    let before = rng.bytes(room);
    let mut out = before.clone();
    let small = room < 128;
    agree!(motion::matrix_bytes(s, i, o, 1, &mut out).is_err(), small, "a matrix into {room} bytes");
    let written = if small { 0 } else { 128 };
    agree!(&out[written..], &before[written..], "what stands behind the matrix");

    let TRSCurves { trans, scale, .. } = curves;
    resample(s, i, o, motion::resample_translation, trans, true, rng).map_err(|m| format!("translation resampled: {m}"))?;
    resample(s, i, o, motion::resample_scale, scale, false, rng).map_err(|m| format!("scale resampled: {m}"))?;
    counts.resampled += 2;
    Ok(())
}

type Resample = fn(&[u8], usize, usize, &mut [f64], usize) -> motion::Result<motion::Resampled>;

fn resample(s: &[u8], i: usize, o: usize, call: Resample, axes: [Curve<f64>; 3], is_translation: bool, rng: &mut Rng) -> Agreed {
    let theirs = oracle::resampled(axes, is_translation);
    let place = rng.below(4);
    let (needed, expected): (usize, Result<(Option<(u16, u16)>, Vec<Vector3<f64>>), u32>) = match theirs {
        None => (0, Err(10)),
        Some(Curve::None) => (place, Ok((None, vec![]))),
        Some(Curve::Constant(_)) => return Err("the Rust gives a constant".into()),
        Some(Curve::Samples { start_frame, end_frame, values }) => (place + 3 * values.len(), Ok((Some((start_frame, end_frame)), values))),
    };
    let room = match rng.below(3) {
        0 => needed.saturating_sub(1),
        1 => needed,
        _ => needed + rng.below(5),
    };
    let mut after = fill::floats(rng, room);
    let mut out = after.clone();
    let ours = call(s, i, o, as_floats(&mut out), place);
    let expected = match expected {
        Err(n) => Err(Refusal(n)),
        Ok(_) if room < needed => Err(Refusal(11)),
        Ok((span, values)) => {
            for (k, v) in values.iter().enumerate() {
                after[place + 3 * k..][..3].copy_from_slice(&[v.x, v.y, v.z].map(f64::to_bits));
            }
            Ok(motion::Resampled { span, frames: values.len() })
        }
    };
    agree!(ours, expected, "the answer, from place {place} in {room}");
    agree!(&out, &after, "the bits in the slice, from place {place} in {room}");
    let far = call(s, i, o, as_floats(&mut out), usize::MAX).err();
    agree!(far, Some(Refusal(if ours == Err(Refusal(10)) { 10 } else { 11 })), "the last place there is");
    agree!(out, after, "the bits in the slice, from the last place there is");
    Ok(())
}

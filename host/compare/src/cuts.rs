//! What a cut does, tried on the compiled code: every call on the front, with other bytes behind it, and on the section as it was.
use crate::agree::{Agreed, Counts};
use crate::fill::{self, as_floats};
use crate::layout;
use crate::rng::Rng;

/// The number of a call, and all that it answers as words.
type Answer = Vec<u64>;

fn words<T>(answer: motion::Result<T>, say: impl Fn(T) -> Vec<u64>) -> Answer {
    match answer {
        Err(n) => vec![n.0 as u64],
        Ok(value) => [vec![0], say(value)].concat(),
    }
}

fn floats(m: &[f64]) -> Vec<u64> {
    m.iter().map(|x| x.to_bits()).collect()
}

fn curve<T>(c: motion::Curve<T>, say: impl Fn(T) -> Vec<u64>) -> Vec<u64> {
    match c {
        motion::Curve::None => vec![0],
        motion::Curve::Constant(v) => [vec![1], say(v)].concat(),
        motion::Curve::List(l) => layout::words(l).to_vec(),
    }
}

/// What slices hold before each call, floats as bits.
struct Fill {
    floats: Vec<u64>,
    bytes: Vec<u8>,
}

/// The elements before and behind the written ones, which start at `place`, are as they were.
fn kept<T: PartialEq>(before: &[T], after: &[T], place: usize, written: usize) -> Result<(), String> {
    let end = place + written;
    match before[..place] == after[..place] && before[end..] == after[end..] {
        true => Ok(()),
        false => Err("another element than those to be written has changed".into()),
    }
}

/// What every call answers on an entry, of its first three objects or tracks, its last, and past it.
fn answers(s: &[u8], i: usize, count: usize, fill: &Fill) -> Result<Vec<Answer>, String> {
    let mut all = vec![words(motion::check(s, i), |r| {
        let name = u128::from_le_bytes(r.name);
        vec![name as u64, (name >> 64) as u64, r.reach as u64, r.frames as u64, r.count as u64]
    })];
    let place = |p: motion::Place| vec![p.place as u64, p.length as u64];
    let name = |n: [u8; 16]| n.iter().map(|&b| b as u64).collect();
    all.push(words(motion::texture_names(s, i), place));
    all.push(words(motion::palette_names(s, i), place));
    for k in (0..=count).filter(|&k| k < 3 || k + 1 >= count) {
        for frame in [0, 1, 3, 7, 200] {
            all.push(words(motion::matrix(s, i, k, frame), |m| floats(m.as_flattened())));
            all.push(words(motion::uv_matrix(s, i, k, frame), |m| floats(m.as_flattened())));
            all.push(words(motion::choice(s, i, k, frame), |c| vec![c.texture as u64, c.palette as u64]));
        }
        for axis in 0..4 {
            all.push(words(motion::translation_curve(s, i, k, axis), |c| curve(c, |x| vec![x.to_bits()])));
            all.push(words(motion::scale_curve(s, i, k, axis), |c| curve(c, |v| floats(&[v.first, v.second]))));
            for index in [0, 1, 6] {
                all.push(words(motion::scale_value(s, i, k, axis, index), |v| floats(&[v.first, v.second])));
            }
            all.push(words(motion::channel_curve(s, i, k, axis + 2), |c| curve(c, |x| vec![x.to_bits()])));
        }
        all.push(words(motion::rotation_curve(s, i, k), |c| curve(c, |m| floats(m.as_flattened()))));
        all.push(words(motion::material_name(s, i, k), name));
        all.push(words(motion::pattern_name(s, i, k), name));
        all.push(words(motion::keys(s, i, k), place));
        for resample in [motion::resample_translation, motion::resample_scale] {
            let mut out = fill.floats.clone();
            let resampled = resample(s, i, k, as_floats(&mut out), 2);
            kept(&fill.floats, &out, 2, resampled.map_or(0, |r| 3 * r.frames))?;
            let mut answer = words(resampled, |r| {
                let (start, end) = r.span.unwrap_or((9, 9));
                vec![r.span.is_some() as u64, start as u64, end as u64, r.frames as u64]
            });
            // what stands in the slice is a part of the answer
            answer.extend(out);
            all.push(answer);
        }
        for room in [120, 131] {
            let mut out = fill.bytes[..room].to_vec();
            let matrix = motion::matrix_bytes(s, i, k, 0, &mut out);
            kept(&fill.bytes[..room], &out, 0, matrix.map_or(0, |_| 128))?;
            all.push(words(matrix, |_| out.iter().map(|&b| b as u64).collect()));
        }
    }
    Ok(all)
}

/// The name of an entry, or some name where the section is refused.
fn name_of(s: &[u8], i: usize) -> [u8; 16] {
    match motion::find(s, &[0; 16]) {
        Ok(_) => s[layout::names(s) + 16 * i..][..16].try_into().unwrap(),
        Err(_) => *b"no entry's name!",
    }
}

/// Finding reads the info block and no entry: so from the block's end on it answers as before, and a shorter front is too short.
fn finding(s: &[u8], k: usize, tail: &[u8], name: &[u8; 16]) -> Agreed {
    let [uncut, front, with_tail] = [s, &s[..k], tail].map(|t| motion::find(t, name));
    let short = Err(motion::Refusal(2));
    let holds = match uncut {
        Ok(_) if layout::names_end(s) <= k => front == uncut && with_tail == uncut,
        Ok(_) => front == short,
        Err(_) => front == short || front == with_tail,
    };
    match holds {
        true => Ok(()),
        false => Err(format!("{front:?}, with a tail {with_tail:?}, uncut {uncut:?}")),
    }
}

/// Every cut of a section.
pub fn every(s: &[u8], rng: &mut Rng, counts: &mut Counts) -> Agreed {
    let entries = (0..).take_while(|&i| motion::number(s, i) != 9 && i < 4).count();
    for i in 0..entries {
        let record = motion::check(s, i);
        let count = record.map_or(1, |r| r.count);
        let name = name_of(s, i);
        let fill = Fill { floats: fill::floats(rng, 40), bytes: rng.bytes(131) };
        let uncut = answers(s, i, count, &fill)?;
        for k in 0..=s.len() {
            counts.cuts += 1;
            let front = answers(&s[..k], i, count, &fill)?;
            let n = rng.below(20);
            let tail = [s[..k].to_vec(), rng.bytes(n)].concat();
            let with_tail = answers(&tail, i, count, &fill)?;
            finding(s, k, &tail, &name).map_err(|m| format!("finding {name:?}, cut at {k}: {m}"))?;
            for (call, before) in front.iter().enumerate() {
                let at = |what| Err(format!("entry {i}, cut at {k}, call {call}: {what}"));
                if before[0] != 0 && before[0] != 2 && with_tail[call][0] != before[0] {
                    return at("a refusal did not stay");
                }
                if let Ok(r) = record {
                    if r.reach <= k && (before != &uncut[call] || with_tail[call] != uncut[call]) {
                        return at("another answer from the reach on");
                    }
                    if k < r.reach && before[0] != 2 && uncut[call][0] != 1 {
                        return at("not too short before the reach");
                    }
                }
            }
        }
    }
    Ok(())
}

//! Poses and clips: all objects of a JNT0 entry at a frame or at several, held to the Rust, which reads the entry once and samples each object at
//! each frame; and what a cut does.
use crate::agree::Agreed;
use crate::fill;
use crate::oracle::{self, Value};
use crate::rng::Rng;
use apicula::nitro::animation::Animation;

extern "C" {
    fn motion_pose(s: *const u8, length: usize, entry: usize, frame: u16, out: *mut u64, count: usize, objects: *mut u64) -> u32;
    fn motion_clip(
        s: *const u8,
        length: usize,
        entry: usize,
        first: u16,
        frames: usize,
        out: *mut u64,
        count: usize,
        objects: *mut u64,
    ) -> u32;
}

/// How much was compared.
#[derive(Default)]
pub struct Counts {
    /// Answers for a pose and for a clip, refused ones among them.
    pub poses: usize,
    pub clips: usize,
    pub matrices: usize,
    /// Poses and clips refused with each number.
    pub refused: [usize; 13],
    pub cuts: usize,
    /// Slices that fit, that are longer, and that are one float too short.
    rooms: [usize; 3],
    /// Clips of no frames, past the animation's end, of all its frames, up to frame 65,535, and of more frames than can be counted in 32 bits.
    none: usize,
    late: usize,
    all: usize,
    last: usize,
    vast: usize,
}

impl Counts {
    /// What should have occurred and did not.
    pub fn missing(&self) -> Vec<String> {
        let [fitting, longer, short] = self.rooms;
        let named = [
            (fitting, "slice that fits"),
            (longer, "slice that is longer"),
            (short, "slice that is too short by one"),
            (self.none, "clip of no frames"),
            (self.late, "clip past the end"),
            (self.all, "clip of all frames"),
            (self.last, "clip up to the last frame there is"),
            (self.vast, "clip of vast length"),
        ];
        let numbers = [1, 2, 9, 11, 12].map(|n| (self.refused[n], format!("pose or clip refused with {n}")));
        let all = named.map(|(count, what)| (count, what.to_string())).into_iter().chain(numbers);
        all.filter(|(count, _)| *count == 0).map(|(_, what)| format!("no {what}")).collect()
    }
}

/// What is asked of an entry: a pose, or a clip.
#[derive(Clone, Copy, Debug)]
enum Asked {
    Pose(u16),
    Clip(u16, usize),
}

impl Asked {
    /// The first frame, and how many there are.
    fn frames(self) -> (u16, usize) {
        match self {
            Asked::Pose(frame) => (frame, 1),
            Asked::Clip(first, frames) => (first, frames),
        }
    }

    /// How many floats it takes of so many objects. 128 bits hold that, whatever is asked.
    fn floats(self, objects: usize) -> u128 {
        16 * objects as u128 * self.frames().1 as u128
    }
}

/// The number, and what is lent as it stands afterwards, floats as their bits.
#[derive(PartialEq)]
struct After {
    number: u32,
    objects: u64,
    floats: Vec<u64>,
}

/// What a call here does to a slice, and to the word for the objects.
fn ours(s: &[u8], i: usize, asked: Asked, mut floats: Vec<u64>, mut objects: u64) -> After {
    let (p, length, out, count, told) = (s.as_ptr(), s.len(), floats.as_mut_ptr(), floats.len(), &mut objects);
    let number = match asked {
        Asked::Pose(frame) => unsafe { motion_pose(p, length, i, frame, out, count, told) },
        Asked::Clip(first, frames) => unsafe { motion_clip(p, length, i, first, frames, out, count, told) },
    };
    After { number, objects, floats }
}

/// What is expected of it, by the Rust's samples.
fn expected(read: Result<&Animation, u32>, asked: Asked, mut floats: Vec<u64>, objects: u64) -> After {
    let number = match read {
        Err(n) => n,
        Ok(a) => {
            let (first, frames) = asked.frames();
            let count = a.objects_curves.len();
            if first as u128 + frames as u128 > 65_536 {
                9
            } else if asked.floats(count) > floats.len() as u128 {
                11
            } else {
                for f in 0..frames {
                    for (o, curves) in a.objects_curves.iter().enumerate() {
                        let m = curves.sample_at((first as usize + f) as u16);
                        let place = 16 * (count * f + o);
                        floats[place..place + 16].iter_mut().zip(m.columns.iter().flatten()).for_each(|(float, x)| *float = x.to_bits());
                    }
                }
                return After { number: 0, objects: count as u64, floats };
            }
        }
    };
    After { number, objects, floats }
}

/// The call and the Rust on a slice of so many floats.
fn compare(s: &[u8], i: usize, read: Result<&Animation, u32>, asked: Asked, room: usize, rng: &mut Rng, counts: &mut Counts) -> Agreed {
    let (floats, objects) = (fill::floats(rng, room), rng.next());
    let ours = ours(s, i, asked, floats.clone(), objects);
    let theirs = expected(read, asked, floats, objects);
    if ours != theirs {
        let differ = ours.floats.iter().zip(&theirs.floats).enumerate().find(|(_, (x, y))| x != y);
        let at = differ.map_or(String::new(), |(k, (x, y))| format!("; float {k}: here {x:016x}, the Rust {y:016x}"));
        let [here, there] = [&ours, &theirs].map(|after| (after.number, after.objects));
        return Err(format!("entry {i}, {asked:?} into {room} floats (objects {objects}): here {here:?}, the Rust {there:?}{at}"));
    }
    match asked {
        Asked::Pose(_) => counts.poses += 1,
        Asked::Clip(..) => counts.clips += 1,
    }
    if theirs.number != 0 {
        counts.refused[theirs.number as usize] += 1;
    } else {
        counts.matrices += theirs.objects as usize * asked.frames().1;
    }
    Ok(())
}

/// A frame: near the first, near the last of the animation, past it, or any.
fn frame(last: u16, rng: &mut Rng) -> u16 {
    match rng.below(6) {
        0 => 0,
        1 => rng.below(16) as u16,
        2 | 3 => last.saturating_add(2).saturating_sub(rng.below(5) as u16),
        4 => 65_535,
        _ => rng.next() as u16,
    }
}

/// Something to ask of an entry that may be refused, with frames past 65,536 among it.
fn anything(rng: &mut Rng) -> Asked {
    let first = frame(20, rng);
    match rng.below(4) {
        0 => Asked::Pose(first),
        1 => Asked::Clip(first, rng.below(4)),
        2 => Asked::Clip(first, 65_536 - first as usize + rng.below(3)),
        _ => Asked::Clip(first, usize::MAX - rng.below(70_000)),
    }
}

/// An accepted entry.
fn accepted(s: &[u8], i: usize, a: &Animation, rng: &mut Rng, counts: &mut Counts) -> Agreed {
    let objects = a.objects_curves.len();
    let end = a.num_frames;
    // into a slice that fits, a longer one, and one that is too short by one; of a crowd into one of them
    let mut fitted = |asked: Asked, once: bool, rng: &mut Rng| -> Agreed {
        let needed = asked.floats(objects) as usize;
        let chosen = rng.below(3);
        for (kind, room) in [needed, needed + 1 + rng.below(20), needed.saturating_sub(1)].into_iter().enumerate() {
            if (!once || kind == chosen) && (kind < 2 || needed > 0) {
                compare(s, i, Ok(a), asked, room, rng, counts)?;
                counts.rooms[kind] += 1;
            }
        }
        Ok(())
    };
    let many = objects > 50;
    fitted(Asked::Pose(frame(end, rng)), many, rng)?;
    let (first, few) = (frame(end, rng), if many { 1 + rng.below(2) } else { rng.below(4) });
    let few = few.min(65_536 - first as usize);
    fitted(Asked::Clip(first, few), many, rng)?;
    // all frames and some more, and the last ones that there are
    let (more, left) = (end as usize + rng.below(4), 1 + rng.below(3));
    let small = objects * more <= 250 && rng.once_in(2);
    if small {
        fitted(Asked::Clip(0, more), true, rng)?;
    }
    let last = (65_536 - left) as u16;
    fitted(Asked::Clip(last, left), true, rng)?;
    // one more, and far more: also where the frames, or sixteen times them, come to few in 64, 32 or 16 bits
    let round = 0usize.wrapping_sub(first as usize);
    let vast =
        rng.pick(&[usize::MAX, usize::MAX - first as usize, round, round.wrapping_add(1), 1 << 63, 1 << 60, 1 << 59, 1 << 32, 1 << 16]);
    let room = rng.below(3) * 16 * objects;
    for asked in [Asked::Clip(last, left + 1), Asked::Clip(first, vast), Asked::Clip(first, 65_536 - first as usize), Asked::Clip(first, 0)]
    {
        compare(s, i, Ok(a), asked, room, rng, counts)?;
    }
    counts.none += 1;
    counts.late += usize::from(few > 0 && first >= end);
    counts.all += usize::from(small);
    counts.last += 1;
    counts.vast += usize::from(vast > 1 << 32);
    Ok(())
}

/// Everything that the Rust says of a section's poses and clips.
pub fn section(s: &[u8], rng: &mut Rng, counts: &mut Counts) -> Agreed {
    // the number where no entry is of a JNT0 section
    let other = (s.len() >= 4 && !s.starts_with(b"JNT0")).then_some(1);
    let refused = |i: usize, n: u32, rng: &mut Rng, counts: &mut Counts| {
        let (asked, room) = (anything(rng), rng.below(40));
        compare(s, i, Err(other.unwrap_or(n)), asked, room, rng, counts)
    };
    let entries = match oracle::read(s) {
        Err(n) => {
            let i = rng.pick(&[0, 1, 7, usize::MAX]);
            return refused(i, n, rng, counts);
        }
        Ok(entries) => entries,
    };
    refused(entries.len(), 9, rng, counts)?;
    refused(usize::MAX, 9, rng, counts)?;
    for (i, e) in entries.into_iter().enumerate() {
        match e.value {
            Ok(Value::Jnt(a)) => accepted(s, i, &a, rng, counts)?,
            Ok(_) => refused(i, 1, rng, counts)?,
            Err(n) => refused(i, n, rng, counts)?,
        }
    }
    Ok(())
}

/// A clip of all frames that there are, of the first entry, into a slice that fits, a longer one, and one that is too short by one.
pub fn longest(s: &[u8], rng: &mut Rng, counts: &mut Counts) -> Agreed {
    let Ok(Value::Jnt(a)) = oracle::read(s).unwrap().swap_remove(0).value else {
        return Err("the Rust refuses it".into());
    };
    let asked = Asked::Clip(0, 65_536);
    let needed = asked.floats(a.objects_curves.len()) as usize;
    for room in [needed, needed + 3, needed - 1] {
        compare(s, 0, Ok(&a), asked, room, rng, counts)?;
    }
    Ok(())
}

/// Every cut of a section: poses and clips of its entries on the front, with other bytes behind it, and on the section as it was.
pub fn cuts(s: &[u8], rng: &mut Rng, counts: &mut Counts) -> Agreed {
    let entries = (0..).take_while(|&i| motion::number(s, i) != 9 && i < 4).count();
    for i in 0..entries {
        let record = motion::check(s, i);
        let (count, end) = record.map_or((1, 1), |r| (r.count, r.frames));
        let room = 16 * count;
        let first = frame(end, rng).min(65_533);
        let asked = [
            (Asked::Pose(frame(end, rng)), room + 3),
            (Asked::Pose(frame(end, rng)), room.saturating_sub(1)),
            (Asked::Clip(first, 2), 2 * room),
            (Asked::Clip(first, 3), 2 * room + 15),
            (Asked::Clip(65_535, 2), 2),
            (Asked::Clip(first, 0), 0),
        ];
        // a crowd is asked for one pose, and that in too short a slice
        let asked = if count > 50 { &asked[..2] } else { &asked };
        let lent: Vec<_> = asked.iter().map(|&(asked, room)| (asked, fill::floats(rng, room), rng.next())).collect();
        let answers =
            |s: &[u8]| lent.iter().map(|(asked, floats, objects)| ours(s, i, *asked, floats.clone(), *objects)).collect::<Vec<_>>();
        let uncut = answers(s);
        for k in 0..=s.len() {
            counts.cuts += 1;
            let n = rng.below(20);
            let tail = [s[..k].to_vec(), rng.bytes(n)].concat();
            let (front, with_tail) = (answers(&s[..k]), answers(&tail));
            for (call, (_, floats, objects)) in lent.iter().enumerate() {
                let (uncut, front, with_tail) = (&uncut[call], &front[call], &with_tail[call]);
                let at = |what: &str| {
                    let numbers = [uncut, front, with_tail].map(|after| after.number);
                    Err(format!("entry {i}, cut at {k}, {:?}: {what}; uncut, front, with a tail {numbers:?}", asked[call]))
                };
                if [front, with_tail].iter().any(|after| after.number != 0 && (&after.floats, &after.objects) != (floats, objects)) {
                    return at("a refused call has written");
                }
                if front.number != 0 && front.number != 2 && with_tail.number != front.number {
                    return at("a refusal did not stay");
                }
                if let Ok(r) = record {
                    if r.reach <= k && (front != uncut || with_tail != uncut) {
                        return at("another answer from the reach on");
                    }
                    if k < r.reach && front.number != 2 && uncut.number != 1 {
                        return at("not too short before the reach");
                    }
                }
            }
        }
    }
    Ok(())
}

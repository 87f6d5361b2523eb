//! Materials: an SRT0 and a PAT0 section together, held to the Rust's samplers joined by name, and what a cut of both does.
use crate::agree::{Agreed, Counts};
use crate::layout;
use crate::oracle::{self, Value};
use crate::rng::Rng;
use apicula::nitro::material_animation::MaterialAnimation;
use apicula::nitro::pattern::Pattern;

/// The bits of the shift, and the texture and the palette if they are chosen; or the number of the refusal.
pub type Answer = Result<([u64; 2], Option<(u8, u8)>), u32>;

/// Two sections with an entry of each, and what the Rust reads of them.
pub struct Pair<'a> {
    srt: &'a [u8],
    srt_entry: usize,
    pat: &'a [u8],
    pat_entry: usize,
    read: Result<(MaterialAnimation, Pattern), u32>,
}

/// An entry of a section that is to have this stamp.
fn entry(s: &[u8], stamp: &[u8; 4], i: usize) -> Result<Value, u32> {
    if s.len() >= 4 && !s.starts_with(stamp) {
        return Err(1);
    }
    oracle::read(s)?.into_iter().nth(i).ok_or(9u32)?.value
}

fn both(srt: &[u8], srt_entry: usize, pat: &[u8], pat_entry: usize) -> Result<(MaterialAnimation, Pattern), u32> {
    match (entry(srt, b"SRT0", srt_entry)?, entry(pat, b"PAT0", pat_entry)?) {
        (Value::Srt(a), Value::Pat(b)) => Ok((a, b)),
        _ => unreachable!("a section is of its stamp's kind"),
    }
}

impl<'a> Pair<'a> {
    pub fn new(srt: &'a [u8], srt_entry: usize, pat: &'a [u8], pat_entry: usize) -> Self {
        Pair { srt, srt_entry, pat, pat_entry, read: both(srt, srt_entry, pat, pat_entry) }
    }

    /// Whether the Rust reads both entries.
    pub fn whole(&self) -> bool {
        self.read.is_ok()
    }

    /// What the Rust's samplers give of the first track on each side whose name has the same front.
    pub fn expected(&self, name: &[u8; 16], frame: u16) -> Answer {
        let (a, b) = self.read.as_ref().map_err(|&n| n)?;
        let same = |track: &[u8; 16]| layout::front(track) == layout::front(name);
        let shifted = a.tracks.iter().find(|t| same(&t.name.0));
        let chosen = b.material_tracks.iter().find(|t| same(&t.name.0));
        if shifted.is_none() && chosen.is_none() {
            return Err(14);
        }
        let column = shifted.map_or([0.0; 4], |t| t.eval_uv_mat(frame).columns[3]);
        let choice = match chosen {
            Some(t) if t.keyframes.is_empty() => return Err(10),
            found => found.map(|t| t.sample(frame)),
        };
        Ok(([column[0].to_bits(), column[1].to_bits()], choice))
    }

    /// The names of all tracks, each with other bytes behind its zero too; an empty one, and one that no track has.
    pub fn names(&self) -> Vec<[u8; 16]> {
        let mut names = vec![[0; 16], *b"no track's name!"];
        if let Ok((a, b)) = &self.read {
            for name in a.tracks.iter().map(|t| t.name.0).chain(b.material_tracks.iter().map(|t| t.name.0)) {
                let mut leftovers = name;
                leftovers.iter_mut().skip_while(|b| **b != 0).skip(1).for_each(|b| *b = !*b);
                names.extend([name, leftovers]);
            }
        }
        names
    }

    fn compare(&self, frames: &[u16], counts: &mut Counts) -> Agreed {
        for name in self.names() {
            for &frame in frames {
                let ours = answer(self.srt, self.srt_entry, self.pat, self.pat_entry, &name, frame);
                let theirs = self.expected(&name, frame);
                if ours != theirs {
                    let entries = (self.srt_entry, self.pat_entry);
                    return Err(format!(
                        "the material {name:?} of entries {entries:?} at frame {frame}: here {ours:?}, the Rust {theirs:?}"
                    ));
                }
                counts.materials += 1;
                if let Err(n) = theirs {
                    counts.no_material[n as usize] += 1;
                }
            }
        }
        Ok(())
    }
}

fn answer(srt: &[u8], srt_entry: usize, pat: &[u8], pat_entry: usize, name: &[u8; 16], frame: u16) -> Answer {
    let material = motion::material(srt, srt_entry, pat, pat_entry, name, frame).map_err(|n| n.0)?;
    Ok((material.shift.map(f64::to_bits), material.choice.map(|c| (c.texture, c.palette))))
}

/// Everything that the Rust says of two sections together.
pub fn sections(srt: &[u8], pat: &[u8], rng: &mut Rng, counts: &mut Counts) -> Agreed {
    let frames = [0, 1, 3, 4, 65535, rng.below(24) as u16, rng.next() as u16];
    for (i, j) in [(0, 0), (rng.below(4), rng.below(4))] {
        Pair::new(srt, i, pat, j).compare(&frames, counts)?;
    }
    for (i, j) in [(usize::MAX, 0), (0, usize::MAX)] {
        Pair::new(srt, i, pat, j).compare(&frames[..1], counts)?;
    }
    Ok(())
}

/// Every cut of the one section with some of the other, and the other way round.
pub fn cuts(srt: &[u8], pat: &[u8], rng: &mut Rng, counts: &mut Counts) -> Agreed {
    let names = Pair::new(srt, 0, pat, 0).names();
    let reach = |s| motion::check(s, 0).map(|r| r.reach);
    let (srt_reach, pat_reach) = (reach(srt), reach(pat));
    // where the other is cut: nowhere, around its reach, and anywhere
    let some = |s: &[u8], reach: motion::Result<usize>, rng: &mut Rng| {
        let around = reach.map_or(0, |r| r);
        [s.len(), around, around.saturating_sub(1), rng.below(s.len() + 1)]
    };
    let mut pairs = Vec::new();
    for k in 0..=srt.len() {
        pairs.extend(some(pat, pat_reach, rng).map(|l| (k, l)));
    }
    for l in 0..=pat.len() {
        pairs.extend(some(srt, srt_reach, rng).map(|k| (k, l)));
    }
    for (k, l) in pairs {
        let name = &names[rng.below(names.len())];
        let frame = rng.below(8) as u16;
        let of = |srt: &[u8], pat: &[u8]| answer(srt, 0, pat, 0, name, frame);
        let (n, m) = (rng.below(20), rng.below(20));
        let followed = [[&srt[..k], &rng.bytes(n)].concat(), [&pat[..l], &rng.bytes(m)].concat()];
        let (uncut, fronts, tails) = (of(srt, pat), of(&srt[..k], &pat[..l]), of(&followed[0], &followed[1]));
        counts.material_cuts += 1;
        let at = |what| {
            Err(format!("cuts at {k} and {l}, {name:?} at frame {frame}: {what}: uncut {uncut:?}, fronts {fronts:?}, with tails {tails:?}"))
        };
        if fronts.is_err_and(|n| n != 2) && tails != fronts {
            return at("a refusal did not stay");
        }
        if let (Ok(r), Ok(q)) = (srt_reach, pat_reach) {
            if r <= k && q <= l && (fronts != uncut || tails != uncut) {
                return at("another answer from both reaches on");
            }
            if uncut != Err(1) && k < r && (fronts != Err(2) || of(&srt[..k], pat) != Err(2) || of(&srt[..k], b"") != Err(2)) {
                return at("not too short before the reach of the first");
            }
            if uncut != Err(1) && r <= k && l < q && (fronts != Err(2) || of(&followed[0], &pat[..l]) != Err(2)) {
                return at("not too short before the reach of the second");
            }
        }
    }
    Ok(())
}

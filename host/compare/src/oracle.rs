//! What the Rust answers.
use apicula::convert::gltf::curve::GlTFObjectCurves;
use apicula::errors::Result;
use apicula::nitro::animation::{read_animation, Animation, Curve, TRSCurves};
use apicula::nitro::container::read_container;
use apicula::nitro::info_block;
use apicula::nitro::material_animation::{read_mat_anim, MaterialAnimation};
use apicula::nitro::pattern::{read_pattern, Pattern};
use apicula::util::cur::Cur;
use apicula::Vector3;
use std::panic::{catch_unwind, AssertUnwindSafe};

pub enum Value {
    Jnt(Animation),
    Srt(MaterialAnimation),
    Pat(Pattern),
}

pub struct Entry {
    pub name: [u8; 16],
    pub offset: usize,
    /// Whether the Rust reads it.
    pub read: bool,
    /// The value; or the number that the Rust's message stands for, or 12, which the Rust does not have.
    pub value: std::result::Result<Value, u32>,
}

/// The number of a message.
fn number(message: &str) -> u32 {
    match message {
        "ran out of data" => 2,
        "expected: dummy == 0" => 3,
        "expected: size_of_datum as usize == <T as Viewable>::size()" => 4,
        "expected: stamp == b\"J\\0AC\"" => 5,
        "ignoring animation with 0 frames" => 6,
        "expected: start_frame < end_frame" => 7,
        "OOB index in pattern animation" => 8,
        other => panic!("the Rust says {other:?}, and no number is known for it"),
    }
}

/// The section by itself, then each of its entries, as `add_jnt`, `add_srt` and `add_pat` read them.
pub fn read(s: &[u8]) -> std::result::Result<Vec<Entry>, u32> {
    let cur = Cur::new(s);
    let stamp = cur.clone().next_n_u8s(4).map_err(|_| 2u32)?;
    if ![&b"JNT0"[..], b"SRT0", b"PAT0"].contains(&stamp) {
        return Err(1);
    }
    let block = || -> Result<_> {
        let mut end = cur;
        end.next_n_u8s(4)?;
        end.next::<u32>()?;
        Ok(info_block::read::<u32>(end)?)
    };
    let mut entries = Vec::new();
    for (off, name) in block().map_err(|e| number(&e.to_string()))? {
        let value = match stamp {
            b"JNT0" => read_animation(cur + off, name).map(Value::Jnt),
            b"SRT0" => read_mat_anim(cur + off, name).map(Value::Srt),
            _ => read_pattern(cur + off, name).map(Value::Pat),
        };
        let (offset, read) = (off as usize, value.is_ok());
        let value = if too_many_objects(s, offset) { Err(12) } else { value.map_err(|e| number(&e.to_string())) };
        entries.push(Entry { name: name.0, offset, read, value });
    }
    Ok(entries)
}

/// Its frames, and its objects or tracks.
pub fn frames_and_count(value: &Value) -> (u16, usize) {
    match value {
        Value::Jnt(a) => (a.num_frames, a.objects_curves.len()),
        Value::Srt(a) => (a.num_frames, a.tracks.len()),
        Value::Pat(a) => (a.num_frames, a.material_tracks.len()),
    }
}

/// How many values the lists of an entry have, a pattern's keys among them.
pub fn samples(value: &Value) -> usize {
    fn values<T>(c: &Curve<T>) -> usize {
        match c {
            Curve::Samples { values, .. } => values.len(),
            _ => 0,
        }
    }
    let object = |o: &TRSCurves| o.trans.iter().chain(&o.scale).map(values).sum::<usize>() + values(&o.rotation);
    match value {
        Value::Jnt(a) => a.objects_curves.iter().map(object).sum(),
        Value::Srt(a) => a.tracks.iter().flat_map(|t| &t.channels).map(|c| values(&c.curve)).sum(),
        Value::Pat(a) => a.material_tracks.iter().map(|t| t.keyframes.len()).sum(),
    }
}

/// How many entries the Rust keeps of a section that stands in a container.
pub fn kept(s: &[u8]) -> usize {
    let mut file = b"BCA0\xff\xfe\0\0\xff\0\0\0\x10\0\x01\0\x14\0\0\0".to_vec();
    file.extend(s);
    let cont = read_container(Cur::new(&file)).unwrap();
    cont.animations.len() + cont.mat_anims.len() + cont.patterns.len()
}

/// Whether an entry's header is whole and right, but for more than 999 objects.
fn too_many_objects(s: &[u8], offset: usize) -> bool {
    let head = || -> Result<bool> {
        let mut c = Cur::new(s) + offset;
        let stamp = c.next_n_u8s(4)?;
        let frames = c.next::<u16>()?;
        let objects = c.next::<u16>()?;
        c.next_n::<u32>(3)?;
        c.next_n::<u16>(objects as usize)?;
        Ok(stamp == b"J\0AC" && frames != 0 && objects > 999)
    };
    s.starts_with(b"JNT0") && head().unwrap_or(false)
}

/// Three curves of an object, resampled by themselves, since the Rust resamples translation and scale at once. None where it panics: an
/// empty list makes it divide by zero.
pub fn resampled(axes: [Curve<f64>; 3], translation: bool) -> Option<Curve<Vector3<f64>>> {
    let none = || [Curve::None, Curve::None, Curve::None];
    let (trans, scale) = if translation { (axes, none()) } else { (none(), axes) };
    let alone = TRSCurves { trans, rotation: Curve::None, scale };
    catch_unwind(AssertUnwindSafe(|| {
        let c = GlTFObjectCurves::for_trs_curves(&alone);
        if translation {
            c.translation
        } else {
            c.scale
        }
    }))
    .ok()
}

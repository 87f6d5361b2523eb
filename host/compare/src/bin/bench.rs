//! bench: each call beside the Rust's, on the same section, in one process. A time is the median of many.
//! bench --slowest: how long the sections of up to 65,536 bytes that take longest are listed.
use apicula::convert::gltf::curve::GlTFObjectCurves;
use apicula::nitro::animation::{read_animation, Animation, Curve, TRSCurves};
use apicula::nitro::material_animation::read_mat_anim;
use apicula::nitro::name::Name;
use apicula::nitro::pattern::read_pattern;
use apicula::nitro::{info_block, MaterialAnimation, Pattern};
use apicula::util::cur::Cur;
use compare::sections;
use std::hint::black_box;
use std::time::Instant;

/// The Rust's way to an entry: the section's info block, then the entry.
fn first<T>(s: &[u8], read: impl Fn(Cur, Name) -> apicula::errors::Result<T>) -> T {
    let cur = Cur::new(s);
    let mut end = cur;
    end.next_n_u8s(4).unwrap();
    end.next::<u32>().unwrap();
    let (off, name) = info_block::read::<u32>(end).unwrap().next().unwrap();
    read(cur + off, name).unwrap()
}

fn animation(s: &[u8]) -> Animation {
    first(s, read_animation)
}

fn material(s: &[u8]) -> MaterialAnimation {
    first(s, read_mat_anim)
}

fn pattern(s: &[u8]) -> Pattern {
    first(s, read_pattern)
}

fn resampled(s: &[u8]) -> usize {
    let curves = animation(s).objects_curves.swap_remove(0);
    let none = [Curve::None, Curve::None, Curve::None];
    let alone = TRSCurves { trans: curves.trans, rotation: Curve::None, scale: none };
    match GlTFObjectCurves::for_trs_curves(&alone).translation {
        Curve::Samples { values, .. } => values.len(),
        _ => 0,
    }
}

/// The median time of a call, in nanoseconds: both sides in turn, so that both meet the same machine.
fn medians(mut ours: impl FnMut(), mut theirs: impl FnMut()) -> (f64, f64) {
    let per_sample = |f: &mut dyn FnMut()| {
        let start = Instant::now();
        let mut calls = 0;
        while start.elapsed().as_micros() < 2000 {
            f();
            calls += 1;
        }
        calls
    };
    let (k, l) = (per_sample(&mut ours), per_sample(&mut theirs));
    let (mut a, mut b) = (Vec::new(), Vec::new());
    let time = |f: &mut dyn FnMut(), calls: usize| {
        let start = Instant::now();
        (0..calls).for_each(|_| f());
        start.elapsed().as_nanos() as f64 / calls as f64
    };
    for _ in 0..101 {
        a.push(time(&mut ours, k));
        b.push(time(&mut theirs, l));
    }
    let median = |mut v: Vec<f64>| {
        v.sort_by(f64::total_cmp);
        v[v.len() / 2]
    };
    (median(a), median(b))
}

fn row(section: &str, call: &str, ours: impl FnMut(), theirs: impl FnMut()) {
    let (a, b) = medians(ours, theirs);
    println!("| {section} | {call} | {a:.0} | {b:.0} | {:.2} |", a / b);
}

fn joints(name: &str, s: &[u8], frame: u16) {
    let mut out = vec![0.0; 3 * 5000];
    row(
        name,
        "entry check / read",
        || {
            black_box(motion::check(black_box(s), 0)).unwrap();
        },
        || {
            black_box(animation(black_box(s)));
        },
    );
    row(
        name,
        "matrix / read + sample",
        || {
            black_box(motion::matrix(black_box(s), 0, 0, frame)).unwrap();
        },
        || {
            black_box(animation(black_box(s)).objects_curves[0].sample_at(frame));
        },
    );
    row(
        name,
        "resample / read + resample",
        || {
            black_box(motion::resample_translation(black_box(s), 0, 0, &mut out, 0)).unwrap();
        },
        || {
            black_box(resampled(black_box(s)));
        },
    );
}

/// All objects at so many frames, into a slice as long as they take.
fn samples(a: &Animation, first: u16, frames: usize, out: &mut [f64]) {
    let mut matrices = out.chunks_exact_mut(16);
    for f in 0..frames {
        for curves in &a.objects_curves {
            let m = curves.sample_at(first + f as u16);
            matrices.next().unwrap().copy_from_slice(m.columns.as_flattened());
        }
    }
}

/// Poses and clips. A pose is of the next frame from call to call, all frames in turn; a clip has so many frames from `first` on. The slices are made
/// before, of the size that they need.
fn poses(name: &str, s: &[u8], first: u16, frames: usize) {
    let read = animation(s);
    let (end, objects) = (read.num_frames, read.objects_curves.len());
    let (mut f, mut g) = (0, 0);
    let next = |frame: &mut u16| {
        *frame = (*frame + 1) % end;
        *frame
    };
    let (mut out, mut theirs) = (vec![0.0; 16 * objects], vec![0.0; 16 * objects]);
    row(
        name,
        "pose / read + samples",
        || {
            black_box(motion::pose(black_box(s), 0, next(&mut f), black_box(&mut out))).unwrap();
        },
        || samples(&animation(black_box(s)), next(&mut g), 1, black_box(&mut theirs)),
    );
    row(
        name,
        "pose / samples alone",
        || {
            black_box(motion::pose(black_box(s), 0, next(&mut f), black_box(&mut out))).unwrap();
        },
        || samples(black_box(&read), next(&mut g), 1, black_box(&mut theirs)),
    );
    let mut bytes = vec![0; 128 * objects];
    row(
        name,
        "a matrix for each object / samples alone",
        || {
            let frame = next(&mut f);
            for (o, matrix) in black_box(&mut bytes).chunks_exact_mut(128).enumerate() {
                motion::matrix_bytes(black_box(s), 0, o, frame, matrix).unwrap();
            }
        },
        || samples(black_box(&read), next(&mut g), 1, black_box(&mut theirs)),
    );
    let (mut out, mut theirs) = (vec![0.0; 16 * objects * frames], vec![0.0; 16 * objects * frames]);
    row(
        name,
        &format!("clip of {frames} frames / read + samples"),
        || {
            black_box(motion::clip(black_box(s), 0, first, frames, black_box(&mut out))).unwrap();
        },
        || samples(&animation(black_box(s)), first, frames, black_box(&mut theirs)),
    );
}

/// The slowest listings known, seven of each.
fn slowest() {
    println!("| section | bytes | samples | median, s | least | greatest |");
    println!("|---|---|---|---|---|---|");
    for (name, s) in [
        ("JNT0, 255 entries of 999 objects, one list of 4,095 references", sections::crowded(1)),
        ("JNT0, 255 entries of 999 objects, six such lists in turn", sections::crowded(6)),
        ("PAT0, 255 entries of 255 tracks, the same 13,056 keys", sections::keyed()),
        ("PAT0, 255 entries of 255 tracks, the same 16,127 keys", sections::keyed_over()),
    ] {
        let mut times = Vec::new();
        let mut counted = String::new();
        for _ in 0..7 {
            let start = Instant::now();
            let listing = motion::list(black_box(&s));
            times.push(start.elapsed().as_secs_f64());
            let (_, totals) = listing.split_once("accepted=255\nrefused=0\nsamples=").expect("an entry is refused");
            counted = totals.trim_end().into();
        }
        times.sort_by(f64::total_cmp);
        println!("| {name} | {} | {counted} | {:.3} | {:.3} | {:.3} |", s.len(), times[3], times[0], times[6]);
    }
}

fn main() {
    match std::env::args().nth(1).as_deref() {
        None => {}
        Some("--slowest") => return slowest(),
        Some(other) => {
            eprintln!("bench [--slowest]: there is no {other:?}");
            std::process::exit(2)
        }
    }
    println!("| section | calls | here, ns | the Rust, ns | ratio |");
    println!("|---|---|---|---|---|");
    joints("the printed 86 bytes", motion::example::WALK, 5);
    joints("a walk cycle, 30 objects, 40 frames", &sections::walk_cycle(30, 40), 17);
    joints("a crowd scene, 240 objects, 40 frames", &sections::walk_cycle(240, 40), 17);
    joints("a large entry, 99 objects, lists of 4,095", &sections::walk_cycle(99, 4095), 1777);
    poses("a walk cycle, 30 objects, 40 frames", &sections::walk_cycle(30, 40), 0, 40);
    poses("a longer walk, 60 objects, 300 frames", &sections::long_walk(), 0, 300);
    poses("a large entry, 99 objects, lists of 4,095", &sections::walk_cycle(99, 4095), 1777, 100);
    let srt = sections::scroll(20, 40);
    row(
        "an SRT0 entry, 20 tracks, 40 frames",
        "entry check / read",
        || {
            black_box(motion::check(black_box(&srt), 0)).unwrap();
        },
        || {
            black_box(material(black_box(&srt)));
        },
    );
    row(
        "an SRT0 entry, 20 tracks, 40 frames",
        "matrix / read + sample",
        || {
            black_box(motion::uv_matrix(black_box(&srt), 0, 3, 17)).unwrap();
        },
        || {
            black_box(material(black_box(&srt)).tracks[3].eval_uv_mat(17));
        },
    );
    let pat = sections::blink(20, 40);
    row(
        "a PAT0 entry, 20 tracks, 40 keys each",
        "entry check / read",
        || {
            black_box(motion::check(black_box(&pat), 0)).unwrap();
        },
        || {
            black_box(pattern(black_box(&pat)));
        },
    );
    row(
        "a PAT0 entry, 20 tracks, 40 keys each",
        "choice / read + sample",
        || {
            black_box(motion::choice(black_box(&pat), 0, 3, 17)).unwrap();
        },
        || {
            black_box(pattern(black_box(&pat)).material_tracks[3].sample(17));
        },
    );
    let name = sections::track_name(13);
    row(
        "both, by the name of track 13",
        "material / read + find + sample",
        || {
            black_box(motion::material(black_box(&srt), 0, black_box(&pat), 0, &name, 17)).unwrap();
        },
        || {
            let shifted = material(black_box(&srt)).tracks.into_iter().find(|t| t.name.0 == name);
            black_box(shifted.unwrap().eval_uv_mat(17));
            let chosen = pattern(black_box(&pat)).material_tracks.into_iter().find(|t| t.name.0 == name);
            black_box(chosen.unwrap().sample(17));
        },
    );
}

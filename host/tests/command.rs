//! The command motion: what it prints, and its exit status.
use std::ffi::{OsStr, OsString};
use std::fs::{self, File};
use std::io::Write;
use std::os::unix::ffi::OsStrExt;
use std::path::{Path, PathBuf};
use std::process::{Command, Stdio};

/// Standard output and the exit status of `motion WORDS`, with a section on standard input.
fn motion(words: &str, section: &[u8]) -> (String, i32) {
    let mut child = Command::new(env!("CARGO_BIN_EXE_motion"))
        .args(words.split_whitespace())
        .stdin(Stdio::piped())
        .stdout(Stdio::piped())
        .stderr(Stdio::null())
        .spawn()
        .unwrap();
    // a command that is misused does not read
    let _ = child.stdin.take().unwrap().write_all(section);
    let output = child.wait_with_output().unwrap();
    (String::from_utf8(output.stdout).unwrap(), output.status.code().unwrap())
}

const WALK: &[u8] = motion::example::WALK;

#[test]
fn accepted() {
    assert_eq!(motion("check - 0", WALK), ("name=walk (77616c6b000000000000000000000000)\nreach=86\nframes=12\ncount=1\n".into(), 0));
    assert_eq!(motion("find - walk", WALK), ("entry=0\n".into(), 0));
    assert_eq!(motion("find - 0x77616c6b000000000000000000000000", WALK), ("entry=0\n".into(), 0));
    assert_eq!(motion("find - run", WALK), ("no entry has this name\n".into(), 0));
    assert_eq!(motion("curve - 0 0 translation 1", WALK), ("constant\n-1.0\n".into(), 0));
    assert_eq!(motion("curve - 0 0 rotation", WALK), ("no curve\n".into(), 0));
    assert_eq!(motion("resample - 0 0 translation", WALK), ("start=0\nend=1\nframes=1\n1.0 -1.0 0.5\n".into(), 0));
    assert_eq!(motion("resample - 0 0 scale", WALK), ("no curves\nframes=0\n".into(), 0));
    let (matrix, status) = motion("matrix - 0 0 5 --bits", WALK);
    assert_eq!(matrix.lines().last(), Some("column 3: 3ff0000000000000 bff0000000000000 3fe0000000000000 3ff0000000000000"));
    assert_eq!(status, 0);
    let (listing, status) = motion("list -", WALK);
    assert!(listing.starts_with("listing=2\nsection=JNT0\n"), "{listing}");
    assert!(listing.ends_with("objects=001\naccepted=1\nrefused=0\nsamples=0\n"), "{listing}");
    assert_eq!(status, 0);
}

#[test]
fn crowds() {
    // so many objects, all at the place of the walk's one
    let crowd = |objects: u16| {
        let offset = (20 + 2 * objects).to_le_bytes();
        [&WALK[..54], &objects.to_le_bytes(), &[0; 12], &offset.repeat(objects as usize), &WALK[70..]].concat()
    };
    for objects in [99, 100, 240, 999] {
        let (section, last) = (crowd(objects), objects - 1);
        let (record, status) = motion("check - 0", &section);
        assert_eq!((record.lines().last(), status), (Some(format!("count={objects}").as_str()), 0));
        assert_eq!(motion(&format!("matrix - 0 {last} 5"), &section), motion("matrix - 0 0 5", WALK));
        assert_eq!(motion(&format!("matrix - 0 {objects} 5"), &section), ("".into(), 1));
        let (table, status) = motion("pose - 0 5", &section);
        assert_eq!((table.lines().count(), status), (1 + objects as usize, 0));
        let (listing, _) = motion("list -", &section);
        assert!(listing.contains(&format!("\nreach={}\nframes=12\nobjects={objects:03}\n", section.len())), "{listing}");
        assert_eq!(motion("check - 0", &section[..section.len() - 1]), ("".into(), 1));
    }
    let many = crowd(1000);
    assert_eq!(motion::check(&many, 0), Err(motion::Refusal(12)));
    assert_eq!(motion::matrix(&many, 0, 0, 5), Err(motion::Refusal(12)));
    assert_eq!(motion::rotation_curve(&many, 0, 0), Err(motion::Refusal(12)));
    assert_eq!(motion::scale_value(&many, 0, 0, 0, 0), Err(motion::Refusal(12)));
    assert_eq!(motion::resample_scale(&many, 0, 0, &mut [], 0), Err(motion::Refusal(12)));
    assert_eq!(motion::pose(&many, 0, 5, &mut []), Err(motion::Refusal(12)));
    assert_eq!(motion::clip(&many, 0, 65535, 2, &mut []), Err(motion::Refusal(12)));
    assert_eq!(motion::check(&many[..48 + 20 + 2 * 1000 - 1], 0), Err(motion::Refusal(2)));
    assert_eq!(motion("check - 0", &many), ("".into(), 1));
    let (listing, status) = motion("list -", &many);
    assert!(listing.ends_with("\nanswer=12\naccepted=0\nrefused=1\nsamples=0\n"), "{listing}");
    assert_eq!(status, 0);
}

/// Two objects: the walk's one, and one that nothing animates.
fn two_objects() -> Vec<u8> {
    [&WALK[..54], &[2, 0], &[0; 12], &[24, 0, 40, 0], &WALK[70..], &[1, 0, 0, 0]].concat()
}

#[test]
fn poses() {
    let two = two_objects();
    let table = "\
object   x0  y0  z0  w0   x1  y1  z1  w1   x2  y2  z2  w2   x3   y3  z3  w3
     0  1.0 0.0 0.0 0.0  0.0 1.0 0.0 0.0  0.0 0.0 1.0 0.0  1.0 -1.0 0.5 1.0
     1  1.0 0.0 0.0 0.0  0.0 1.0 0.0 0.0  0.0 0.0 1.0 0.0  0.0  0.0 0.0 1.0
";
    assert_eq!(motion("pose - 0 5", &two), (table.into(), 0));
    // each line has the floats of that object's matrix, in the same form
    for (section, frame) in [(&two[..], 0), (WALK, 65535), (motion::example::GROW, 1), (motion::example::SWAY, 4)] {
        for bits in ["", " --bits"] {
            let (table, status) = motion(&format!("pose - 0 {frame}{bits}"), section);
            assert_eq!(status, 0);
            let count = motion::check(section, 0).unwrap().count;
            assert_eq!(table.lines().count(), 1 + count);
            for (object, line) in table.lines().skip(1).enumerate() {
                let (matrix, _) = motion(&format!("matrix - 0 {object} {frame}{bits}"), section);
                let floats = matrix.lines().flat_map(|column| column.split(' ').skip(2));
                let words: Vec<String> = [object.to_string()].into_iter().chain(floats.map(String::from)).collect();
                assert_eq!(line.split_whitespace().collect::<Vec<_>>(), words, "{line}");
            }
        }
    }
    // no objects
    let none = [&WALK[..54], &[0; 16]].concat();
    let (table, status) = motion("pose - 0 5", &none);
    assert_eq!((table.as_str(), status), ("object  x0 y0 z0 w0  x1 y1 z1 w1  x2 y2 z2 w2  x3 y3 z3 w3\n", 0));
    // another stamp, a byte less than the reach, and the entry after the last
    let refusal = |words: &str, section: &[u8]| {
        let path = holding("not-posed", section);
        let words = words.replace('-', path.to_str().unwrap());
        complaint(&words.split(' ').collect::<Vec<_>>(), Stdio::null(), Stdio::null())
    };
    let told = |number: u32| (format!("{}\n", motion::Refusal(number)), 1);
    assert_eq!(refusal("pose - 0 5", motion::example::DRIFT), told(1));
    assert_eq!(refusal("pose - 0 5", &two[..two.len() - 1]), told(2));
    assert_eq!(refusal("pose - 1 5", &two), told(9));
    assert_eq!(motion("pose - 1 5", &two), ("".into(), 1));
}

#[test]
fn poses_and_clips() {
    let two = two_objects();
    // what stands behind what is written is kept, and all of it where the call refuses
    let kept = [7.5; 70];
    let matrix = |o, frame| motion::matrix(&two, 0, o, frame).unwrap().as_flattened().to_vec();
    let mut out = kept;
    assert_eq!(motion::pose(&two, 0, 5, &mut out), Ok(2));
    assert_eq!(out[..32], [matrix(0, 5), matrix(1, 5)].concat());
    assert_eq!(out[32..], kept[32..]);
    let mut out = kept;
    assert_eq!(motion::clip(&two, 0, 65534, 2, &mut out), Ok(2));
    assert_eq!(out[..64], [matrix(0, 65534), matrix(1, 65534), matrix(0, 65535), matrix(1, 65535)].concat());
    assert_eq!(out[64..], kept[64..]);
    let mut out = kept;
    assert_eq!(motion::pose(&two, 0, 5, &mut out[..31]), Err(motion::Refusal(11)));
    assert_eq!(motion::clip(&two, 0, 5, 2, &mut out[..63]), Err(motion::Refusal(11)));
    assert_eq!(motion::clip(&two, 0, 5, 0, &mut out), Ok(2));
    assert_eq!(motion::clip(&two, 0, 65535, 2, &mut out), Err(motion::Refusal(9)));
    // no number wraps: not the frames, nor sixteen times them
    for frames in [usize::MAX, usize::MAX - 65534, usize::MAX / 2 + 1, usize::MAX / 16 + 1, usize::MAX / 32 + 1, 65537] {
        for first in [0, 1, 65535] {
            assert_eq!(motion::clip(&two, 0, first, frames, &mut out), Err(motion::Refusal(9)), "{frames} frames from {first}");
        }
    }
    // what is wrong with the entry comes first, and 9 before 11
    assert_eq!(motion::clip(&two[..87], 0, 65535, usize::MAX, &mut []), Err(motion::Refusal(2)));
    assert_eq!(motion::clip(&two, 0, 65535, usize::MAX, &mut []), Err(motion::Refusal(9)));
    assert_eq!(motion::clip(&two, 0, 0, 65536, &mut []), Err(motion::Refusal(11)));
    assert_eq!(motion::pose(motion::example::FLIP, 0, 0, &mut out), Err(motion::Refusal(1)));
    assert_eq!(out, kept);
}

#[test]
fn scales() {
    let grow = motion::example::GROW;
    assert_eq!(motion("curve - 0 0 scale 0", grow), ("constant\nfirst=1.5\nsecond=-2.0\n".into(), 0));
    assert_eq!(motion("curve - 0 0 scale 1", grow), ("list\nstart=0\nend=2\nplace=98\nlength=2\nsize=4\nrate=0\nrest=0\n".into(), 0));
    assert_eq!(motion("scale - 0 0 0 0", grow), ("first=1.5\nsecond=-2.0\n".into(), 0));
    assert_eq!(motion("scale - 0 0 1 0", grow), ("first=1.0\nsecond=-0.25\n".into(), 0));
    assert_eq!(motion("scale - 0 0 1 1 --bits", grow), ("first=4000000000000000\nsecond=3fe0000000000000\n".into(), 0));
    assert_eq!(motion("scale - 0 0 2 0", grow), ("first=100.0\nsecond=-0.5\n".into(), 0));
    // past the values, the axes, the objects and the entries; and no curve
    for words in ["0 0 0 1", "0 0 1 2", "0 0 2 1", "0 0 3 0", "0 1 0 0", "1 0 0 0"] {
        assert_eq!(motion(&format!("scale - {words}"), grow), ("".into(), 1), "{words}");
    }
    assert_eq!(motion("scale - 0 0 0 0", WALK), ("".into(), 1));
    // what is sampled is the first number
    let (matrix, _) = motion("matrix - 0 0 1", grow);
    assert_eq!(matrix, "column 0: 1.5 0.0 0.0 0.0\ncolumn 1: 0.0 2.0 0.0 0.0\ncolumn 2: 0.0 0.0 100.0 0.0\ncolumn 3: 0.0 0.0 0.0 1.0\n");
    assert_eq!(motion("resample - 0 0 scale", grow), ("start=0\nend=2\nframes=2\n1.5 1.0 100.0\n1.5 2.0 100.0\n".into(), 0));
}

#[test]
fn rests() {
    let list = |start, end, place, length, size, rate, rest| {
        (format!("list\nstart={start}\nend={end}\nplace={place}\nlength={length}\nsize={size}\nrate={rate}\nrest={rest}\n"), 0)
    };
    let sway = motion::example::SWAY;
    assert_eq!(motion("curve - 0 0 translation 0", sway), list(0, 11, 122, 5, 2, 1, 1));
    assert_eq!(motion("curve - 0 0 rotation", sway), list(1, 12, 132, 2, 2, 2, 3));
    assert_eq!(motion("curve - 0 0 scale 0", sway), list(0, 11, 142, 1, 8, 3, 3));
    // a constant has neither
    assert_eq!(motion("curve - 0 0 translation 1", sway), ("constant\n0.0\n".into(), 0));
    // an empty list has both: 3 to 4 at rate 1
    let mut empty = sway.to_vec();
    empty[74..78].copy_from_slice(&(3u32 + (4 << 16) + (1 << 30)).to_le_bytes());
    assert_eq!(motion("curve - 0 0 translation 0", &empty), list(3, 4, 122, 0, 4, 1, 1));
}

#[test]
fn materials() {
    let (drift, flip) = (motion::example::DRIFT, motion::example::FLIP);
    let of = |name: &str, srt: &[u8]| {
        let pat = holding("flip", flip);
        motion(&format!("material - 0 {} 0 {name} 5", pat.display()), srt)
    };
    // the first track of the name on each side, which is not the one with all sixteen bytes
    assert_eq!(of("sea", drift), ("u=1.0\nv=-2.0\ntexture=0\npalette=1\n".into(), 0));
    assert_eq!(of("0x73656100777777777777777777777777", drift), of("sea", drift));
    // one side alone
    assert_eq!(of("ice", drift), ("u=0.0\nv=0.0\nno choice\n".into(), 0));
    assert_eq!(of("sun", drift), ("u=0.0\nv=0.0\ntexture=0\npalette=0\n".into(), 0));
    assert_eq!(of("sun --bits", drift), ("u=0000000000000000\nv=0000000000000000\ntexture=0\npalette=0\n".into(), 0));
    // the other section on standard input
    let srt = holding("drift", drift);
    assert_eq!(motion(&format!("material {} 0 - 0 sea 5", srt.display()), flip), of("sea", drift));
    // a track without keys, and no track
    let refusal = |srt: &[u8], i, pat: &[u8], j, name: &[u8; 3]| {
        let mut sought = [0; 16];
        sought[..3].copy_from_slice(name);
        motion::material(srt, i, pat, j, &sought, 5).unwrap_err().0
    };
    assert_eq!(refusal(drift, 0, flip, 0, b"sky"), 10);
    assert_eq!(refusal(drift, 0, flip, 0, b"fog"), 14);
    assert_eq!((of("sky", drift), of("fog", drift)), (("".into(), 1), ("".into(), 1)));
    // the SRT0 section is tested first, whatever the other is, then the PAT0 section, and then the name
    assert_eq!(refusal(flip, 0, drift, 0, b"sea"), 1);
    assert_eq!(refusal(&drift[..315], 0, flip, 4, b"fog"), 2);
    assert_eq!(refusal(drift, 4, &flip[..3], 4, b"fog"), 9);
    assert_eq!(refusal(drift, 0, &flip[..227], 0, b"fog"), 2);
    assert_eq!(refusal(drift, 0, flip, 4, b"fog"), 9);
    // what follows the reaches changes nothing
    let long = |s: &[u8]| [s, b"and more"].concat();
    assert_eq!(of("sea", &long(drift)), of("sea", drift));
    assert_eq!(refusal(&long(drift), 0, &long(flip), 0, b"fog"), 14);
}

#[test]
fn kinds() {
    for (section, stamp) in [(WALK, "JNT0\n"), (motion::example::DRIFT, "SRT0\n"), (motion::example::FLIP, "PAT0\n")] {
        assert_eq!(motion("kind -", section), (stamp.into(), 0));
        // the stamp is enough
        assert_eq!(motion("kind -", &section[..4]), (stamp.into(), 0));
        assert_eq!(motion("kind -", &section[..3]), ("".into(), 1));
    }
    let refusal = |section: &[u8]| {
        let path = holding("of-no-kind", section);
        complaint(&["kind", path.to_str().unwrap()], Stdio::null(), Stdio::null())
    };
    assert_eq!(refusal(b"TEX0"), (format!("{}\n", motion::Refusal(1)), 1));
    assert_eq!(refusal(b"JNT"), (format!("{}\n", motion::Refusal(2)), 1));
    assert_eq!(motion::kind(b""), Err(motion::Refusal(2)));
}

#[test]
fn plays() {
    // two frames: the last is held, and then it loops; a pick keeps the mode
    let lines = "\
hold: entry=none frame=0 answer=0
pick 0: entry=0 frame=0 answer=0
tick: entry=0 frame=1 answer=0
tick: entry=0 frame=1 answer=0
loop: entry=0 frame=1 answer=0
tick: entry=0 frame=0 answer=0
tick: entry=0 frame=1 answer=0
pick 0: entry=0 frame=0 answer=0
tick: entry=0 frame=1 answer=0
tick: entry=0 frame=0 answer=0
";
    let words = "play - hold pick 0 tick tick loop tick tick pick 0 tick tick";
    assert_eq!(motion(words, motion::example::GROW), (lines.into(), 0));
    // each refused event has its line too, and the first of them is told
    let lines = "\
loop: entry=none frame=0 answer=0
tick: entry=none frame=0 answer=17
pick 1: entry=none frame=0 answer=9
pick 0: entry=0 frame=0 answer=0
tick: entry=0 frame=1 answer=0
pick 18446744073709551615: entry=0 frame=1 answer=9
tick: entry=0 frame=2 answer=0
";
    let words = format!("play - loop tick pick 1 pick 0 tick pick {} tick", usize::MAX);
    assert_eq!(motion(&words, WALK), (lines.into(), 1));
    let path = holding("played", WALK);
    let told = |words: &str| {
        let words = words.replace('-', path.to_str().unwrap());
        complaint(&words.split(' ').collect::<Vec<_>>(), Stdio::null(), Stdio::null())
    };
    assert_eq!(told(&words), ("refused, 17: a tick or a picture before an entry is picked\n".into(), 1));
    assert_eq!(told("play - pick 1 tick"), (format!("{}\n", motion::Refusal(9)), 1));
    assert_eq!(told("play - loop hold"), ("".into(), 0));
    // a refused section
    let lines = "pick 0: entry=none frame=0 answer=2\ntick: entry=none frame=0 answer=17\n";
    assert_eq!(motion("play - pick 0 tick", &WALK[..85]), (lines.into(), 1));
    assert_eq!(motion("play - tick", b""), ("tick: entry=none frame=0 answer=17\n".into(), 1));
    // what is wrong with the events is told before a section is read
    let misuse = |words: &[&str], message: &str| {
        let (text, status) = complaint(words, Stdio::null(), Stdio::null());
        assert_eq!((text, status), (format!("motion: {message}\nusage: motion play FILE EVENT ..\n"), 2));
    };
    misuse(&["play"], "FILE is missing");
    misuse(&["play", "/"], "EVENT is missing");
    misuse(&["play", "/", "tick", "tock"], "there is no event \"tock\"");
    misuse(&["play", "/", "tick", "2"], "there is no event \"2\"");
    misuse(&["play", "/", "tick", "pick"], "ENTRY is missing");
    misuse(&["play", "/", "pick", "tick"], "ENTRY is to be a number, and \"tick\" is none");
    misuse(&["play", "/", "pick", "-1"], "ENTRY is to be a number, and \"-1\" is none");
}

#[test]
fn players() {
    use motion::{Mode, Picture, Player, Refusal};
    let (drift, flip) = (motion::example::DRIFT, motion::example::FLIP);
    // a section with another number of frames
    let with_frames = |section: &[u8], frames: u16| {
        let mut section = section.to_vec();
        section[52..54].copy_from_slice(&frames.to_le_bytes());
        section
    };
    let state = |player: &Player| (player.entry(), player.frame(), player.mode());
    let after = |mode: Mode, section: &[u8], ticks: usize| {
        let mut player = Player::new();
        player.set_mode(mode);
        player.pick(section, 0).unwrap();
        (0..ticks).for_each(|_| player.tick(section).unwrap());
        assert_eq!((player.entry(), player.mode()), (Some(0), mode));
        player.frame() as usize
    };
    // k ticks of n frames show the lesser of k and n - 1, or k modulo n; of 0 frames they show 0
    for section in [WALK, drift, flip] {
        for n in [1, 2, 3, 12] {
            let section = with_frames(section, n as u16);
            for k in 0..2 * n + 2 {
                assert_eq!(
                    (after(Mode::Hold, &section, k), after(Mode::Loop, &section, k)),
                    (k.min(n - 1), k % n),
                    "{k} ticks of {n} frames"
                );
            }
        }
        let longest = with_frames(section, 65535);
        for (k, held, looped) in [(65534, 65534, 65534), (65535, 65534, 0), (65537, 65534, 2)] {
            assert_eq!((after(Mode::Hold, &longest, k), after(Mode::Loop, &longest, k)), (held, looped), "{k} ticks");
        }
    }
    for section in [drift, flip].map(|section| with_frames(section, 0)) {
        assert_eq!((after(Mode::Hold, &section, 3), after(Mode::Loop, &section, 3)), (0, 0));
    }
    // past the last frame in another section: it is kept to hold, and 0 to loop, and 0 too where there are no frames
    let mut player = Player::new();
    player.pick(WALK, 0).unwrap();
    (0..7).for_each(|_| player.tick(WALK).unwrap());
    let mut looping = player;
    looping.set_mode(Mode::Loop);
    let mut frameless = player;
    assert_eq!((player.tick(drift), state(&player)), (Ok(()), (Some(0), 7, Mode::Hold)));
    assert_eq!((looping.tick(drift), state(&looping)), (Ok(()), (Some(0), 0, Mode::Loop)));
    assert_eq!((frameless.tick(&with_frames(flip, 0)), state(&frameless)), (Ok(()), (Some(0), 0, Mode::Hold)));
    // a refused pick or tick changes nothing, and each checks the entry anew
    let before = player;
    for (refused, number) in [(&WALK[..85], 2), (b"TEX0", 1), (b"JNT", 2), (&with_frames(WALK, 0), 6)] {
        assert_eq!((player.pick(refused, 0), player.tick(refused)), (Err(Refusal(number)), Err(Refusal(number))));
        assert_eq!(player.picture(refused, 0), Err(Refusal(number)));
    }
    assert_eq!(player.pick(WALK, usize::MAX), Err(Refusal(9)));
    assert_eq!(player, before);
    // the section decides what is shown
    assert_eq!(player.picture(WALK, 0), motion::matrix(WALK, 0, 0, 7).map(Picture::Matrix));
    assert_eq!(player.picture(motion::example::SWAY, 0), motion::matrix(motion::example::SWAY, 0, 0, 7).map(Picture::Matrix));
    for track in 0..5 {
        assert_eq!(player.picture(drift, track), motion::uv_matrix(drift, 0, track, 7).map(Picture::Matrix), "{track}");
        assert_eq!(player.picture(flip, track), motion::choice(flip, 0, track, 7).map(Picture::Choice), "{track}");
    }
    // the one that is picked is picked again, from frame 0 and in the same mode
    looping.tick(WALK).unwrap();
    assert_eq!((looping.pick(WALK, 0), state(&looping)), (Ok(()), (Some(0), 0, Mode::Loop)));
    // before a pick: 17 whatever the section is, and a mode
    let mut new = Player::new();
    for section in [WALK, b"TEX0", b""] {
        assert_eq!((new.tick(section), new.picture(section, 9)), (Err(Refusal(17)), Err(Refusal(17))));
    }
    assert_eq!(new, Player::default());
    new.set_mode(Mode::Loop);
    assert_eq!((new.tick(WALK), state(&new)), (Err(Refusal(17)), (None, 0, Mode::Loop)));
    new.set_mode(Mode::Hold);
    assert_eq!(new, Player::new());
}

/// What `motion pattern` prints of FLIP.
const FLIP_TEXT: &str = "pattern flip
frames 10
texture 0x00000000000000000000000000000000 # 0
palette 0x00000000000000000000000000000000 # 0
palette 0x00000000000000000000000000000000 # 1
track sky
track 0x73656100eeeeeeeeeeeeeeeeeeeeeeee
key 3 0 1
track sea
key 3 0 0
track sun
key 3 0 0
";

/// The section that `motion write` makes of a text, in a file of this name.
fn made(name: &str, text: impl AsRef<[u8]>) -> Vec<u8> {
    // what stood there before goes
    let path = holding(name, &[b'#'; 1000]);
    assert_eq!(motion(&format!("write - {}", path.display()), text.as_ref()), ("".into(), 0));
    fs::read(path).unwrap()
}

/// Standard error and the exit status of `motion write TEXT FILE`, which leaves its file alone. In the complaint the text's file is TEXT.
fn not_made(name: &str, text: impl AsRef<[u8]>) -> (String, i32) {
    let (from, into) = (holding(format!("{name}.txt"), text.as_ref()), holding(format!("{name}.pat"), WALK));
    let words = ["write", from.to_str().unwrap(), into.to_str().unwrap()];
    let (complaint, status) = complaint(&words, Stdio::null(), Stdio::null());
    assert_eq!(fs::read(&into).unwrap(), WALK, "{complaint}");
    (complaint.replace(words[1], "TEXT"), status)
}

/// What bin/motion-list prints of a file.
fn listed(file: &Path) -> String {
    let output = Command::new(concat!(env!("CARGO_MANIFEST_DIR"), "/../bin/motion-list")).arg(file).output().unwrap();
    assert!(output.status.success(), "{output:?}");
    String::from_utf8(output.stdout).unwrap()
}

#[test]
fn patterns() {
    let flip = motion::example::FLIP;
    assert_eq!(motion("pattern - 0", flip), (FLIP_TEXT.into(), 0));
    let section = made("flip-written", FLIP_TEXT);
    assert_eq!(section[..8], *b"PAT0\xf8\0\0\0");
    assert_eq!(motion("pattern - 0", &section), (FLIP_TEXT.into(), 0));
    assert_eq!(motion::pattern(&section, 0), motion::pattern(flip, 0));
    assert_eq!(motion("check - 0", &section), ("name=flip (666c6970000000000000000000000000)\nreach=248\nframes=10\ncount=4\n".into(), 0));
    let listing =
        "listing=2\nsection=PAT0\nentries=1\nentry=0\nname=666c6970000000000000000000000000\nanswer=0\nreach=248\nframes=10\ntracks=4\n\
                   accepted=1\nrefused=0\nsamples=3\n";
    assert_eq!(motion::list(&section), listing);
    assert_eq!(motion("list -", &section), (listing.into(), 0));
    assert_eq!(listed(&holding("flip-listed", &section)), listing);
    for track in 0..4 {
        let words = format!("choice - 0 {track} 5");
        assert_eq!(motion(&words, &section), motion(&words, flip), "{words}");
    }
    // one key repaired
    let section = made("flip-repaired", FLIP_TEXT.replace("key 3 0 1", "key 4 0 0"));
    assert_eq!(motion("choice - 0 1 5", &section), ("texture=0\npalette=0\n".into(), 0));
    // to standard output, from a file
    let text = holding("flip-text", FLIP_TEXT.as_bytes());
    let run = Command::new(env!("CARGO_BIN_EXE_motion")).arg("write").arg(text).arg("-").output().unwrap();
    assert_eq!((run.stdout, run.stderr, run.status.code()), (made("flip-to-compare", FLIP_TEXT), vec![], Some(0)));
    // an entry behind another, where the first is refused
    let mut two = [&flip[..8], &[0, 2], &[0; 18], &[4, 0, 0, 0], &[255, 0, 0, 0], &[72, 0, 0, 0], &[0; 16], &flip[32..]].concat();
    assert_eq!(motion("pattern - 0", &two), ("".into(), 1));
    assert_eq!(motion("pattern - 1", &two), (FLIP_TEXT.into(), 0));
    assert_eq!(motion("pattern - 2", &two), ("".into(), 1));
    two.pop();
    assert_eq!(motion("pattern - 1", &two), ("".into(), 1));
    // another kind is refused by its stamp, whole or not
    for section in [WALK, &WALK[..85]] {
        assert_eq!(motion::pattern(section, 0), Err(motion::Refusal(1)));
        assert_eq!(motion("pattern - 0", section), ("".into(), 1));
    }
}

#[test]
fn texts() {
    // any order and mixture, blank lines, comments, and the line ends of another system
    let text = b"# a comment of any bytes: \xff\n\nframes 65535 #frames\r\n  texture\tsea  # the first\r\npalette day\ntexture ice#1\n\
        track water\n# key 9 9 9\nkey 0 1 0\n  key 65535 0 1 #\n\npalette night\npattern waves";
    let plain = "pattern waves\nframes 65535\ntexture sea # 0\ntexture ice#1 # 1\npalette day # 0\npalette night # 1\n\
        track water\nkey 0 1 0\nkey 65535 0 1\n";
    let section = made("waves", text);
    assert_eq!(motion("pattern - 0", &section), (plain.into(), 0));
    assert_eq!(made("waves-again", plain), section);
    // nothing but a name, and no frames
    let section = made("nothing", "pattern 0\nframes 0\n");
    assert_eq!(section.len(), 76);
    assert_eq!(motion("pattern - 0", &section), ("pattern 0\nframes 0\n".into(), 0));
    // names that read back as they are, and names in hex
    let names = [
        "sixteen-letters!",
        "a#b",
        "0X0",
        "0x00000000000000000000000000000000",
        "0x00736561000000000000000000000000",
        "0x23736561000000000000000000000000",
        "0x30780000000000000000000000000000",
        "0x73656120000000000000000000000000",
        "0x736561000000000000000000000000ff",
        "0x7365617f000000000000000000000000",
        "0x736561c3a90000000000000000000000",
        "0xffffffffffffffffffffffffffffffff",
    ];
    for name in names {
        let text = format!("pattern {name}\nframes 1\ntexture {name} # 0\npalette {name} # 0\ntrack {name}\nkey 0 0 0\n");
        assert_eq!(motion("pattern - 0", &made("named", &text)), (text, 0));
    }
    // what is plain is printed plainly, whatever it was written as
    let (text, _) = motion("pattern - 0", &made("hex", "pattern 0x7365612D310000000000000000000000\nframes 1\ntrack seé\n"));
    assert_eq!(text, "pattern sea-1\nframes 1\ntrack 0x7365c3a9000000000000000000000000\n");
}

#[test]
fn wrong_texts() {
    let number = |what: &str, most: &str, word: &str| format!("{what} is to be a number from 0 to {most}, and {word:?} is none");
    let three = "a key is to have three numbers: frame, texture, palette".to_string();
    for (line, fault) in [
        ("key 0 0", three.clone()),
        ("key", three.clone()),
        ("key 0 0 # 0", three),
        ("key 65536 0 0", number("a key's frame", "65535", "65536")),
        ("key -1 0 0", number("a key's frame", "65535", "-1")),
        ("key 0 256 0", number("a key's texture", "255", "256")),
        ("key 0 0 256", number("a key's palette", "255", "256")),
        ("key 0 0 x", number("a key's palette", "255", "x")),
        ("key 0 0 0 1", "\"1\" is one word too many".into()),
        ("texture", "a texture is to have a name".into()),
        ("palette # sea", "a palette is to have a name".into()),
        ("track sea side", "\"side\" is one word too many".into()),
        ("texture seventeen-letters", "a name has at most sixteen bytes".into()),
        ("palette 0x00", "a name in hex has 32 digits after 0x".into()),
        ("pattern sea", "this is a second pattern line".into()),
        ("frames 2", "this is a second frames line".into()),
        ("Key 0 0 0", "a line begins with pattern, frames, texture, palette, track or key, and not with \"Key\"".into()),
    ] {
        let text = format!("pattern sea\nframes 1\n\ntexture a\npalette b\ntrack c\n{line}\nkey 0 0 9\n");
        assert_eq!(not_made("wrong-line", text), (format!("motion: line 7 of TEXT: {fault}\n"), 2));
    }
    for (text, complaint) in [
        ("key 0 0 0\ntrack sea\n", "line 1 of TEXT: a key is to stand below a track"),
        ("pattern", "line 1 of TEXT: a pattern is to have a name"),
        ("pattern a\nframes", "line 2 of TEXT: frames is to have a number"),
        ("pattern a\nframes 65536", "line 2 of TEXT: frames is to be a number from 0 to 65535, and \"65536\" is none"),
        ("pattern a\nframes 1 2", "line 2 of TEXT: \"2\" is one word too many"),
        ("frames 1\n", "TEXT has no pattern line"),
        ("pattern a\n", "TEXT has no frames line"),
        ("", "TEXT has no pattern line"),
    ] {
        assert_eq!(not_made("wrong-text", text), (format!("motion: {complaint}\n"), 2));
    }
    assert_eq!(not_made("no-utf8", b"pattern a\ntrack \xff\n"), ("motion: line 2 of TEXT: a word is not UTF-8\n".into(), 2));
    // and from standard input
    let (text, status) = complaint(&["write", "-", "-"], Stdio::null(), Stdio::null());
    assert_eq!((text.as_str(), status), ("motion: standard input has no pattern line\n", 2));
}

#[test]
fn refused_texts() {
    let text = |lines: &str| format!("pattern sea\nframes 1\ntexture a\npalette b\ntrack c\nkey 0 0 0\n{lines}");
    for (lines, line) in [
        ("key 0 1 0\n", 7),
        ("key 0 0 1\nkey 0 1 0\n", 7),
        ("palette d\nkey 0 0 1\nkey 0 1 0\n", 9),
        ("texture d\nkey 0 1 0\nkey 0 0 1\n", 9),
        ("\ntrack d\nkey 9 0 0\nkey 9 255 255\n", 10),
    ] {
        let complaint = format!("refused, 8: a key's texture or palette is not in its list (line {line} of TEXT)\n");
        assert_eq!(not_made("refused-8", text(lines)), (complaint, 1));
    }
    // a texture that follows its key is counted
    made("texture-below", text("key 0 1 0\ntexture d\n"));
    let many = ("refused, 15: there are more than 255 names of a sort, or tracks\n".to_string(), 1);
    for kind in ["texture", "palette", "track"] {
        let lines = |count| text(&format!("{kind} x\n").repeat(count));
        assert_eq!(motion::number(&made("many", lines(254)), 0), 0, "{kind}");
        assert_eq!(not_made("refused-15", lines(255)), many, "{kind}");
        // before any key
        assert_eq!(not_made("refused-15", lines(255) + "key 0 9 9\n"), many, "{kind}");
    }
    // so many keys, and where the next track's would be: 28 + 2 * 28 + 32 + 4 * 16,354 is 65,532
    let keys = |count: usize, more: &str| text(&("key 0 0 0\n".repeat(count - 1) + more));
    let far = ("refused, 16: an offset would pass 65,535, or the section 4,294,967,295 bytes\n".to_string(), 1);
    assert_eq!(motion::number(&made("far", keys(20_000, "")), 0), 0);
    assert_eq!(motion::number(&made("far", keys(16_354, "track d\n")), 0), 0);
    assert_eq!(not_made("refused-16", keys(16_355, "track d\n")), far);
    assert_eq!(not_made("refused-16", keys(16_355, "track d\nkey 0 0 0\n")), far);
}

#[test]
fn names_with_leftovers() {
    let mut section = WALK.to_vec();
    section[36..48].copy_from_slice(b"\0ing leftove");
    assert_eq!(motion("find - walk", &section), ("entry=0\n".into(), 0));
    assert_eq!(motion("find - 0x77616c6b00ffffffffffffffffffffff", &section), ("entry=0\n".into(), 0));
    for missing in ["wal", "walking", "0x00616c6b000000000000000000000000"] {
        assert_eq!(motion(&format!("find - {missing}"), &section), ("no entry has this name\n".into(), 0), "{missing}");
    }
    // what is printed are all sixteen bytes
    let (record, _) = motion("check - 0", &section);
    assert!(record.starts_with("name=walk (77616c6b00696e67206c6566746f7665)\n"), "{record}");
    let (listing, _) = motion("list -", &section);
    assert!(listing.contains("77616c6b00696e67206c6566746f7665\n"), "{listing}");
    // an empty name is found by an empty name alone
    section[32] = 0;
    assert_eq!(motion("find - 0x00ff0000000000000000000000000000", &section), ("entry=0\n".into(), 0));
    assert_eq!(motion("find - walk", &section), ("no entry has this name\n".into(), 0));
}

#[test]
fn equal_names() {
    // two entries, both at the place of the walk: walk with leftovers, and walk as it is looked for
    let mut section = [&WALK[..8], &[0, 2], &[0; 18], &[4, 0, 0, 0], &[72, 0, 0, 0].repeat(2), b"walk\0old leftove", &WALK[32..]].concat();
    for entry in 0..2 {
        assert_eq!(motion(&format!("matrix - {entry} 0 5"), &section), motion("matrix - 0 0 5", WALK));
    }
    assert_eq!(motion("find - walk", &section), ("entry=0\n".into(), 0));
    // a refused entry counts, and the second is found where it alone has the name
    section[32] = 0xff;
    assert_eq!(motion("check - 0", &section), ("".into(), 1));
    assert_eq!(motion("find - walk", &section), ("entry=0\n".into(), 0));
    section[40] = b'W';
    assert_eq!(motion("find - walk", &section), ("entry=1\n".into(), 0));
}

#[test]
fn refused() {
    assert_eq!(motion("check - 0", &WALK[..85]), ("".into(), 1));
    assert_eq!(motion("check - 1", WALK), ("".into(), 1));
    assert_eq!(motion("uv - 0 0 5", WALK), ("".into(), 1));
    assert_eq!(motion("choice - 0 0 5", WALK), ("".into(), 1));
    assert_eq!(motion("list -", b"TEX0"), ("listing=2\nanswer=1\n".into(), 1));
}

#[test]
fn misused() {
    for words in [
        "",
        "dance",
        "check -",
        "check - one",
        "check - 0 1",
        "matrix - 0 0 70000",
        "pose - 0",
        "pose - 0 65536",
        "pose - one 5",
        "pose - 0 0 5",
        "curve - 0 0 speed",
        "scale - 0 0 0",
        "scale - 0 0 0 one",
        "scale - 0 0 0 0 0",
        "find - a-name-that-is-too-long",
        "check - 0 --bytes",
        "material - 0 - 0 sea 5",
        "material - 0 / 0 sea",
        "material - 0 / 0 sea 5 5",
        "material - 0 / 0 a-name-that-is-too-long 5",
        "kind",
        "kind - 0",
        "play",
        "play -",
        "play - dance",
        "play - tick 2",
        "play - pick",
        "play - pick one",
        "play - pick 0 pick",
        "play - pick 0 0",
        "pattern -",
        "pattern - one",
        "pattern - 0 0",
        "write",
        "write -",
        "write - - -",
    ] {
        assert_eq!(motion(words, WALK), ("".into(), 2), "{words}");
    }
}

/// Standard error and the exit status of `motion WORDS`.
fn complaint<W: AsRef<OsStr>>(words: &[W], input: Stdio, output: Stdio) -> (String, i32) {
    let ended = Command::new(env!("CARGO_BIN_EXE_motion")).args(words).stdin(input).stdout(output).output().unwrap();
    (String::from_utf8(ended.stderr).unwrap(), ended.status.code().unwrap())
}

fn read_only(path: &str) -> Stdio {
    File::open(path).unwrap().into()
}

fn write_only(path: &str) -> Stdio {
    File::options().write(true).open(path).unwrap().into()
}

/// A file of the tests that holds a section.
fn file(name: &OsStr) -> PathBuf {
    holding(name, WALK)
}

fn holding(name: impl AsRef<Path>, section: &[u8]) -> PathBuf {
    let path = Path::new(env!("CARGO_TARGET_TMPDIR")).join(name);
    fs::write(&path, section).unwrap();
    path
}

#[test]
fn usage_is_told() {
    let (text, status) = complaint(&["check", "-"], Stdio::null(), Stdio::null());
    assert_eq!((text.as_str(), status), ("motion: ENTRY is missing\nusage: motion check FILE ENTRY\n", 2));
    let (text, status) = complaint(&["pose", "/dev/null", "0"], Stdio::null(), Stdio::null());
    assert_eq!((text.as_str(), status), ("motion: FRAME is missing\nusage: motion pose FILE ENTRY FRAME\n", 2));
    let (text, status) = complaint(&["write", "-"], Stdio::null(), Stdio::null());
    assert_eq!((text.as_str(), status), ("motion: FILE is missing\nusage: motion write TEXT FILE\n", 2));
    let (text, status) = complaint(&["write"], Stdio::null(), Stdio::null());
    assert_eq!((text.as_str(), status), ("motion: TEXT is missing\nusage: motion write TEXT FILE\n", 2));
    let (text, status) = complaint(&["dance"], Stdio::null(), Stdio::null());
    assert_eq!((text.as_str(), status), ("motion: there is no command \"dance\"\nmotion --help shows the commands\n", 2));
    let (text, status) = motion("--help", b"");
    assert_eq!((text.lines().next(), status), (Some("usage: motion COMMAND FILE .. [--bits]"), 0));
}

#[test]
fn not_read() {
    let missing = Path::new(env!("CARGO_TARGET_TMPDIR")).join("no-such-file");
    let (text, status) = complaint(&[OsStr::new("list"), missing.as_os_str()], Stdio::null(), Stdio::null());
    assert_eq!((text, status), (format!("motion: cannot read {}: No such file or directory (os error 2)\n", missing.display()), 2));
    // the second of two files too
    let (srt, second) = (holding("drift-alone", motion::example::DRIFT), missing.to_str().unwrap());
    let words = ["material", srt.to_str().unwrap(), "0", second, "0", "sea", "5"];
    let (text, status) = complaint(&words, Stdio::null(), Stdio::null());
    assert_eq!((text, status), (format!("motion: cannot read {second}: No such file or directory (os error 2)\n"), 2));
    // a text that is not read leaves the file alone
    let kept = holding("kept", WALK);
    let (text, status) = complaint(&["write", "/", kept.to_str().unwrap()], Stdio::null(), Stdio::null());
    assert_eq!((text.as_str(), status), ("motion: cannot read /: Is a directory (os error 21)\n", 2));
    assert_eq!(fs::read(kept).unwrap(), WALK);
    let (text, status) = complaint(&["list", "/"], Stdio::null(), Stdio::null());
    assert_eq!((text.as_str(), status), ("motion: cannot read /: Is a directory (os error 21)\n", 2));
    let (text, status) = complaint(&["list", "-"], read_only("/"), Stdio::null());
    assert_eq!((text.as_str(), status), ("motion: cannot read standard input: Is a directory (os error 21)\n", 2));
    let (text, status) = complaint(&["list", "-"], write_only("/dev/null"), Stdio::null());
    assert_eq!((text.as_str(), status), ("motion: cannot read standard input: Bad file descriptor (os error 9)\n", 2));
}

#[test]
fn not_written() {
    let walk = file(OsStr::new("not-written"));
    let walk = walk.to_str().unwrap();
    for words in [vec!["list", walk], vec!["check", walk, "0"], vec!["resample", walk, "0", "0", "translation"], vec!["--help"]] {
        let (text, status) = complaint(&words, Stdio::null(), write_only("/dev/full"));
        assert_eq!((text.as_str(), status), ("motion: cannot write: No space left on device (os error 28)\n", 2), "{words:?}");
        let (text, status) = complaint(&words, Stdio::null(), read_only("/dev/null"));
        assert_eq!((text.as_str(), status), ("motion: cannot write: Bad file descriptor (os error 9)\n", 2), "{words:?}");
    }
    // a section into a file, and to standard output
    let text = holding("text-not-written", FLIP_TEXT.as_bytes());
    let text = text.to_str().unwrap();
    for (file, reason) in [
        ("/", "Is a directory (os error 21)"),
        ("/dev/full", "No space left on device (os error 28)"),
        ("/no/such/folder", "No such file or directory (os error 2)"),
    ] {
        let (said, status) = complaint(&["write", text, file], Stdio::null(), Stdio::null());
        assert_eq!((said, status), (format!("motion: cannot write {file}: {reason}\n"), 2));
    }
    let (said, status) = complaint(&["write", text, "-"], Stdio::null(), write_only("/dev/full"));
    assert_eq!((said.as_str(), status), ("motion: cannot write: No space left on device (os error 28)\n", 2));
    // a refusal that cannot be listed is no mere refusal
    let (text, status) = complaint(&["list", "-"], Stdio::null(), write_only("/dev/full"));
    assert_eq!((text.as_str(), status), ("motion: cannot write: No space left on device (os error 28)\n", 2));
    // and where nothing can be said, the status still tells
    let status = Command::new(env!("CARGO_BIN_EXE_motion")).arg("dance").stderr(write_only("/dev/full")).status().unwrap();
    assert_eq!(status.code(), Some(2));
}

/// A pipe that nobody reads any more: a quiet end.
#[test]
fn not_awaited() {
    let mut child = Command::new(env!("CARGO_BIN_EXE_motion"))
        .args(["list", "-"])
        .stdin(Stdio::piped())
        .stdout(Stdio::piped())
        .stderr(Stdio::piped())
        .spawn()
        .unwrap();
    drop(child.stdout.take());
    child.stdin.take().unwrap().write_all(WALK).unwrap();
    let ended = child.wait_with_output().unwrap();
    assert_eq!((ended.stderr, ended.status.code()), (vec![], Some(2)));
}

#[test]
fn no_utf8() {
    let bytes = OsStr::from_bytes(b"walk-\xff");
    let path = file(bytes);
    let run = Command::new(env!("CARGO_BIN_EXE_motion")).arg("find").arg(&path).arg("walk").output().unwrap();
    assert_eq!((run.stdout, run.status.code()), (b"entry=0\n".to_vec(), Some(0)));

    let path = path.into_os_string();
    let text = |word: &str| OsString::from(word);
    for words in [
        vec![bytes.to_owned()],
        vec![text("find"), path.clone(), bytes.to_owned()],
        vec![text("check"), path.clone(), bytes.to_owned()],
        vec![text("matrix"), path.clone(), text("0"), text("0"), bytes.to_owned()],
        vec![text("curve"), path.clone(), text("0"), text("0"), bytes.to_owned()],
        vec![text("check"), path.clone(), text("0"), bytes.to_owned()],
        vec![text("play"), path.clone(), text("tick"), bytes.to_owned()],
        vec![text("list"), path.clone(), OsStr::from_bytes(b"--\xff").to_owned()],
    ] {
        let (text, status) = complaint(&words, Stdio::null(), Stdio::null());
        assert_eq!((text.starts_with("motion: "), status), (true, 2), "{words:?}: {text}");
    }
}

//! The stored calls of crates/replay, made through the C interface with other contents in what is lent: NaNs of many payloads and both signs
//! among zeros, infinities, subnormals and numbers. What a stored answer leaves alone must come back bit for bit. A player is lent in other words
//! that stand for the same one.
use motion as _;
use std::fs;

/// A word or a float that the stored call left alone.
const LEFT: u64 = 0x5555_5555_5555_5555;

extern "C" {
    fn motion_check(s: *const u8, len: usize, entry: usize) -> u32;
    fn motion_matrix(s: *const u8, len: usize, entry: usize, object: usize, frame: u16, out: *mut u8, out_len: usize) -> u32;
    fn motion_pose(s: *const u8, len: usize, entry: usize, frame: u16, out: *mut u64, count: usize, objects: *mut u64) -> u32;
    fn motion_clip(
        s: *const u8,
        len: usize,
        entry: usize,
        first: u16,
        frames: usize,
        out: *mut u64,
        count: usize,
        objects: *mut u64,
    ) -> u32;
    fn motion_kind(s: *const u8, len: usize, kind: *mut u64) -> u32;
    fn motion_record(s: *const u8, len: usize, entry: usize, out: *mut u64) -> u32;
    fn motion_find(s: *const u8, len: usize, name: *const u8, out: *mut u64) -> u32;
    fn motion_translation_curve(s: *const u8, len: usize, entry: usize, i: usize, axis: usize, out: *mut u64, value: *mut u64) -> u32;
    fn motion_rotation_curve(s: *const u8, len: usize, entry: usize, i: usize, out: *mut u64, value: *mut u64) -> u32;
    fn motion_scale_curve(s: *const u8, len: usize, entry: usize, i: usize, axis: usize, out: *mut u64, value: *mut u64) -> u32;
    fn motion_scale_value(s: *const u8, len: usize, entry: usize, i: usize, axis: usize, index: usize, out: *mut u64) -> u32;
    fn motion_channel_curve(s: *const u8, len: usize, entry: usize, i: usize, channel: usize, out: *mut u64, value: *mut u64) -> u32;
    fn motion_uv_matrix(s: *const u8, len: usize, entry: usize, i: usize, frame: u16, out: *mut u64) -> u32;
    fn motion_material_name(s: *const u8, len: usize, entry: usize, i: usize, out: *mut u64) -> u32;
    fn motion_pattern_name(s: *const u8, len: usize, entry: usize, i: usize, out: *mut u64) -> u32;
    fn motion_texture_names(s: *const u8, len: usize, entry: usize, out: *mut u64) -> u32;
    fn motion_palette_names(s: *const u8, len: usize, entry: usize, out: *mut u64) -> u32;
    fn motion_keys(s: *const u8, len: usize, entry: usize, i: usize, out: *mut u64) -> u32;
    fn motion_choice(s: *const u8, len: usize, entry: usize, i: usize, frame: u16, out: *mut u64) -> u32;
    fn motion_material(
        srt: *const u8,
        srt_len: usize,
        srt_entry: usize,
        pat: *const u8,
        pat_len: usize,
        pat_entry: usize,
        name: *const u8,
        frame: u16,
        shift: *mut u64,
        choice: *mut u64,
    ) -> u32;
    fn motion_player_pick(s: *const u8, len: usize, player: *mut u64, entry: usize) -> u32;
    fn motion_player_tick(s: *const u8, len: usize, player: *mut u64) -> u32;
    fn motion_player_mode(player: *mut u64, looping: u32) -> u32;
    fn motion_player_picture(s: *const u8, len: usize, player: *const u64, i: usize, matrix: *mut u64, picture: *mut u64) -> u32;
    fn motion_write_pattern(
        name: *const u8,
        frames: u16,
        textures: *const u8,
        textures_len: usize,
        palettes: *const u8,
        palettes_len: usize,
        tracks: *const u8,
        tracks_len: usize,
        keys: *const u8,
        keys_len: usize,
        out: *mut u8,
        out_len: usize,
        written: *mut u64,
    ) -> u32;
    fn motion_resample_translation(
        s: *const u8,
        len: usize,
        entry: usize,
        i: usize,
        floats: *mut u64,
        count: usize,
        place: usize,
        out: *mut u64,
    ) -> u32;
    fn motion_resample_scale(
        s: *const u8,
        len: usize,
        entry: usize,
        i: usize,
        floats: *mut u64,
        count: usize,
        place: usize,
        out: *mut u64,
    ) -> u32;
}

/// Numbers in an order of their own.
struct Mixed(u64);

impl Mixed {
    fn next(&mut self) -> u64 {
        self.0 = self.0.wrapping_mul(0x5851_f42d_4c95_7f2d).wrapping_add(0x1405_7b7e_f767_814f);
        self.0 ^ (self.0 >> 29)
    }

    /// A float's bits: of three, two are NaNs.
    fn float(&mut self) -> u64 {
        let (x, kind) = (self.next(), self.next() >> 40);
        let (sign, low) = (x & 1 << 63, x & ((1 << 51) - 1));
        match kind % 9 {
            0..=2 => sign | 0x7ff8 << 48 | low,
            3..=5 => sign | 0x7ff0 << 48 | low.max(1),
            6 => sign | low,
            7 => sign | if x & 1 == 0 { 0 } else { 0x7ff0 << 48 },
            _ => x,
        }
    }
}

/// The player that a stored call has in the place of a name, in other words: for one that is not 0 stands any such word, and above the sixteen bits
/// of the frame stand any bits.
fn player(c: &[u8], mixed: &mut Mixed) -> [u64; 4] {
    let [picked, entry, frame, looping] = [9, 13, 17, 21].map(|at| u32::from_le_bytes(c[at..at + 4].try_into().unwrap()) as u64);
    let [picked, looping] = [picked, looping].map(|word| if word == 0 { 0 } else { mixed.next().max(1) });
    [picked, entry, frame & 0xffff | mixed.next() << 16, looping]
}

/// The call that 33 bytes stand for, as crates/replay makes it. Floats are lent as their bits, so that none is moved as a float here.
fn call(c: &[u8], s: &[u8], player: &[u64; 4], words: &mut [u64], floats: &mut [u64], bytes: &mut [u8]) -> u32 {
    let (p, len) = (s.as_ptr(), s.len());
    let [entry, part, place, room] = [1, 4, 7, 8].map(|k| c[k] as usize);
    let [index, frame] = [2, 5].map(|k| u16::from_le_bytes([c[k], c[k + 1]]));
    let index = index as usize;
    let (w, f) = (words.as_mut_ptr(), floats.as_mut_ptr());
    unsafe {
        match c[0] {
            0 => motion_record(p, len, entry, w),
            1 => motion_find(p, len, c[9..25].as_ptr(), w),
            2 => motion_translation_curve(p, len, entry, index, part, w, f),
            3 => motion_rotation_curve(p, len, entry, index, w, f),
            4 => motion_scale_curve(p, len, entry, index, part, w, f),
            5 => motion_channel_curve(p, len, entry, index, part, w, f),
            6 => motion_uv_matrix(p, len, entry, index, frame, f),
            7 => motion_material_name(p, len, entry, index, w),
            8 => motion_pattern_name(p, len, entry, index, w),
            9 => motion_texture_names(p, len, entry, w),
            10 => motion_palette_names(p, len, entry, w),
            11 => motion_keys(p, len, entry, index, w),
            12 => motion_choice(p, len, entry, index, frame, w),
            13 => motion_resample_translation(p, len, entry, index, f, room.min(40), place, w),
            14 => motion_resample_scale(p, len, entry, index, f, room.min(40), place, w),
            15 => motion_matrix(p, len, entry, index, frame, bytes.as_mut_ptr(), room.min(140)),
            16 => motion_check(p, len, entry),
            17 => motion_scale_value(p, len, entry, index, part, place, f),
            18 => {
                let (srt, pat) = s.split_at(index.min(len));
                motion_material(srt.as_ptr(), srt.len(), entry, pat.as_ptr(), pat.len(), part, c[9..25].as_ptr(), frame, f, w)
            }
            19 => {
                let (textures, rest) = s.split_at(index.min(len));
                let (palettes, rest) = rest.split_at(part.min(rest.len()));
                let (tracks, keys) = rest.split_at(place.min(rest.len()));
                motion_write_pattern(
                    c[9..25].as_ptr(),
                    frame,
                    textures.as_ptr(),
                    textures.len(),
                    palettes.as_ptr(),
                    palettes.len(),
                    tracks.as_ptr(),
                    tracks.len(),
                    keys.as_ptr(),
                    keys.len(),
                    bytes.as_mut_ptr(),
                    room.min(240),
                    w,
                )
            }
            20 => motion_pose(p, len, entry, frame, f, room.min(100), w),
            21 => motion_clip(p, len, entry, frame, index, f, room.min(100), w),
            22 => motion_kind(p, len, w),
            23 => motion_player_pick(p, len, w, entry),
            24 => motion_player_tick(p, len, w),
            25 => motion_player_mode(w, index as u32),
            26 => motion_player_picture(p, len, player.as_ptr(), index, f, w),
            code => panic!("no call has the code {code}"),
        }
    }
}

/// How many words, floats and bytes a call is lent.
fn lent(code: u8) -> (usize, usize, usize) {
    match code {
        0 => (5, 0, 0),
        2 | 5 => (8, 1, 0),
        3 => (8, 9, 0),
        4 => (8, 2, 0),
        6 => (0, 16, 0),
        13 | 14 => (4, 40, 0),
        15 => (0, 0, 140),
        16 => (0, 0, 0),
        17 => (0, 2, 0),
        18 => (3, 2, 0),
        19 => (1, 0, 240),
        20 | 21 => (1, 100, 0),
        22 => (1, 0, 0),
        23..=25 => (4, 0, 0),
        26 => (3, 16, 0),
        _ => (2, 0, 0),
    }
}

#[test]
fn stored_calls_keep_every_bit() {
    let stored = |name: &str| fs::read(format!("{}/../crates/replay/{name}", env!("CARGO_MANIFEST_DIR"))).unwrap();
    let (list, answers) = (stored("stdin"), String::from_utf8(stored("stdout")).unwrap());
    let count = u16::from_le_bytes([list[0], list[1]]) as usize;
    let word32 = |p: usize| u32::from_le_bytes(list[p..p + 4].try_into().unwrap()) as usize;
    assert_eq!(answers.lines().count(), count);
    let mut mixed = Mixed(86);
    // NaNs that were lent and left alone, quiet and signalling
    let mut nans = [0; 2];
    for round in 0..4 {
        for (k, line) in answers.lines().enumerate() {
            let at = 2 + 33 * k;
            let c = &list[at..at + 33];
            let s = &list[word32(at + 25)..][..word32(at + 29)];
            let (w, f, b) = lent(c[0]);
            let said: Vec<u64> = line.split(' ').map(|x| u64::from_str_radix(x, 16).unwrap()).collect();
            assert_eq!(said.len(), 1 + w + f + b, "call {k}: {line}");

            let player = player(c, &mut mixed);
            let mut words: Vec<u64> = match c[0] {
                23..=25 => player.to_vec(),
                _ => (0..w).map(|_| mixed.next()).collect(),
            };
            let mut floats: Vec<u64> = (0..f).map(|_| mixed.float()).collect();
            let mut bytes: Vec<u8> = (0..b).map(|_| mixed.next() as u8).collect();
            // what was lent, with what the stored answer wrote
            let now = |before: u64, said: u64| if said == LEFT { before } else { said };
            // of a player the words that the event sets
            let set = match c[0] {
                23..=25 if said[0] != 0 => 0..0,
                23 => 0..3,
                24 => 2..3,
                25 => 3..4,
                _ => 0..w,
            };
            let expected_words: Vec<u64> =
                words.iter().zip(&said[1..]).enumerate().map(|(i, (&x, &y))| if set.contains(&i) { now(x, y) } else { x }).collect();
            let expected_floats: Vec<u64> = floats.iter().zip(&said[1 + w..]).map(|(&x, &y)| now(x, y)).collect();
            let written = match c[0] {
                _ if said[0] != 0 => 0,
                // a section, as long as its word says
                19 => said[1] as usize,
                _ => 128,
            };
            let expected_bytes: Vec<u8> =
                bytes.iter().zip(&said[1 + w + f..]).enumerate().map(|(i, (&x, &y))| if i < written { y as u8 } else { x }).collect();
            for x in &expected_floats {
                if x << 1 > 0x7ff0 << 49 {
                    nans[(x >> 51 & 1) as usize] += 1;
                }
            }

            let number = call(c, s, &player, &mut words, &mut floats, &mut bytes);
            assert_eq!(number as u64, said[0], "call {k}, round {round}: the number");
            assert_eq!(words, expected_words, "call {k}, round {round}: the words");
            assert_eq!(floats, expected_floats, "call {k}, round {round}: the floats' bits");
            assert_eq!(bytes, expected_bytes, "call {k}, round {round}: the bytes");
        }
    }
    assert!(nans.iter().all(|&n| n > 1000), "too few NaNs were lent and left: {nans:?}");
}

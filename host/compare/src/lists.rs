//! Lists to write: as they should be, with one cause for a refusal or more, and at the bounds of each test.
use crate::rng::Rng;
use crate::writes::{causes, length, section, KEY, NAME, REFUSALS, TRACK};
use motion::Pattern;
use std::fmt;

/// What a pattern is written from.
#[derive(Clone, Debug, Default, PartialEq)]
pub struct Lists {
    pub name: [u8; 16],
    pub frames: u16,
    pub textures: Vec<u8>,
    pub palettes: Vec<u8>,
    pub tracks: Vec<u8>,
    pub keys: Vec<u8>,
}

impl fmt::Display for Lists {
    fn fmt(&self, f: &mut fmt::Formatter) -> fmt::Result {
        let hex = |bytes: &[u8]| bytes.iter().map(|b| format!("{b:02x}")).collect::<String>();
        writeln!(f, "name {} frames {}", hex(&self.name), self.frames)?;
        for (what, list) in [("textures", &self.textures), ("palettes", &self.palettes), ("tracks", &self.tracks), ("keys", &self.keys)] {
            writeln!(f, "{what} ({} bytes) {}", list.len(), hex(list))?;
        }
        Ok(())
    }
}

impl Lists {
    pub fn lent(&self) -> Pattern<'_> {
        let Lists { name, frames, textures, palettes, tracks, keys } = self;
        Pattern { name: *name, frames: *frames, textures, palettes, tracks, keys }
    }

    /// The bytes that are written if nothing is refused.
    pub fn length(&self) -> usize {
        length(&self.lent()) as usize
    }

    /// A track that says so many keys.
    pub fn track(&mut self, name: [u8; 16], count: u32) {
        self.tracks.extend(name);
        self.tracks.extend(count.to_le_bytes());
    }

    fn textures(&self) -> usize {
        self.textures.len() / NAME
    }

    fn palettes(&self) -> usize {
        self.palettes.len() / NAME
    }

    /// A track with so many keys, if there is something to choose; its name and its keys are of the numbers.
    fn keyed(&mut self, count: usize, rng: &mut Rng) {
        let count = if self.textures() == 0 || self.palettes() == 0 { 0 } else { count };
        self.track(name(rng), count as u32);
        for k in 0..count {
            // most keys are in order
            let frame = if rng.once_in(4) { rng.next() as u16 } else { 3 * k as u16 };
            self.keys.extend(frame.to_le_bytes());
            // the last of either sort now and then
            for names in [self.textures(), self.palettes()] {
                let index = if rng.once_in(4) { names - 1 } else { rng.below(names) };
                self.keys.push(index as u8);
            }
        }
    }

    /// Some track says so many keys more, in 32 bits.
    fn recount(&mut self, by: u32, rng: &mut Rng) {
        if self.tracks.len() < TRACK {
            self.track(name(rng), 0);
        }
        let at = TRACK * rng.below(self.tracks.len() / TRACK) + 16;
        let count: &mut [u8] = &mut self.tracks[at..at + 4];
        let other = u32::from_le_bytes([count[0], count[1], count[2], count[3]]).wrapping_add(by);
        count.copy_from_slice(&other.to_le_bytes());
    }
}

fn name(rng: &mut Rng) -> [u8; 16] {
    if rng.once_in(4) {
        return *b"sea\0\0\0\0\0\0\0\0\0\0\0\0\0";
    }
    rng.bytes(NAME).try_into().unwrap()
}

/// Names of both sorts and no track.
fn named(textures: usize, palettes: usize, rng: &mut Rng) -> Lists {
    let frames = if rng.once_in(4) { rng.pick(&[0, 1, 65_535]) } else { rng.next() as u16 };
    let (textures, palettes) = (rng.bytes(NAME * textures), rng.bytes(NAME * palettes));
    Lists { name: name(rng), frames, textures, palettes, ..Lists::default() }
}

/// Lists that are written where there is room.
fn whole(rng: &mut Rng) -> Lists {
    let few = |rng: &mut Rng| match rng.below(60) {
        0 => rng.pick(&[16, 254, 255]),
        n if n < 8 => 0,
        n => 1 + n % 4,
    };
    let (textures, palettes, tracks) = (few(rng), few(rng), few(rng));
    let mut lists = named(textures, palettes, rng);
    for _ in 0..tracks {
        let keys = if rng.once_in(4) { 0 } else { 1 + rng.below(5) };
        lists.keyed(keys, rng);
    }
    lists
}

/// Lists of which a track's keys stand at this place, a multiple of four, with so many tracks earlier; the tracks from there on have so many keys
/// each.
fn with_keys_at(place: usize, earlier: usize, textures: usize, palettes: usize, from_there: &[usize], rng: &mut Rng) -> Lists {
    let mut lists = named(textures, palettes, rng);
    let first = 28 + 28 * (earlier + from_there.len()) + NAME * (textures + palettes);
    let mut left = (place - first) / KEY;
    for t in 0..earlier {
        let keys = if t + 1 == earlier { left } else { rng.below(left.min(90) + 1) };
        lists.keyed(keys, rng);
        left -= keys;
    }
    from_there.iter().for_each(|&keys| lists.keyed(keys, rng));
    lists
}

/// Lists with a track whose keys stand around the last place that an offset can say, and tracks behind it, the last with many keys or none.
fn far(rng: &mut Rng) -> Lists {
    let place = rng.pick(&[65_524, 65_528, 65_532, 65_536, 65_540]);
    let mut from_there: Vec<_> = (0..rng.below(3)).map(|_| rng.below(3)).collect();
    from_there.push(rng.pick(&[0, 0, 1, 2, 17_000]));
    let earlier = if rng.once_in(10) { 250 } else { 1 + rng.below(3) };
    let [textures, palettes] = [(); 2].map(|_| if rng.once_in(10) { 255 } else { 1 + rng.below(4) });
    with_keys_at(place, earlier, textures, palettes, &from_there, rng)
}

/// Gives cause for a refusal with this number, 15, 9 or 8.
fn spoil(lists: &mut Lists, number: u32, rng: &mut Rng) {
    match number {
        15 => too_many(lists, rng),
        9 if rng.once_in(2) => left(lists, rng),
        9 => miscounted(lists, rng),
        _ => beyond(lists, rng),
    }
}

/// More than 255 of a sort.
fn too_many(lists: &mut Lists, rng: &mut Rng) {
    let most: usize = rng.pick(&[256, 256, 257, 300]);
    match rng.below(3) {
        0 => lists.textures.extend(rng.bytes(NAME * most.saturating_sub(lists.textures()))),
        1 => lists.palettes.extend(rng.bytes(NAME * most.saturating_sub(lists.palettes()))),
        _ => (lists.tracks.len() / TRACK..most).for_each(|_| lists.track(name(rng), 0)),
    }
}

/// Bytes left over in one of the lists.
fn left(lists: &mut Lists, rng: &mut Rng) {
    let all = [(&mut lists.textures, NAME), (&mut lists.palettes, NAME), (&mut lists.tracks, TRACK), (&mut lists.keys, KEY)];
    let (list, size) = all.into_iter().nth(rng.below(4)).unwrap();
    let more = 1 + rng.below(size - 1);
    list.extend(rng.bytes(more));
}

/// Another number of keys than the tracks say.
fn miscounted(lists: &mut Lists, rng: &mut Rng) {
    match rng.below(6) {
        0 => lists.recount(1, rng),
        1 => lists.recount(u32::MAX, rng),
        2 => lists.keys.extend([0; KEY]),
        3 => lists.keys.truncate(lists.keys.len().saturating_sub(KEY)),
        // sums that 32 bits do not hold, and numbers of bytes that they do not
        _ => huge(lists, rng),
    }
}

/// A key that chooses what is not there; where there is no key, one more.
fn beyond(lists: &mut Lists, rng: &mut Rng) {
    if lists.keys.len() < KEY {
        lists.track(name(rng), 1);
        lists.keys.extend([0; KEY]);
    }
    let at = KEY * rng.below(lists.keys.len() / KEY);
    let names = [lists.textures(), lists.palettes()];
    let sort = rng.below(2);
    let index = if rng.once_in(4) { 255 } else { names[sort] };
    lists.keys[at + 2 + sort] = index.min(255) as u8;
}

/// Counts that 32 bits would take for none, added to those that are there.
fn huge(lists: &mut Lists, rng: &mut Rng) {
    let counts: &[u32] = rng.pick(&HUGE);
    for &count in counts {
        match rng.once_in(2) {
            true => lists.track(name(rng), count),
            false => lists.recount(count, rng),
        }
    }
}

/// Counts whose sum is 0 in 32 bits, or four times whose sum is.
const HUGE: [&[u32]; 6] = [&[1 << 30], &[1 << 31], &[3 << 30], &[1 << 31, 1 << 31], &[u32::MAX, 1], &[1 << 30, 1 << 30, 1 << 30, 1 << 30]];

/// Lists with none to three causes for refusals, and how many bytes they are to be written into.
pub fn any(rng: &mut Rng) -> (Lists, usize) {
    let faults = match rng.below(10) {
        0..=4 => 0,
        5..=7 => 1,
        8 => 2,
        _ => 3,
    };
    let wanted: Vec<u32> = (0..faults).map(|_| rng.pick(&[15, 15, 9, 9, 9, 8, 8, 11, 11, 16])).collect();
    let is_far = wanted.contains(&16) || rng.once_in(80);
    let mut lists = if is_far { far(rng) } else { whole(rng) };
    for &number in wanted.iter().filter(|n| [15, 9, 8].contains(n)) {
        spoil(&mut lists, number, rng);
    }
    let needed = lists.length();
    let room = match (wanted.contains(&11), rng.below(3)) {
        (true, 0) => 0,
        (true, 1) => needed - 1,
        (true, _) => rng.below(needed),
        (false, 0) => needed + 1 + rng.below(40),
        (false, _) => needed,
    };
    (lists, room)
}

/// Lists at the bounds of each test.
pub fn edges(rng: &mut Rng) -> Vec<(Lists, usize)> {
    let exact = |lists: Lists| {
        let room = lists.length();
        (lists, room)
    };
    let mut found: Vec<_> =
        [numbered(rng), left_over(rng), counted(rng), chosen(rng), placed(rng)].concat().into_iter().map(exact).collect();
    // every room of a small one
    let mut small = named(2, 1, rng);
    [2, 0, 1].iter().for_each(|&keys| small.keyed(keys, rng));
    found.extend((0..small.length() + 3).map(|room| (small.clone(), room)));
    // two causes and no other, an earlier and a later one
    for (i, j) in (0..5).flat_map(|i| (i + 1..5).map(move |j| (i, j))) {
        for _ in 0..8 {
            found.push(with_two(i, j, rng));
        }
    }
    found
}

/// One list with so many items, as they are and with bytes left over.
fn numbered(rng: &mut Rng) -> Vec<Lists> {
    let mut found = Vec::new();
    for number in [0, 1, 254, 255, 256, 257] {
        for left_over in [0, 1, 15, 19] {
            let mut lists = [named(number, 1, rng), named(1, number, rng), named(1, 1, rng)];
            (0..number).for_each(|_| lists[2].keyed(1, rng));
            lists[0].textures.extend(rng.bytes(left_over % NAME));
            lists[1].palettes.extend(rng.bytes(left_over % NAME));
            lists[2].tracks.extend(rng.bytes(left_over));
            found.extend(lists);
        }
    }
    found
}

/// Every number of bytes left over in each list.
fn left_over(rng: &mut Rng) -> Vec<Lists> {
    let mut whole = named(1, 2, rng);
    whole.keyed(2, rng);
    let mut found = Vec::new();
    for more in 1..TRACK {
        let mut lists = [(); 4].map(|_| whole.clone());
        lists[0].textures.extend(rng.bytes(more % NAME));
        lists[1].palettes.extend(rng.bytes(more % NAME));
        lists[2].tracks.extend(rng.bytes(more));
        lists[3].keys.extend(rng.bytes(more % KEY));
        found.extend(lists);
    }
    found
}

/// Tracks whose counts would do if they were added, or taken times four, in 32 bits; and those that are one off.
fn counted(rng: &mut Rng) -> Vec<Lists> {
    let mut found = Vec::new();
    for counts in HUGE {
        for keys in 0..3 {
            let mut lists = named(1, 1, rng);
            for (t, &count) in counts.iter().enumerate() {
                lists.track(name(rng), count.wrapping_add(if t == 0 { keys } else { 0 }));
            }
            lists.keys = vec![0; KEY * keys as usize];
            found.push(lists);
        }
    }
    for (counts, keys) in [([1, 1], 1), ([1, 1], 2), ([1, 1], 3), ([0, 0], 1), ([0, 0], 0), ([0, 2], 2), ([2, 0], 2)] {
        let mut lists = named(1, 1, rng);
        counts.iter().for_each(|&count| lists.track(name(rng), count));
        lists.keys = vec![0; KEY * keys];
        found.push(lists);
    }
    // keys and no track
    let mut lists = named(1, 1, rng);
    lists.keys = vec![0; KEY];
    found.push(lists);
    found
}

/// A key that chooses the last of the names and the one after it, and the last that a byte can say.
fn chosen(rng: &mut Rng) -> Vec<Lists> {
    let mut found = Vec::new();
    let around = |names: usize| [names.wrapping_sub(1) as u8, names as u8, 255];
    for (textures, palettes) in [0, 1, 2, 255].into_iter().flat_map(|n| [0, 1, 2, 255].map(|m| (n, m))) {
        for (texture, palette) in around(textures).into_iter().flat_map(|t| around(palettes).map(|p| (t, p))) {
            let mut lists = named(textures, palettes, rng);
            lists.track(name(rng), 1);
            lists.keys = vec![7, 0, texture, palette];
            // sometimes a track follows whose keys choose what is there
            if textures > 0 && palettes > 0 && rng.once_in(2) {
                let keys = 1 + rng.below(3);
                lists.keyed(keys, rng);
            }
            found.push(lists);
        }
    }
    found
}

/// Keys around the last place that an offset can say, in an empty track and others; and long lists that stand near.
fn placed(rng: &mut Rng) -> Vec<Lists> {
    let mut found = Vec::new();
    for place in [65_528, 65_532, 65_536, 65_540] {
        for from_there in [&[0][..], &[1], &[0, 0], &[1, 0], &[17_000], &[17_000, 0]] {
            for earlier in [1, 3] {
                found.push(with_keys_at(place, earlier, 1, 2, from_there, rng));
            }
        }
        found.push(with_keys_at(place, 254, 255, 255, &[0], rng));
    }
    // as many keys as their offsets could not tell apart, and more than two bytes can count
    for keys in [16_383, 16_384, 17_000, 65_535, 65_536, 70_000] {
        let mut lists = named(1, 2, rng);
        lists.keyed(keys, rng);
        found.push(lists);
    }
    found
}

/// Lists and a room with cause for two refusals, by their places in the order of the tests, and for no third.
fn with_two(i: usize, j: usize, rng: &mut Rng) -> (Lists, usize) {
    let wanted: [bool; 5] = std::array::from_fn(|k| k == i || k == j);
    loop {
        let mut lists = if wanted[3] { with_keys_at(65_536, 1, 1, 2, &[1], rng) } else { whole(rng) };
        for k in (0..3).filter(|&k| wanted[k]) {
            spoil(&mut lists, REFUSALS[k], rng);
        }
        let room = lists.length() - wanted[4] as usize;
        if causes(&lists.lent(), room) == wanted {
            return (lists, room);
        }
    }
}

/// A PAT0 section whose tracks share one list of keys: the most that can be written again, when each has a list of its own, and so many more.
pub fn shared(more: usize, rng: &mut Rng) -> Vec<u8> {
    let (textures, palettes, tracks) = (1 + rng.below(3), 1 + rng.below(3), 2 + rng.below(11));
    let mut lists = named(textures, palettes, rng);
    let first = 28 + 28 * tracks + NAME * (textures + palettes);
    let keys = (65_535 - first) / KEY / (tracks - 1) + more;
    (1..tracks).for_each(|_| lists.track(name(rng), 0));
    lists.keyed(keys, rng);
    let mut s = section(&lists.lent());
    // every datum as the last one
    let datums = 48 + 12 + 16 + 4 * tracks;
    let last = datums + 8 * (tracks - 1);
    (0..tracks).for_each(|t| s.copy_within(last..last + 8, datums + 8 * t));
    s
}

/// Lists whose sections have 240 bytes, hardly more or fewer, and rooms for each: accepted ones with exact rooms, too small ones and larger ones,
/// and those that are refused with 9 and with 8, some with cause for a later refusal too.
pub fn small() -> Vec<(Lists, Vec<usize>)> {
    let rng = &mut Rng::new(10);
    let mut found = Vec::new();
    // textures, palettes, and the keys of each track
    let sizes: [(usize, usize, &[usize]); 11] = [
        (0, 0, &[]),
        (1, 1, &[2]),
        (2, 1, &[0, 3]),
        (1, 2, &[2, 0, 1]),
        (1, 1, &[0, 0]),
        (2, 2, &[1, 2]),
        (4, 3, &[]),
        (2, 0, &[0]),
        (0, 3, &[]),
        (1, 1, &[26]),
        (1, 1, &[27]),
    ];
    for (k, (textures, palettes, tracks)) in sizes.into_iter().enumerate() {
        let mut lists = named(textures, palettes, rng);
        tracks.iter().for_each(|&keys| lists.keyed(keys, rng));
        let n = lists.length();
        let rooms = if k < 4 { vec![n, n - 1, n + 1, 240, 0] } else { vec![n, n - 1] };
        found.push((lists, rooms));
    }
    let mut whole = named(2, 1, rng);
    whole.keyed(2, rng);
    let with = |change: &dyn Fn(&mut Lists)| {
        let mut lists = whole.clone();
        change(&mut lists);
        (lists, vec![240])
    };
    // bytes left over, and the last of them with too little room
    found.push(with(&|l| l.textures.push(1)));
    found.push(with(&|l| l.textures.extend([1; 15])));
    found.push(with(&|l| l.palettes.push(1)));
    found.push(with(&|l| l.palettes.extend([1; 15])));
    found.push(with(&|l| l.tracks.push(0)));
    found.push(with(&|l| l.tracks.extend([0; 19])));
    found.push(with(&|l| l.keys.extend([0; 3])));
    found.push((with(&|l| l.keys.push(0)).0, vec![240, 0]));
    // counts that are not the number of keys
    found.push(with(&|l| l.tracks[16] = 1));
    found.push(with(&|l| l.tracks[16] = 3));
    found.push(with(&|l| l.tracks[19] = 0x40));
    for counts in HUGE {
        let tracks = |l: &mut Lists| {
            l.tracks.clear();
            l.keys.clear();
            counts.iter().for_each(|&count| l.track([b'm'; 16], count));
        };
        found.push(with(&tracks));
    }
    // a key that chooses what is not there, and the same with bytes left over, or with too little room
    found.push(with(&|l| l.keys[2] = 2));
    found.push(with(&|l| l.keys[7] = 1));
    found.push(with(&|l| l.keys[6] = 255));
    found.push(with(&|l| l.textures.clear()));
    found.push((with(&|l| l.palettes.clear()).0, vec![240, 0]));
    found.push(with(&|l| {
        l.keys[3] = 1;
        l.keys.push(0);
    }));
    found
}

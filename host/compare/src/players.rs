//! Players: lists of events on sections, held to a plain machine with document 02's three fields and rules, and the pictures after them. Whether an
//! entry is whole, how many frames it has and what it shows is the Rust's. Kinds by the stamp. And what a cut does.
use crate::agree::Agreed;
use crate::fill;
use crate::layout;
use crate::oracle::{self, Entry, Value};
use crate::rng::Rng;

extern "C" {
    fn motion_kind(s: *const u8, length: usize, kind: *mut u64) -> u32;
    fn motion_player_pick(s: *const u8, length: usize, player: *mut u64, entry: usize) -> u32;
    fn motion_player_tick(s: *const u8, length: usize, player: *mut u64) -> u32;
    fn motion_player_mode(player: *mut u64, looping: u32) -> u32;
    // the player is not to be written, and whether it is can be seen
    fn motion_player_picture(s: *const u8, length: usize, player: *mut u64, index: usize, matrix: *mut u64, picture: *mut u64) -> u32;
}

/// How much was compared.
#[derive(Default)]
pub struct Counts {
    /// Events, and the pictures after them, refused ones among them.
    pub events: usize,
    pub pictures: usize,
    /// Picks and ticks refused with each number, and pictures.
    pub refused: [usize; 18],
    pub no_picture: [usize; 18],
    /// Picks with ticks after them in one mode.
    pub runs: usize,
    pub kinds: usize,
    pub cuts: usize,
    /// Ticks to hold and to loop: before the last frame, at it, past it, and of an entry with 0 frames.
    ticks: [[usize; 4]; 2],
    /// Matrices of JNT0, matrices of SRT0, and choices.
    shown: [usize; 3],
    /// Refused picks where an entry was picked, and refused ticks past frame 0.
    kept: [usize; 2],
    /// Modes before a pick, picks of the entry that was picked, and ticks that are past the last frame since the section is another one.
    early: usize,
    again: usize,
    handed: usize,
}

impl Counts {
    /// What should have occurred and did not.
    pub fn missing(&self) -> Vec<String> {
        let mut missing = Vec::new();
        let mut note = |count: usize, what: String| missing.extend((count == 0).then(|| format!("no {what}")));
        for (ticks, mode) in self.ticks.into_iter().zip(["hold", "loop"]) {
            for (count, place) in
                ticks.into_iter().zip(["before the last frame", "at the last frame", "past the last frame", "of 0 frames"])
            {
                note(count, format!("tick to {mode} {place}"));
            }
        }
        for (count, what) in self.shown.into_iter().zip(["matrix of JNT0", "matrix of SRT0", "choice"]) {
            note(count, format!("{what} as a picture"));
        }
        note(self.kept[0], "refused pick where an entry was picked".into());
        note(self.kept[1], "refused tick past frame 0".into());
        note(self.early, "mode before a pick".into());
        note(self.again, "entry that was picked again".into());
        note(self.handed, "player that was past the end of another section's entry".into());
        for n in [1, 2, 3, 4, 5, 6, 7, 8, 9, 12, 17] {
            note(self.refused[n], format!("pick or tick refused with {n}"));
            note(self.no_picture[n], format!("picture refused with {n}"));
        }
        note(self.no_picture[10], "picture refused with 10".into());
        missing
    }
}

// ---- the plain machine

/// What the Rust reads of a section.
pub type Read = Result<Vec<Entry>, u32>;

/// An entry, if it is whole.
fn entry(read: &Read, i: usize) -> Result<&Value, u32> {
    let entries = read.as_ref().map_err(|&n| n)?;
    entries.get(i).ok_or(9u32)?.value.as_ref().map_err(|&n| n)
}

/// The kind of a section by its stamp.
pub fn kind(s: &[u8]) -> Result<u64, u32> {
    match s {
        [b'J', b'N', b'T', b'0', ..] => Ok(0),
        [b'S', b'R', b'T', b'0', ..] => Ok(1),
        [b'P', b'A', b'T', b'0', ..] => Ok(2),
        [_, _, _, _, ..] => Err(1),
        _ => Err(2),
    }
}

#[derive(Clone, Copy, Debug)]
pub enum Event {
    Pick(usize),
    Tick,
    /// To hold if it is 0, and else to loop.
    Mode(u32),
}

/// What is shown, a matrix as the bits of its floats.
pub enum Picture {
    Matrix([u64; 16]),
    Choice(u8, u8),
}

impl Picture {
    fn matrix(columns: [[f64; 4]; 4]) -> Self {
        let mut bits = [0; 16];
        bits.iter_mut().zip(columns.as_flattened()).for_each(|(bits, x)| *bits = x.to_bits());
        Picture::Matrix(bits)
    }
}

/// Document 02's player.
#[derive(Clone, Copy, Debug, Default, PartialEq)]
pub struct Machine {
    entry: Option<usize>,
    frame: u16,
    looping: bool,
}

impl Machine {
    /// The one that four words stand for.
    pub fn of(words: [u64; 4]) -> Self {
        Machine { entry: (words[0] != 0).then_some(words[1] as usize), frame: words[2] as u16, looping: words[3] != 0 }
    }

    /// The entry that is picked, as the section has it.
    fn value<'a>(&self, read: &'a Read) -> Result<&'a Value, u32> {
        entry(read, self.entry.ok_or(17u32)?)
    }

    pub fn run(&mut self, read: &Read, event: Event) -> Result<(), u32> {
        match event {
            Event::Pick(i) => {
                entry(read, i)?;
                self.entry = Some(i);
                self.frame = 0;
            }
            Event::Tick => {
                let (frames, _) = oracle::frames_and_count(self.value(read)?);
                if frames == 0 {
                    self.frame = 0;
                } else if self.frame < frames - 1 {
                    self.frame += 1;
                } else if self.looping {
                    self.frame = 0;
                }
            }
            Event::Mode(looping) => self.looping = looping != 0,
        }
        Ok(())
    }

    /// The four words after an accepted event: those that it sets are this player's, and the others keep their contents.
    pub fn words(&self, event: Event, [picked, entry, frame, looping]: [u64; 4]) -> [u64; 4] {
        match event {
            Event::Pick(i) => [1, i as u64, 0, looping],
            Event::Tick => [picked, entry, self.frame as u64, looping],
            Event::Mode(_) => [picked, entry, frame, self.looping as u64],
        }
    }

    pub fn picture(&self, read: &Read, index: usize) -> Result<Picture, u32> {
        Ok(match self.value(read)? {
            Value::Jnt(a) => Picture::matrix(a.objects_curves.get(index).ok_or(9u32)?.sample_at(self.frame).columns),
            Value::Srt(a) => Picture::matrix(a.tracks.get(index).ok_or(9u32)?.eval_uv_mat(self.frame).columns),
            Value::Pat(a) => match a.material_tracks.get(index).ok_or(9u32)? {
                // here the Rust panics
                track if track.keyframes.is_empty() => return Err(10),
                track => {
                    let (texture, palette) = track.sample(self.frame);
                    Picture::Choice(texture, palette)
                }
            },
        })
    }
}

// ---- what is asked, here and of the machine

/// What is asked of a player.
#[derive(Clone, Copy, Debug)]
enum Asked {
    Event(Event),
    Picture(usize),
}

/// A player's words, and what a picture is written into, floats as their bits.
#[derive(Clone, Copy, Debug, PartialEq)]
struct Lent {
    player: [u64; 4],
    matrix: [u64; 16],
    picture: [u64; 3],
}

impl Lent {
    fn new(player: [u64; 4], rng: &mut Rng) -> Self {
        Lent { player, matrix: fill::floats(rng, 16).try_into().unwrap(), picture: [rng.next(), rng.next(), rng.next()] }
    }

    /// For an event, which writes no picture.
    fn player(player: [u64; 4]) -> Self {
        Lent { player, matrix: [0; 16], picture: [0; 3] }
    }
}

/// The number, and what is lent as it stands afterwards.
type After = (u32, Lent);

fn ours(s: &[u8], asked: Asked, mut lent: Lent) -> After {
    let (p, length, player) = (s.as_ptr(), s.len(), lent.player.as_mut_ptr());
    let number = unsafe {
        match asked {
            Asked::Event(Event::Pick(i)) => motion_player_pick(p, length, player, i),
            Asked::Event(Event::Tick) => motion_player_tick(p, length, player),
            Asked::Event(Event::Mode(looping)) => motion_player_mode(player, looping),
            Asked::Picture(index) => motion_player_picture(p, length, player, index, lent.matrix.as_mut_ptr(), lent.picture.as_mut_ptr()),
        }
    };
    (number, lent)
}

/// What is expected of it. An event changes the machine.
fn expected(machine: &mut Machine, read: &Read, asked: Asked, mut lent: Lent) -> After {
    let answered = match asked {
        Asked::Event(event) => machine.run(read, event).map(|()| lent.player = machine.words(event, lent.player)),
        Asked::Picture(index) => machine.picture(read, index).map(|picture| match picture {
            Picture::Matrix(bits) => {
                lent.matrix = bits;
                lent.picture[0] = 1;
            }
            Picture::Choice(texture, palette) => lent.picture = [2, texture as u64, palette as u64],
        }),
    };
    (answered.err().unwrap_or(0), lent)
}

/// A section, and what the Rust reads of it.
struct Section<'a> {
    bytes: &'a [u8],
    read: Read,
}

impl<'a> Section<'a> {
    fn new(bytes: &'a [u8]) -> Self {
        Section { bytes, read: oracle::read(bytes) }
    }

    /// How many entries there are.
    fn entries(&self) -> usize {
        self.read.as_ref().map_or(0, Vec::len)
    }
}

/// An index: most often below a count, or past it; also one that would be below it in 16 or in 32 bits.
fn index(count: usize, rng: &mut Rng) -> usize {
    let good = rng.below(count.max(1));
    match rng.below(24) {
        0 => count,
        1 => usize::MAX - rng.below(2),
        2 => rng.pick(&[1 << 16, 1 << 32, 1 << 63]) + good,
        _ => good,
    }
}

/// A player in its words, and the machine beside it.
struct Player {
    machine: Machine,
    words: [u64; 4],
}

impl Player {
    /// Words that stand for a machine, with anything in them that says nothing of it.
    fn like(machine: Machine, rng: &mut Rng) -> Self {
        let any = rng.next();
        let word = |is: bool, rng: &mut Rng| if is { rng.pick(&[1, 1, 2, 7, 1 << 16, 1 << 32, 1 << 63, any | 1]) } else { 0 };
        let (picked, looping) = (word(machine.entry.is_some(), rng), word(machine.looping, rng));
        let above = if rng.once_in(3) { 0 } else { any << 16 };
        Player { machine, words: [picked, machine.entry.map_or(any, |i| i as u64), above | machine.frame as u64, looping] }
    }

    fn new(rng: &mut Rng) -> Self {
        Player::like(Machine::default(), rng)
    }

    /// One that is somewhere in an entry, whole or not: most often near its last frame.
    fn within(i: usize, read: &Read, rng: &mut Rng) -> Self {
        let frames = entry(read, i).map_or(0, |value| oracle::frames_and_count(value).0);
        let frame = match rng.below(8) {
            0 => rng.next() as u16,
            1 => 65_535,
            2 => rng.below(16) as u16,
            _ => frames.saturating_add(1).saturating_sub(rng.below(4) as u16),
        };
        Player::like(Machine { entry: Some(i), frame, looping: rng.once_in(2) }, rng)
    }

    /// What is asked, here and of the machine: the number, and every word and float that is lent.
    fn ask(&mut self, s: &Section, asked: Asked, rng: &mut Rng, counts: &mut Counts) -> Agreed {
        let before = self.machine;
        let lent = match asked {
            Asked::Event(_) => Lent::player(self.words),
            Asked::Picture(_) => Lent::new(self.words, rng),
        };
        let here = ours(s.bytes, asked, lent);
        let there = expected(&mut self.machine, &s.read, asked, lent);
        if here != there || Machine::of(here.1.player) != self.machine {
            return Err(format!("{asked:?} of {before:?}, lent {lent:x?}: here {here:x?}, the machine {there:x?}"));
        }
        self.words = here.1.player;
        counts.add(s, asked, &before, here.0);
        Ok(())
    }

    fn event(&mut self, s: &Section, event: Event, rng: &mut Rng, counts: &mut Counts) -> Agreed {
        self.ask(s, Asked::Event(event), rng, counts)
    }

    /// So many events, with a picture after each. Between them the words may change to others that stand for the same.
    fn play(&mut self, s: &Section, events: usize, rng: &mut Rng, counts: &mut Counts) -> Agreed {
        for _ in 0..events {
            let event = match rng.below(8) {
                0 => Event::Mode(rng.pick(&[0, 0, 0, 1, 2, 1 << 16, 1 << 31])),
                1 | 2 => Event::Pick(index(s.entries(), rng)),
                3..=6 if self.machine.entry.is_none() => Event::Pick(index(s.entries(), rng)),
                _ => Event::Tick,
            };
            self.event(s, event, rng, counts)?;
            let count = self.machine.value(&s.read).map_or(1, |value| oracle::frames_and_count(value).1);
            self.ask(s, Asked::Picture(index(count, rng)), rng, counts)?;
            if rng.once_in(4) {
                *self = Player::like(self.machine, rng);
            }
        }
        Ok(())
    }
}

impl Counts {
    /// What was asked of a machine, and its number.
    fn add(&mut self, s: &Section, asked: Asked, machine: &Machine, number: u32) {
        let refused = usize::from(number != 0);
        match asked {
            Asked::Event(Event::Pick(i)) => {
                self.kept[0] += refused & usize::from(machine.entry.is_some());
                self.again += usize::from(number == 0 && machine.entry == Some(i));
            }
            Asked::Event(Event::Tick) => {
                self.kept[1] += refused & usize::from(machine.frame > 0);
                if let Ok(value) = machine.value(&s.read) {
                    let (frames, frame) = (oracle::frames_and_count(value).0, machine.frame);
                    let place = if frames == 0 { 3 } else { usize::from(frame >= frames - 1) + usize::from(frame >= frames) };
                    self.ticks[usize::from(machine.looping)][place] += 1;
                }
            }
            Asked::Event(Event::Mode(_)) => self.early += usize::from(machine.entry.is_none()),
            Asked::Picture(_) => {
                self.pictures += 1;
                self.no_picture[number as usize] += refused;
                if let (0, Ok(kind)) = (number, kind(s.bytes)) {
                    self.shown[kind as usize] += 1;
                }
                return;
            }
        }
        self.events += 1;
        self.refused[number as usize] += refused;
    }
}

/// The kind of a section. Nothing is written where it has none.
fn compare_kind(s: &[u8], rng: &mut Rng, counts: &mut Counts) -> Agreed {
    let lent = rng.next();
    let mut word = lent;
    let number = unsafe { motion_kind(s.as_ptr(), s.len(), &mut word) };
    let expected = kind(s).map_or_else(|n| (n, lent), |kind| (0, kind));
    if (number, word) != expected {
        return Err(format!("the kind: here {:?}, by the stamp {expected:?}", (number, word)));
    }
    counts.kinds += 1;
    Ok(())
}

/// The kind of a section, and lists of events on it: from a new player, from one in each of the first entries, and from one in any.
pub fn section(s: &[u8], rng: &mut Rng, counts: &mut Counts) -> Agreed {
    compare_kind(s, rng, counts)?;
    let s = &Section::new(s);
    let events = if s.read.is_ok() { 3 } else { 1 };
    Player::new(rng).play(s, events, rng, counts)?;
    for i in (0..s.entries().min(3)).chain([index(s.entries(), rng)]) {
        let mut player = Player::within(i, &s.read, rng);
        player.event(s, Event::Tick, rng, counts)?;
        player.play(s, 1, rng, counts)?;
    }
    // sometimes a long one
    if s.read.is_ok() && rng.once_in(200) {
        Player::new(rng).play(s, 100, rng, counts)?;
    }
    Ok(())
}

/// A new player on one section, then on another, and on the first again.
pub fn handed(first: &[u8], second: &[u8], rng: &mut Rng, counts: &mut Counts) -> Agreed {
    let past = |counts: &Counts| counts.ticks[0][2] + counts.ticks[1][2];
    let [first, second] = [first, second].map(Section::new);
    let mut player = Player::new(rng);
    player.play(&first, 2, rng, counts)?;
    player.event(&first, Event::Pick(rng.below(first.entries().max(1))), rng, counts)?;
    // most often to the last frame or near it
    let frames = player.machine.value(&first.read).map_or(1, |value| oracle::frames_and_count(value).0);
    for _ in rng.below(4)..frames.min(60) as usize {
        player.event(&first, Event::Tick, rng, counts)?;
    }
    let before = past(counts);
    player.play(&second, 4, rng, counts)?;
    counts.handed += past(counts) - before;
    player.play(&first, 3, rng, counts)
}

// ---- ticks in one mode

/// A pick and so many ticks after it: what is shown is the lesser of their number and the last frame, or their number modulo the frames.
fn run_of_ticks(s: &[u8], i: usize, frames: u16, looping: bool, ticks: usize, rng: &mut Rng, counts: &mut Counts) -> Agreed {
    let mut lent = Lent::player(Player::like(Machine { looping, ..Machine::default() }, rng).words);
    for k in 0..=ticks {
        let shown = match frames as usize {
            0 => 0,
            n if looping => k % n,
            n => k.min(n - 1),
        };
        let expected = (0, Lent { player: [1, i as u64, shown as u64, lent.player[3]], ..lent });
        let here = ours(s, Asked::Event(if k == 0 { Event::Pick(i) } else { Event::Tick }), lent);
        if here != expected {
            return Err(format!("entry {i} of {frames} frames after {k} ticks, looping {looping}: here {here:x?}, expected {expected:x?}"));
        }
        lent = here.1;
    }
    counts.runs += 1;
    Ok(())
}

/// An entry of a section, to its end and past it.
pub fn ticks(s: &[u8], rng: &mut Rng, counts: &mut Counts) -> Agreed {
    let s = Section::new(s);
    let i = rng.below(s.entries().max(1));
    match entry(&s.read, i).map(|value| oracle::frames_and_count(value).0) {
        Ok(frames @ 0..=60) => run_of_ticks(s.bytes, i, frames, rng.once_in(2), 2 * frames as usize + 2, rng, counts),
        _ => Ok(()),
    }
}

/// The first entry of a section with other numbers of frames, up to the greatest.
pub fn longest(s: &[u8], rng: &mut Rng, counts: &mut Counts) -> Agreed {
    for frames in [0, 1, 2, 300, 65_535] {
        let mut s = s.to_vec();
        let place = layout::entry(&s, 0) + 4;
        s[place..place + 2].copy_from_slice(&u16::to_le_bytes(frames));
        // an animation without frames is refused
        if entry(&oracle::read(&s), 0).is_ok() {
            for looping in [false, true] {
                run_of_ticks(&s, 0, frames, looping, frames as usize + 3, rng, counts)?;
            }
        }
    }
    Ok(())
}

// ---- cuts

/// Every event of a list from a new player, and a picture after each.
fn list(s: &[u8], events: &[Event], lent: Lent) -> Vec<After> {
    let mut player = [0; 4];
    let mut found = Vec::new();
    for &event in events {
        let after = ours(s, Asked::Event(event), Lent { player, ..lent });
        player = after.1.player;
        found.extend([after, ours(s, Asked::Picture(0), Lent { player, ..lent })]);
    }
    found
}

/// Every cut of a section: its kind, and picks, ticks and pictures of its entries, on the front, with other bytes behind it, and on the section as it
/// was.
pub fn cuts(s: &[u8], rng: &mut Rng, counts: &mut Counts) -> Agreed {
    let entries = (0..).take_while(|&i| motion::number(s, i) != 9 && i < 4).count();
    for i in 0..entries {
        let record = motion::check(s, i);
        let (count, end) = record.map_or((1, 1), |r| (r.count, r.frames));
        let within = |looping: bool, rng: &mut Rng| {
            let frame = end.saturating_add(1).saturating_sub(rng.below(4) as u16);
            Player::like(Machine { entry: Some(i), frame, looping }, rng).words
        };
        let asked = [
            (Asked::Event(Event::Pick(i)), Player::new(rng).words),
            (Asked::Event(Event::Pick(i)), within(rng.once_in(2), rng)),
            (Asked::Event(Event::Tick), within(false, rng)),
            (Asked::Event(Event::Tick), within(true, rng)),
            (Asked::Picture(rng.below(count.max(1))), within(rng.once_in(2), rng)),
            (Asked::Picture(count), within(rng.once_in(2), rng)),
        ];
        let asked = asked.map(|(asked, player)| (asked, Lent::new(player, rng)));
        let mut events = vec![Event::Tick, Event::Mode(rng.below(2) as u32), Event::Pick(i), Event::Pick(usize::MAX - rng.below(2))];
        events.extend([(); 3].map(|_| if rng.once_in(4) { Event::Mode(rng.below(2) as u32) } else { Event::Tick }));
        let answers = |s: &[u8]| asked.map(|(asked, lent)| ours(s, asked, lent));
        let listed = |s: &[u8]| list(s, &events, asked[0].1);
        let (uncut, uncut_list) = (answers(s), listed(s));
        for k in 0..=s.len() {
            counts.cuts += 1;
            let n = rng.below(20);
            let tail = &[s[..k].to_vec(), rng.bytes(n)].concat();
            compare_kind(&s[..k], rng, counts)?;
            compare_kind(tail, rng, counts)?;
            let (front, with_tail) = (answers(&s[..k]), answers(tail));
            for (call, (asked, lent)) in asked.iter().enumerate() {
                let (uncut, front, with_tail) = (uncut[call], front[call], with_tail[call]);
                let at = |what: &str| {
                    let numbers = [uncut, front, with_tail].map(|after| after.0);
                    Err(format!("entry {i}, cut at {k}, {asked:?} of {:x?}: {what}; uncut, front, with a tail {numbers:?}", lent.player))
                };
                if [front, with_tail].iter().any(|(number, after)| *number != 0 && after != lent) {
                    return at("a refused call has written");
                }
                if front.0 != 0 && front.0 != 2 && with_tail != front {
                    return at("a refusal did not stay");
                }
                if let Ok(r) = record {
                    if r.reach <= k && (front != uncut || with_tail != uncut) {
                        return at("another answer from the reach on");
                    }
                    if k < r.reach && front.0 != 2 {
                        return at("not too short before the reach");
                    }
                }
            }
            if record.is_ok_and(|r| r.reach <= k) && [&s[..k], tail].iter().any(|s| listed(s) != uncut_list) {
                return Err(format!("entry {i}, cut at {k}, {events:?}: another answer from the reach on"));
            }
        }
    }
    Ok(())
}

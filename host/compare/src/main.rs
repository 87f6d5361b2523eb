//! compare [SEED] [SECTIONS]: holds every call to the Rust, on sections of every kind, and players to a plain machine; tries what a cut does, and
//! reads what is written.
//! compare --store DIR: writes the list that crates/replay runs, DIR/stdin, and the Rust's answers, DIR/stdout.
use compare::agree::{self, Agreed, Counts};
use compare::lists::Lists;
use compare::rng::Rng;
use compare::{cuts, lists, materials, players, poses, replay, sections, writes};
use std::io::Write;
use std::panic::{catch_unwind, AssertUnwindSafe};

struct Run {
    seed: u64,
    rng: Rng,
    counts: Counts,
    /// Of what is written. It has numbers of its own, so that the sections stay the same.
    own: Rng,
    written: writes::Counts,
    /// Of poses and clips, which have numbers of their own too.
    posing: Rng,
    posed: poses::Counts,
    /// Of players, which have numbers of their own too.
    playing: Rng,
    played: players::Counts,
}

impl Run {
    /// One section; a mismatch ends the run.
    fn section(&mut self, what: &str, s: &[u8]) {
        let agreed = caught(|| agree::section(s, &mut self.rng, &mut self.counts));
        self.held(what, s, agreed);
        let agreed = caught(|| poses::section(s, &mut self.posing, &mut self.posed));
        self.held(what, s, agreed);
        let agreed = caught(|| players::section(s, &mut self.playing, &mut self.played));
        self.held(what, s, agreed);
        if self.counts.sections % 20_000 == 0 {
            progress(&self.counts);
        }
    }

    fn cuts(&mut self, s: &[u8]) {
        let agreed = caught(|| cuts::every(s, &mut self.rng, &mut self.counts));
        self.held("cuts", s, agreed);
        let agreed = caught(|| poses::cuts(s, &mut self.posing, &mut self.posed));
        self.held("cuts", s, agreed);
        if s.len() < 700 {
            let agreed = caught(|| players::cuts(s, &mut self.playing, &mut self.played));
            self.held("cuts", s, agreed);
        }
    }

    fn longest_clip(&mut self, s: &[u8]) {
        let agreed = caught(|| poses::longest(s, &mut self.posing, &mut self.posed));
        self.held("longest clips", s, agreed);
    }

    fn longest_ticks(&mut self, s: &[u8]) {
        let agreed = caught(|| players::longest(s, &mut self.playing, &mut self.played));
        self.held("longest ticks", s, agreed);
    }

    /// Ticks to the end of an entry and past it, and a player that is handed to another section.
    fn players(&mut self, first: &[u8], second: &[u8]) {
        let agreed = caught(|| players::ticks(first, &mut self.playing, &mut self.played));
        self.held("ticks in one mode", first, agreed);
        let agreed = caught(|| players::handed(first, second, &mut self.playing, &mut self.played));
        self.held("players on two sections", first, agreed.map_err(|m| format!("{m}\nwith the section {}", hex(second))));
    }

    /// Two sections together.
    fn pair(&mut self, what: &str, srt: &[u8], pat: &[u8]) {
        let agreed = caught(|| materials::sections(srt, pat, &mut self.rng, &mut self.counts));
        self.held_pair(what, srt, pat, agreed);
    }

    fn pair_cuts(&mut self, srt: &[u8], pat: &[u8]) {
        let agreed = caught(|| materials::cuts(srt, pat, &mut self.rng, &mut self.counts));
        self.held_pair("cuts of two sections", srt, pat, agreed);
    }

    /// Lists that are to be written into so many bytes.
    fn write(&mut self, what: &str, lists: &Lists, room: usize) {
        let agreed = caught(|| writes::lists(&lists.lent(), room, &mut self.own, &mut self.written));
        if let Err(message) = agreed {
            self.mismatch(what, &message, &format!("into {room} bytes\n{lists}"));
        }
    }

    /// A PAT0 section whose entries are written again.
    fn write_again(&mut self, what: &str, s: &[u8]) {
        let agreed = caught(|| writes::again(s, &mut self.own, &mut self.written));
        self.held(what, s, agreed);
    }

    fn held_pair(&self, what: &str, srt: &[u8], pat: &[u8], agreed: Agreed) {
        self.held(what, srt, agreed.map_err(|m| format!("{m}\nwith the PAT0 section {}", hex(pat))));
    }

    fn held(&self, what: &str, s: &[u8], agreed: Agreed) {
        if let Err(message) = agreed {
            self.mismatch(what, &message, &format!("section {}", hex(s)));
        }
    }

    fn mismatch(&self, what: &str, message: &str, input: &str) {
        println!("\nmismatch in the {what}, seed {}\n{message}\n{input}", self.seed);
        std::process::exit(1);
    }
}

/// The bytes of a section; the long ones are the same in every run, or in every run with this seed.
fn hex(s: &[u8]) -> String {
    match s.len() {
        0..=65_536 => s.iter().map(|b| format!("{b:02x}")).collect(),
        n => format!("of {n} bytes"),
    }
}

/// A panic that nobody expected is a mismatch too.
fn caught(compare: impl FnOnce() -> Agreed) -> Agreed {
    catch_unwind(AssertUnwindSafe(compare)).unwrap_or_else(|panic| {
        let said = panic.downcast_ref::<String>().cloned();
        Err(format!("a panic: {}", said.unwrap_or_default()))
    })
}

fn progress(c: &Counts) {
    show(&format!("{} sections, {} cuts", c.sections, c.cuts));
}

fn show(done: &str) {
    eprint!("\r{done:<60}");
    let _ = std::io::stderr().flush();
}

/// How many there are of each number.
fn by_number(refused: &[usize]) -> String {
    let some = refused.iter().enumerate().filter(|(_, &count)| count > 0);
    some.map(|(n, count)| format!("{n}: {count}")).collect::<Vec<_>>().join(", ")
}

fn number(argument: Option<String>, default: usize) -> usize {
    argument.map_or(default, |a| {
        a.parse().unwrap_or_else(|_| {
            eprintln!("compare [SEED] [SECTIONS]: {a:?} is no number");
            std::process::exit(2)
        })
    })
}

fn store(folder: Option<String>) {
    let Some(folder) = folder else {
        eprintln!("compare --store DIR");
        std::process::exit(2)
    };
    let (list, answers) = replay::stored(300);
    for (file, bytes) in [("stdin", &list[..]), ("stdout", answers.as_bytes())] {
        if let Err(e) = std::fs::write(format!("{folder}/{file}"), bytes) {
            eprintln!("{folder}/{file} cannot be written: {e}");
            std::process::exit(2)
        }
    }
}

fn main() {
    let mut args = std::env::args().skip(1).peekable();
    // the Rust's panics are answers here
    std::panic::set_hook(Box::new(|_| {}));
    if args.next_if_eq("--store").is_some() {
        return store(args.next());
    }
    let seed = number(args.next(), 1) as u64;
    let sections = number(args.next(), 20_000);
    let mut run = Run {
        seed,
        rng: Rng::new(seed),
        counts: Counts::default(),
        own: Rng::new(!seed),
        written: writes::Counts::default(),
        posing: Rng::new(seed ^ 1 << 63),
        posed: poses::Counts::default(),
        playing: Rng::new(seed ^ 1 << 62),
        played: players::Counts::default(),
    };

    // short ones: none, one and two bytes of every value, and three that begin a stamp
    run.section("short sections", &[]);
    for a in 0..=255 {
        run.section("short sections", &[a]);
        run.section("short sections", &[b'J', b'N', a]);
        run.section("stamps", &[b'J', b'N', b'T', a]);
        run.section("stamps", &[b'P', b'A', a, b'0']);
        run.section("stamps", &[a, b'R', b'T', b'0']);
        for b in 0..=255 {
            run.section("short sections", &[a, b]);
        }
    }
    // each value of an object's flags, and of a pivot record's select and neg
    for flags in 0..=0xffff {
        let s = sections::with_flags(flags, &mut run.rng);
        run.section("flags", &s);
    }
    for selneg in 0..=0xffff {
        if selneg < 256 || selneg % 97 == 0 {
            let s = sections::with_pivot(selneg, &mut run.rng);
            run.section("pivot records", &s);
        }
    }
    // entries inside the info block
    for s in sections::inside_the_block(&mut run.rng) {
        run.section("entries inside the info block", &s);
        run.cuts(&s);
    }
    // small sections with every byte set to every value, and every word to an extreme
    for small in sections::small(&mut run.rng) {
        for at in 0..small.len() {
            for value in 0..=255 {
                let mut s = small.clone();
                s[at] = value;
                run.section("single bytes", &s);
            }
            for s in sections::with_words(&small, at) {
                run.section("single words", &s);
            }
        }
    }
    // sections from the seed, damaged or not
    for _ in 0..sections {
        let s = sections::any(&mut run.rng);
        run.section("sections from the seed", &s);
    }
    // a hundred sections, cut at every byte
    let mut cut = 0;
    while cut < 100 {
        let s = sections::any(&mut run.rng);
        if s.len() > 40 && s.len() < 700 {
            run.cuts(&s);
            cut += 1;
            if cut % 20 == 0 {
                progress(&run.counts);
            }
        }
    }
    // names that end at each place, and equal ones
    for s in [sections::named(), sections::equally_named()].concat() {
        run.section("names", &s);
        run.cuts(&s);
    }
    // scales of every format
    for s in sections::scaled() {
        run.section("scales", &s);
        run.cuts(&s);
    }
    // every rest of every rate
    for s in sections::rated() {
        run.section("rates", &s);
        run.cuts(&s);
    }
    // crowd scenes
    for s in sections::CROWDS.into_iter().flat_map(sections::damaged_crowd) {
        run.section("crowd scenes", &s);
        run.cuts(&s);
    }
    // materials: tracks by their names, refused sections, two sections from the seed, and some of them cut at every byte
    for (srt, pat) in sections::pairs() {
        run.pair("names of tracks", &srt, &pat);
        run.pair("names of tracks", &pat, &srt);
    }
    for (srt, pat) in sections::refused_pairs() {
        run.pair("two refused sections", &srt, &pat);
    }
    for (srt, pat) in &sections::pairs()[2..9] {
        run.pair_cuts(srt, pat);
    }
    for k in 0..sections / 10 {
        let (srt, pat) = sections::pair(&mut run.rng);
        run.pair("two sections from the seed", &srt, &pat);
        if k % 500 == 0 {
            run.pair_cuts(&srt, &pat);
            progress(&run.counts);
        }
    }
    // the longest lists there are
    for s in [sections::walk_cycle(1, 4095), sections::scroll(1, 65535), sections::long_walk()] {
        run.section("longest lists", &s);
    }
    // the longest clips
    for s in [motion::example::WALK, motion::example::SWAY, &sections::walk_cycle(2, 4095)] {
        run.longest_clip(s);
    }
    // players: ticks to the last frame there is, to the end of an entry and past it, and from one section to another
    for s in [motion::example::WALK, motion::example::DRIFT, motion::example::FLIP] {
        run.longest_ticks(s);
    }
    for _ in 0..(sections / 20).max(1_000) {
        let [first, second] = [(); 2].map(|_| sections::any(&mut run.playing));
        run.players(&first, &second);
    }
    // patterns to write: at the bounds of each test, half as many from the seed as sections, and entries that are read and written again
    for (lists, room) in lists::edges(&mut run.own) {
        run.write("patterns at the bounds", &lists, room);
    }
    for k in 0..(sections / 2).max(5_000) {
        let (lists, room) = lists::any(&mut run.own);
        run.write("patterns from the seed", &lists, room);
        if k % 2 == 0 {
            let s = sections::any_pattern(&mut run.own);
            run.write_again("patterns written again", &s);
        }
        if k % 100 == 0 {
            let s = lists::shared(k / 100 % 2, &mut run.own);
            run.write_again("tracks that share their keys", &s);
        }
        if k % 2_000 == 0 {
            show(&format!("{} patterns", run.written.lists));
        }
    }
    let c = &run.counts;
    eprintln!();
    println!(
        "agreed: {} sections, {} entries ({} accepted), {} names looked for, {} matrices, {} choices, {} curves, {} scale values, {} resampled lists, {} cuts, {} materials, {} cuts of two sections",
        c.sections, c.entries, c.accepted, c.names, c.matrices, c.choices, c.curves, c.pairs, c.resampled, c.cuts, c.materials, c.material_cuts
    );
    println!("sections and entries refused with each number: {}", by_number(&c.refused));
    println!("materials refused with each number: {}", by_number(&c.no_material));
    let p = &run.posed;
    println!("posed: {} poses and {} clips with {} matrices, {} cuts", p.poses, p.clips, p.matrices, p.cuts);
    println!("poses and clips refused with each number: {}", by_number(&p.refused));
    let g = &run.played;
    println!(
        "played: {} events and {} pictures, {} runs of ticks in one mode, {} cuts; {} kinds",
        g.events, g.pictures, g.runs, g.cuts, g.kinds
    );
    println!("picks and ticks refused with each number: {}", by_number(&g.refused));
    println!("pictures refused with each number: {}", by_number(&g.no_picture));
    let w = &run.written;
    println!(
        "written: {} patterns ({} accepted), {} of them entries that were read ({} too long), {} cuts; {} written sections compared as the others",
        w.lists, w.accepted, w.again, w.too_long, w.cuts, w.compared.sections
    );
    println!("patterns refused with each number: {}", by_number(&w.refused));
    let missing = [p.missing(), g.missing(), w.missing()].concat();
    if !missing.is_empty() {
        println!("{}", missing.join("\n"));
        std::process::exit(1);
    }
}

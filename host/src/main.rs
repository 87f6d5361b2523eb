//! motion: asks a motion section at a terminal, and writes a pattern.
mod text;

use motion::{Curve, Kind, Mode, Pair, Player, Refusal};
use std::ffi::{OsStr, OsString};
use std::fmt;
use std::fs::File;
use std::io::{self, ErrorKind, Read, Write};
use std::os::fd::AsFd;
use std::process::ExitCode;

const USAGE: &str = "usage: motion COMMAND FILE .. [--bits]

motion list FILE
motion kind FILE
motion check FILE ENTRY
motion find FILE NAME
motion matrix FILE ENTRY OBJECT FRAME
motion pose FILE ENTRY FRAME
motion uv FILE ENTRY TRACK FRAME
motion choice FILE ENTRY TRACK FRAME
motion curve FILE ENTRY OBJECT translation AXIS
motion curve FILE ENTRY OBJECT rotation
motion curve FILE ENTRY OBJECT scale AXIS
motion curve FILE ENTRY TRACK channel CHANNEL
motion scale FILE ENTRY OBJECT AXIS INDEX
motion resample FILE ENTRY OBJECT translation
motion resample FILE ENTRY OBJECT scale
motion material FILE ENTRY FILE ENTRY NAME FRAME
motion play FILE EVENT ..
motion pattern FILE ENTRY
motion write TEXT FILE

FILE is a JNT0, SRT0 or PAT0 section; - is standard input. A material has two: an SRT0 section first, then a PAT0
section. NAME is text, or 0x and 32 hex digits; it ends before its first zero byte, and so does the name of an entry or
a track. Of entries or tracks with equal names the first is found. FRAME is 0 to 65535.
ENTRY, OBJECT, TRACK, AXIS, CHANNEL and INDEX count from 0; INDEX counts the values that a scale's curve stores, of
which each has two numbers and the first is sampled.
pose prints a line for each object: its number and its matrix, x to w of column 0, then of column 1, 2 and 3.
--bits, in any place, prints each float as sixteen hex digits.

play hands events to a new player, one after the other. An EVENT is one of
    pick ENTRY    this entry, at frame 0
    tick          the next frame
    hold          from now on a tick at the last frame stays there, as in a new player
    loop          from now on a tick at the last frame returns to 0
A line for each event has the entry that is picked then, the frame, and the answer: 0, or the number of the refusal. A
refused event changes nothing, the next one follows all the same, and the exit status is 1.

pattern prints a PAT0 entry as a TEXT that can be edited, and write makes a PAT0 section of a TEXT; there FILE is what
is written, and - is standard output. For TEXT, - is standard input. Its lines, of which the first two stand once, are
    pattern NAME
    frames N
    texture NAME
    palette NAME
    track NAME
    key FRAME TEXTURE PALETTE
A key is of the track above it. Its TEXTURE and PALETTE count the texture lines and the palette lines from 0. The bytes
that a NAME does not give are zeros. A word that begins with # ends its line.

The exit status is 0 where the section accepts, 1 where it refuses, 2 for misuse, for a wrong line of a TEXT, and where
reading or writing fails.";

enum Stop {
    /// The refusal, and what is printed all the same.
    Refused(Refusal, String),
    Misuse(String),
    /// What is wrong with a text, and where.
    Fault(String),
    /// The refusal of a text, and where.
    RefusedAt(Refusal, String),
    Unread(String, io::Error),
    Unwritten(String, io::Error),
}

impl From<Refusal> for Stop {
    fn from(refusal: Refusal) -> Self {
        Stop::Refused(refusal, String::new())
    }
}

/// What a command prints.
type Outcome = Result<String, Stop>;

struct Args {
    words: Vec<OsString>,
    bits: bool,
}

impl Args {
    fn word(&self, at: usize, what: &str) -> Result<&str, Stop> {
        let word = self.words.get(at).ok_or_else(|| Stop::Misuse(format!("{what} is missing")))?;
        word.to_str().ok_or_else(|| Stop::Misuse(format!("{what} is to be UTF-8, and {word:?} is not")))
    }

    fn index(&self, at: usize, what: &str) -> Result<usize, Stop> {
        let word = self.word(at, what)?;
        word.parse().map_err(|_| Stop::Misuse(format!("{what} is to be a number, and {word:?} is none")))
    }

    fn frame(&self, at: usize) -> Result<u16, Stop> {
        let word = self.word(at, "FRAME")?;
        word.parse().map_err(|_| Stop::Misuse(format!("FRAME is to be a number from 0 to 65535, and {word:?} is none")))
    }

    fn no_more(&self, count: usize) -> Result<(), Stop> {
        match self.words.get(count) {
            None => Ok(()),
            Some(word) => Err(Stop::Misuse(format!("{word:?} is one argument too many"))),
        }
    }

    /// A file's name, which may be any bytes.
    fn file(&self, at: usize, what: &str) -> Result<&OsStr, Stop> {
        let file = self.words.get(at).ok_or_else(|| Stop::Misuse(format!("{what} is missing")))?;
        Ok(file)
    }

    fn section(&self) -> Result<Vec<u8>, Stop> {
        self.section_at(1)
    }

    fn section_at(&self, at: usize) -> Result<Vec<u8>, Stop> {
        read(self.file(at, "FILE")?)
    }

    fn floats(&self, floats: &[f64]) -> String {
        let words: Vec<_> = floats.iter().map(|x| if self.bits { format!("{:016x}", x.to_bits()) } else { format!("{x:?}") }).collect();
        words.join(" ")
    }

    fn pair(&self, v: Pair) -> String {
        format!("first={}\nsecond={}\n", self.floats(&[v.first]), self.floats(&[v.second]))
    }

    fn matrix<const N: usize>(&self, columns: [[f64; N]; N]) -> String {
        columns.iter().enumerate().map(|(c, column)| format!("column {c}: {}\n", self.floats(column))).collect()
    }

    fn curve<T>(&self, curve: Curve<T>, value: impl Fn(T) -> String) -> String {
        match curve {
            Curve::None => "no curve\n".into(),
            Curve::Constant(constant) => format!("constant\n{}", value(constant)),
            Curve::List(l) => {
                let motion::List { start, end, place, length, size, rate, rest } = l;
                format!("list\nstart={start}\nend={end}\nplace={place}\nlength={length}\nsize={size}\nrate={rate}\nrest={rest}\n")
            }
        }
    }
}

// Standard input and output are read and written as files: std's own streams take one that cannot be read for empty, and drop what is
// written to one that cannot be written.

fn read_input() -> io::Result<Vec<u8>> {
    let mut bytes = Vec::new();
    File::from(io::stdin().as_fd().try_clone_to_owned()?).read_to_end(&mut bytes)?;
    Ok(bytes)
}

fn write_output(bytes: &[u8]) -> io::Result<()> {
    File::from(io::stdout().as_fd().try_clone_to_owned()?).write_all(bytes)
}

/// What a file that is read is called in a complaint.
fn called(file: &OsStr) -> String {
    if file == "-" {
        "standard input".into()
    } else {
        file.to_string_lossy().into()
    }
}

fn read(file: &OsStr) -> Result<Vec<u8>, Stop> {
    let bytes = if file == "-" { read_input() } else { std::fs::read(file) };
    bytes.map_err(|e| Stop::Unread(called(file), e))
}

fn shown(name: [u8; 16]) -> String {
    let text: String = name.iter().take_while(|&&b| b != 0).map(|&b| if b.is_ascii_graphic() { b as char } else { '.' }).collect();
    format!("{text} ({})", text::hex_of(name))
}

fn name_of(word: &str) -> Result<[u8; 16], Stop> {
    text::name_of(word).map_err(Stop::Misuse)
}

fn list(args: &Args) -> Outcome {
    args.no_more(2)?;
    let text = motion::list(&args.section()?);
    match text.strip_prefix("listing=2\nanswer=") {
        Some(number) => Err(Stop::Refused(Refusal(number.trim_end().parse().unwrap_or(0)), text)),
        None => Ok(text),
    }
}

fn kind(args: &Args) -> Outcome {
    args.no_more(2)?;
    let stamp = match motion::kind(&args.section()?)? {
        Kind::Jnt => "JNT0",
        Kind::Srt => "SRT0",
        Kind::Pat => "PAT0",
    };
    Ok(format!("{stamp}\n"))
}

fn check(args: &Args) -> Outcome {
    args.no_more(3)?;
    let record = motion::check(&args.section()?, args.index(2, "ENTRY")?)?;
    Ok(format!("name={}\nreach={}\nframes={}\ncount={}\n", shown(record.name), record.reach, record.frames, record.count))
}

fn find(args: &Args) -> Outcome {
    args.no_more(3)?;
    Ok(match motion::find(&args.section()?, &name_of(args.word(2, "NAME")?)?)? {
        Some(entry) => format!("entry={entry}\n"),
        None => "no entry has this name\n".into(),
    })
}

fn matrix(args: &Args) -> Outcome {
    args.no_more(5)?;
    Ok(args.matrix(motion::matrix(&args.section()?, args.index(2, "ENTRY")?, args.index(3, "OBJECT")?, args.frame(4)?)?))
}

/// A table: a line of headings, and one for each object. Every line has as many words, which can be cut apart at the spaces.
fn pose(args: &Args) -> Outcome {
    args.no_more(4)?;
    // no entry has more objects than this
    let mut out = vec![0.0; 16 * 999];
    let objects = motion::pose(&args.section()?, args.index(2, "ENTRY")?, args.frame(3)?, &mut out)?;
    let headings = (0..4).flat_map(|column| ["x", "y", "z", "w"].map(|row| format!("{row}{column}")));
    let mut lines = vec![["object".into()].into_iter().chain(headings).collect::<Vec<_>>()];
    for (object, matrix) in out.chunks_exact(16).take(objects).enumerate() {
        lines.push([object.to_string()].into_iter().chain(matrix.iter().map(|x| args.floats(&[*x]))).collect());
    }
    let widths: Vec<_> = (0..17).map(|k| lines.iter().map(|line| line[k].len()).max().unwrap()).collect();
    let shown = |line: &Vec<String>| {
        let cell = |(k, word): (usize, &String)| {
            // two spaces between the columns of a matrix
            let space = if k == 0 { "" } else { [" ", "  "][usize::from(k % 4 == 1)] };
            format!("{space}{word:>width$}", width = widths[k])
        };
        line.iter().enumerate().map(cell).collect::<String>() + "\n"
    };
    Ok(lines.iter().map(shown).collect())
}

fn uv(args: &Args) -> Outcome {
    args.no_more(5)?;
    Ok(args.matrix(motion::uv_matrix(&args.section()?, args.index(2, "ENTRY")?, args.index(3, "TRACK")?, args.frame(4)?)?))
}

fn choice(args: &Args) -> Outcome {
    args.no_more(5)?;
    let c = motion::choice(&args.section()?, args.index(2, "ENTRY")?, args.index(3, "TRACK")?, args.frame(4)?)?;
    Ok(format!("texture={}\npalette={}\n", c.texture, c.palette))
}

fn curve(args: &Args) -> Outcome {
    let s = args.section()?;
    let (entry, index) = (args.index(2, "ENTRY")?, args.index(3, "OBJECT or TRACK")?);
    let kind = args.word(4, "translation, rotation, scale or channel")?;
    args.no_more(if kind == "rotation" { 5 } else { 6 })?;
    let number = |x| args.floats(&[x]) + "\n";
    Ok(match kind {
        "rotation" => args.curve(motion::rotation_curve(&s, entry, index)?, |m| args.matrix(m)),
        "translation" => args.curve(motion::translation_curve(&s, entry, index, args.index(5, "AXIS")?)?, number),
        "scale" => args.curve(motion::scale_curve(&s, entry, index, args.index(5, "AXIS")?)?, |v| args.pair(v)),
        "channel" => args.curve(motion::channel_curve(&s, entry, index, args.index(5, "CHANNEL")?)?, number),
        other => return Err(Stop::Misuse(format!("there is no curve {other:?}"))),
    })
}

fn scale(args: &Args) -> Outcome {
    args.no_more(6)?;
    let s = args.section()?;
    let (entry, object) = (args.index(2, "ENTRY")?, args.index(3, "OBJECT")?);
    Ok(args.pair(motion::scale_value(&s, entry, object, args.index(4, "AXIS")?, args.index(5, "INDEX")?)?))
}

fn resample(args: &Args) -> Outcome {
    args.no_more(5)?;
    let s = args.section()?;
    let (entry, object) = (args.index(2, "ENTRY")?, args.index(3, "OBJECT")?);
    // no curve has more frames than this
    let mut out = vec![0.0; 3 * 65_536];
    let r = match args.word(4, "translation or scale")? {
        "translation" => motion::resample_translation(&s, entry, object, &mut out, 0)?,
        "scale" => motion::resample_scale(&s, entry, object, &mut out, 0)?,
        other => return Err(Stop::Misuse(format!("there is no {other:?} to resample"))),
    };
    let span = match r.span {
        None => "no curves".into(),
        Some((start, end)) => format!("start={start}\nend={end}"),
    };
    let frames: String = out.chunks(3).take(r.frames).map(|frame| args.floats(frame) + "\n").collect();
    Ok(format!("{span}\nframes={}\n{frames}", r.frames))
}

fn material(args: &Args) -> Outcome {
    args.no_more(7)?;
    let input = |at: usize| args.words.get(at).is_some_and(|file| file == "-");
    if input(1) && input(3) {
        return Err(Stop::Misuse("standard input can be only one of the two sections".into()));
    }
    let (srt, srt_entry) = (args.section_at(1)?, args.index(2, "the first ENTRY")?);
    let (pat, pat_entry) = (args.section_at(3)?, args.index(4, "the second ENTRY")?);
    let m = motion::material(&srt, srt_entry, &pat, pat_entry, &name_of(args.word(5, "NAME")?)?, args.frame(6)?)?;
    let choice = match m.choice {
        Some(c) => format!("texture={}\npalette={}\n", c.texture, c.palette),
        None => "no choice\n".into(),
    };
    Ok(format!("u={}\nv={}\n{choice}", args.floats(&m.shift[..1]), args.floats(&m.shift[1..])))
}

enum Event {
    Pick(usize),
    Tick,
    Mode(Mode),
}

impl Event {
    fn run(&self, player: &mut Player, section: &[u8]) -> motion::Result<()> {
        match self {
            Event::Pick(entry) => player.pick(section, *entry),
            Event::Tick => player.tick(section),
            Event::Mode(mode) => {
                player.set_mode(*mode);
                Ok(())
            }
        }
    }
}

impl fmt::Display for Event {
    fn fmt(&self, f: &mut fmt::Formatter) -> fmt::Result {
        match self {
            Event::Pick(entry) => write!(f, "pick {entry}"),
            Event::Tick => write!(f, "tick"),
            Event::Mode(Mode::Hold) => write!(f, "hold"),
            Event::Mode(Mode::Loop) => write!(f, "loop"),
        }
    }
}

/// The events from a word on, of which there is one at least.
fn events(args: &Args, mut at: usize) -> Result<Vec<Event>, Stop> {
    let mut events = Vec::new();
    while events.is_empty() || at < args.words.len() {
        let event = match args.word(at, "EVENT")? {
            "pick" => {
                at += 1;
                Event::Pick(args.index(at, "ENTRY")?)
            }
            "tick" => Event::Tick,
            "hold" => Event::Mode(Mode::Hold),
            "loop" => Event::Mode(Mode::Loop),
            other => return Err(Stop::Misuse(format!("there is no event {other:?}"))),
        };
        events.push(event);
        at += 1;
    }
    Ok(events)
}

/// A line for each event. The first refusal is told, and what follows it is played all the same.
fn play(args: &Args) -> Outcome {
    let file = args.file(1, "FILE")?;
    let events = events(args, 2)?;
    let section = read(file)?;
    let (mut player, mut lines, mut refused) = (Player::new(), String::new(), None);
    for event in events {
        let answer = event.run(&mut player, &section);
        let entry = player.entry().map_or("none".into(), |entry| entry.to_string());
        let number = answer.map_or_else(|refusal| refusal.0, |()| 0);
        lines += &format!("{event}: entry={entry} frame={} answer={number}\n", player.frame());
        refused = refused.or(answer.err());
    }
    match refused {
        Some(refusal) => Err(Stop::Refused(refusal, lines)),
        None => Ok(lines),
    }
}

fn pattern(args: &Args) -> Outcome {
    args.no_more(3)?;
    Ok(text::print(&motion::pattern(&args.section()?, args.index(2, "ENTRY")?)?))
}

/// Writes the section of a text into its file. Answers what is left for standard output.
fn write(args: &Args) -> Result<Vec<u8>, Stop> {
    args.no_more(3)?;
    let (from, into) = (args.file(1, "TEXT")?, args.file(2, "FILE")?);
    let text = text::parse(&read(from)?, &called(from)).map_err(Stop::Fault)?;
    let section = text.pattern.section().map_err(|refusal| refused_at(refusal, &text, from))?;
    if into == "-" {
        return Ok(section);
    }
    std::fs::write(into, section).map_err(|e| Stop::Unwritten(called(into), e))?;
    Ok(vec![])
}

fn refused_at(refusal: Refusal, text: &text::Text, file: &OsStr) -> Stop {
    match text.astray() {
        Some(line) if refusal == Refusal(8) => Stop::RefusedAt(refusal, format!("line {line} of {}", called(file))),
        _ => refusal.into(),
    }
}

fn run(args: &Args, options: &[OsString]) -> Result<Vec<u8>, Stop> {
    if let Some(option) = options.iter().find(|&o| o != "--bits" && o != "--help") {
        return Err(Stop::Misuse(format!("there is no option {option:?}")));
    }
    if options.iter().any(|o| o == "--help") {
        return Ok(format!("{USAGE}\n").into_bytes());
    }
    let text = match args.word(0, "a command")? {
        "write" => return write(args),
        "list" => list(args),
        "kind" => kind(args),
        "check" => check(args),
        "find" => find(args),
        "matrix" => matrix(args),
        "pose" => pose(args),
        "uv" => uv(args),
        "choice" => choice(args),
        "curve" => curve(args),
        "scale" => scale(args),
        "resample" => resample(args),
        "material" => material(args),
        "play" => play(args),
        "pattern" => pattern(args),
        other => Err(Stop::Misuse(format!("there is no command {other:?}"))),
    };
    text.map(String::into_bytes)
}

/// How a command is used, or where that is told if there is no such command.
fn usage(args: &Args) -> String {
    let start = format!("motion {} ", args.word(0, "a command").unwrap_or(""));
    let lines: Vec<_> = USAGE.lines().filter(|line| line.starts_with(&start)).collect();
    if lines.is_empty() {
        "motion --help shows the commands".into()
    } else {
        format!("usage: {}", lines.join("\n       "))
    }
}

/// Writes a line to standard error. Where that fails, there is nobody to tell.
fn complain(line: String) {
    let _ = writeln!(io::stderr(), "{line}");
}

fn main() -> ExitCode {
    let (options, words): (Vec<_>, Vec<_>) = std::env::args_os().skip(1).partition(|a| a.as_encoded_bytes().starts_with(b"--"));
    let args = Args { words, bits: options.iter().any(|o| o == "--bits") };
    let (output, complaint, status) = match run(&args, &options) {
        Ok(output) => (output, None, 0),
        Err(Stop::Refused(refusal, text)) => (text.into_bytes(), Some(refusal.to_string()), 1),
        Err(Stop::RefusedAt(refusal, line)) => (vec![], Some(format!("{refusal} ({line})")), 1),
        Err(Stop::Misuse(message)) => (vec![], Some(format!("motion: {message}\n{}", usage(&args))), 2),
        Err(Stop::Fault(message)) => (vec![], Some(format!("motion: {message}")), 2),
        Err(Stop::Unread(file, e)) => (vec![], Some(format!("motion: cannot read {file}: {e}")), 2),
        Err(Stop::Unwritten(file, e)) => (vec![], Some(format!("motion: cannot write {file}: {e}")), 2),
    };
    if let Err(e) = write_output(&output) {
        // a reader who has seen enough closes the pipe, and need not be told
        if e.kind() != ErrorKind::BrokenPipe {
            complain(format!("motion: cannot write: {e}"));
        }
        return ExitCode::from(2);
    }
    if let Some(complaint) = complaint {
        complain(complaint);
    }
    ExitCode::from(status)
}

//! A PAT0 entry as text, to be edited by hand. Each line is one of
//!
//! ```text
//! pattern NAME
//! frames N
//! texture NAME
//! palette NAME
//! track NAME
//! key FRAME TEXTURE PALETTE
//! ```
//!
//! with one line for the pattern and one for its frames. Textures and palettes count from 0, each sort by itself, and a key is of the track above
//! it. From a word that begins with # on, a line says nothing.
use motion::{Key, PatternLists, Track};
use std::fmt::Display;
use std::str::FromStr;

/// A name in a text: sixteen bytes.
type Name = [u8; 16];

/// The sixteen bytes of a name that is text, or 0x and 32 hex digits.
pub fn name_of(word: &str) -> Result<Name, String> {
    let mut name = [0; 16];
    if let Some(hex) = word.strip_prefix("0x") {
        if hex.len() != 32 || !hex.bytes().all(|b| b.is_ascii_hexdigit()) {
            return Err("a name in hex has 32 digits after 0x".into());
        }
        for (k, byte) in name.iter_mut().enumerate() {
            *byte = u8::from_str_radix(&hex[2 * k..2 * k + 2], 16).unwrap();
        }
    } else if word.len() > 16 {
        return Err("a name has at most sixteen bytes".into());
    } else {
        name[..word.len()].copy_from_slice(word.as_bytes());
    }
    Ok(name)
}

/// Sixteen bytes as 32 hex digits.
pub fn hex_of(name: Name) -> String {
    name.iter().map(|b| format!("{b:02x}")).collect()
}

/// A name as a word of a text: plain where that reads back as the same sixteen bytes, else in hex.
fn word_of(name: Name) -> String {
    let end = name.iter().position(|&b| b == 0).unwrap_or(16);
    let word: String = name[..end].iter().map(|&b| char::from(b)).collect();
    let plain = word.starts_with(|c: char| c != '#') && word.chars().all(|c| c.is_ascii_graphic());
    if plain && name_of(&word) == Ok(name) {
        word
    } else {
        format!("0x{}", hex_of(name))
    }
}

/// The text of an entry, with the index of each texture and palette behind its name.
pub fn print(pattern: &PatternLists) -> String {
    let mut lines = vec![format!("pattern {}", word_of(pattern.name)), format!("frames {}", pattern.frames)];
    for (kind, names) in [("texture", &pattern.textures), ("palette", &pattern.palettes)] {
        lines.extend(names.iter().enumerate().map(|(k, name)| format!("{kind} {} # {k}", word_of(*name))));
    }
    for track in &pattern.tracks {
        lines.push(format!("track {}", word_of(track.name)));
        lines.extend(track.keys.iter().map(|key| format!("key {} {} {}", key.frame, key.texture, key.palette)));
    }
    lines.join("\n") + "\n"
}

/// What a text says, as far as it was read.
#[derive(Default)]
struct Reading {
    name: Option<Name>,
    frames: Option<u16>,
    textures: Vec<Name>,
    palettes: Vec<Name>,
    tracks: Vec<Track>,
    /// The line of each key.
    lines: Vec<usize>,
}

/// What a whole text says: an entry, and the line of each of its keys.
pub struct Text {
    pub pattern: PatternLists,
    lines: Vec<usize>,
}

impl Text {
    /// The line of the first key whose texture or palette is not in its list.
    pub fn astray(&self) -> Option<usize> {
        let PatternLists { textures, palettes, tracks, .. } = &self.pattern;
        let outside = |key: &Key| usize::from(key.texture) >= textures.len() || usize::from(key.palette) >= palettes.len();
        let keys = tracks.iter().flat_map(|track| &track.keys);
        keys.zip(&self.lines).find(|(key, _)| outside(key)).map(|(_, line)| *line)
    }
}

/// Reads a text. What is wrong is told with the line, and with the name of the file.
pub fn parse(text: &[u8], file: &str) -> Result<Text, String> {
    let mut reading = Reading::default();
    for (line, number) in text.split(|&b| b == b'\n').zip(1..) {
        let read = words_of(line).and_then(|words| reading.take(&words, number));
        read.map_err(|fault| format!("line {number} of {file}: {fault}"))?;
    }
    let Reading { name, frames, textures, palettes, tracks, lines } = reading;
    let name = name.ok_or_else(|| format!("{file} has no pattern line"))?;
    let frames = frames.ok_or_else(|| format!("{file} has no frames line"))?;
    Ok(Text { pattern: PatternLists { name, frames, textures, palettes, tracks }, lines })
}

/// The words of a line, up to one that begins with #. What follows may be any bytes.
fn words_of(line: &[u8]) -> Result<Vec<&str>, String> {
    let words = line.split(u8::is_ascii_whitespace).filter(|word| !word.is_empty()).take_while(|word| !word.starts_with(b"#"));
    words.map(|word| std::str::from_utf8(word).map_err(|_| "a word is not UTF-8".into())).collect()
}

impl Reading {
    fn take(&mut self, words: &[&str], line: usize) -> Result<(), String> {
        let Some((&kind, words)) = words.split_first() else {
            return Ok(());
        };
        match kind {
            "pattern" => once(&mut self.name, name_in(kind, words)?, kind)?,
            "frames" => once(&mut self.frames, frames_in(words)?, kind)?,
            "texture" => self.textures.push(name_in(kind, words)?),
            "palette" => self.palettes.push(name_in(kind, words)?),
            "track" => self.tracks.push(Track { name: name_in(kind, words)?, keys: vec![] }),
            "key" => {
                let key = key_in(words)?;
                self.tracks.last_mut().ok_or("a key is to stand below a track")?.keys.push(key);
                self.lines.push(line);
            }
            other => return Err(format!("a line begins with pattern, frames, texture, palette, track or key, and not with {other:?}")),
        }
        Ok(())
    }
}

fn once<T>(place: &mut Option<T>, value: T, kind: &str) -> Result<(), String> {
    match place.replace(value) {
        None => Ok(()),
        Some(_) => Err(format!("this is a second {kind} line")),
    }
}

fn name_in(kind: &str, words: &[&str]) -> Result<Name, String> {
    match words {
        [] => Err(format!("a {kind} is to have a name")),
        [name] => name_of(name),
        [_, more, ..] => Err(too_many(more)),
    }
}

fn frames_in(words: &[&str]) -> Result<u16, String> {
    match words {
        [] => Err("frames is to have a number".into()),
        [frames] => number_in("frames", frames, u16::MAX),
        [_, more, ..] => Err(too_many(more)),
    }
}

fn key_in(words: &[&str]) -> Result<Key, String> {
    match words {
        [frame, texture, palette] => Ok(Key {
            frame: number_in("a key's frame", frame, u16::MAX)?,
            texture: number_in("a key's texture", texture, u8::MAX)?,
            palette: number_in("a key's palette", palette, u8::MAX)?,
        }),
        [_, _, _, more, ..] => Err(too_many(more)),
        _ => Err("a key is to have three numbers: frame, texture, palette".into()),
    }
}

fn number_in<T: FromStr + Display>(what: &str, word: &str, most: T) -> Result<T, String> {
    word.parse().map_err(|_| format!("{what} is to be a number from 0 to {most}, and {word:?} is none"))
}

fn too_many(word: &str) -> String {
    format!("{word:?} is one word too many")
}

//! Motion sections of two-screen handheld games: JNT0 (joints), SRT0 (texture coordinates) and PAT0 (textures and palettes).
//!
//! Every call that reads takes the whole section as a byte slice, answers every input, and relies on no earlier call. An entry is whole or
//! it is refused by number; its neighbours stand. [`write_pattern`] writes a PAT0 section from its lists, and a [`Player`] shows an entry frame
//! by frame. The work is done by proved code, linked as a static library; this crate only lends it slices and takes its answers apart.
//!
//! ```
//! let walk = motion::example::WALK;
//! let record = motion::check(walk, 0).unwrap();
//! assert_eq!((record.reach, record.frames, record.count), (86, 12, 1));
//! assert_eq!(motion::check(&walk[..85], 0), Err(motion::Refusal(2)));
//! ```

use std::fmt;

/// What a call answers: a value, or the number of its refusal.
pub type Result<T> = std::result::Result<T, Refusal>;

/// The number of a refusal, 1 to 17.
#[derive(Clone, Copy, Debug, PartialEq, Eq)]
pub struct Refusal(pub u32);

impl Refusal {
    /// The number in words.
    ///
    /// ```
    /// assert_eq!(motion::Refusal(2).meaning(), "the section ends before a part that is read");
    /// ```
    pub fn meaning(self) -> &'static str {
        match self.0 {
            1 => "the first four bytes are no stamp that this call takes",
            2 => "the section ends before a part that is read",
            3 => "an info block does not begin with a zero byte",
            4 => "an info block states another size for its data",
            5 => "the entry has no animation stamp",
            6 => "the animation has no frames",
            7 => "a curve's start is not before its end",
            8 => "a key's texture or palette is not in its list",
            9 => "the index is past its list, a clip passes frame 65,535, or the lists to be written do not add up",
            10 => "there is nothing to sample: an empty list, or a track without keys",
            11 => "the slice is too small",
            12 => "the animation has more than 999 objects",
            13 => "the input has more than 65,536 bytes",
            14 => "neither entry has a track of this name",
            15 => "there are more than 255 names of a sort, or tracks",
            16 => "an offset would pass 65,535, or the section 4,294,967,295 bytes",
            17 => "a tick or a picture before an entry is picked",
            _ => "no refusal has this number",
        }
    }
}

impl fmt::Display for Refusal {
    fn fmt(&self, f: &mut fmt::Formatter) -> fmt::Result {
        write!(f, "refused, {}: {}", self.0, self.meaning())
    }
}

impl std::error::Error for Refusal {}

/// What a section holds, by its stamp.
#[derive(Clone, Copy, Debug, PartialEq, Eq)]
pub enum Kind {
    /// JNT0: animations.
    Jnt,
    /// SRT0: material animations.
    Srt,
    /// PAT0: patterns.
    Pat,
}

/// The record of an entry.
#[derive(Clone, Copy, Debug, PartialEq, Eq)]
pub struct Record {
    /// All sixteen bytes.
    pub name: [u8; 16],
    /// Where the last part that the entry needs ends: from here on the section may be cut.
    pub reach: usize,
    pub frames: u16,
    /// How many objects (JNT0) or tracks (SRT0, PAT0) the entry has.
    pub count: usize,
}

/// A curve's list: its frames, its place in the section, how many values it has, and the bytes of each.
///
/// `end - start` is `length` times 2 to the power of `rate`, plus `rest`, and `rest` is below that power.
#[derive(Clone, Copy, Debug, PartialEq, Eq)]
pub struct List {
    pub start: u16,
    pub end: u16,
    pub place: usize,
    pub length: usize,
    pub size: usize,
    /// The stored rate, 0 to 3; 0 in SRT0.
    pub rate: u16,
    /// The frames that the rate leaves over.
    pub rest: u16,
}

/// The record of a curve.
#[derive(Clone, Copy, Debug, PartialEq)]
pub enum Curve<T> {
    None,
    Constant(T),
    List(List),
}

/// One value of a scale. The first number is the one that is sampled; the second is what the section stores behind it.
#[derive(Clone, Copy, Debug, PartialEq)]
pub struct Pair {
    pub first: f64,
    pub second: f64,
}

/// Where a list stands in the section, and how many items it has.
#[derive(Clone, Copy, Debug, PartialEq, Eq)]
pub struct Place {
    pub place: usize,
    pub length: usize,
}

/// A texture's index among the entry's texture names, and a palette's among its palette names.
#[derive(Clone, Copy, Debug, PartialEq, Eq)]
pub struct Choice {
    pub texture: u8,
    pub palette: u8,
}

/// A material at a frame.
#[derive(Clone, Copy, Debug, PartialEq)]
pub struct Material {
    /// How far the texture is shifted: u and v.
    pub shift: [f64; 2],
    /// The texture and the palette that are chosen, if they are.
    pub choice: Option<Choice>,
}

/// What a player does at the last frame of its entry.
#[derive(Clone, Copy, Debug, PartialEq, Eq)]
pub enum Mode {
    /// It stays there.
    Hold,
    /// It returns to frame 0.
    Loop,
}

/// What a player shows of an object or a track.
#[derive(Clone, Copy, Debug, PartialEq)]
pub enum Picture {
    /// Of an object of JNT0, or a track of SRT0.
    Matrix(Matrix),
    /// Of a track of PAT0.
    Choice(Choice),
}

/// What a PAT0 section of one entry is written from. The lists are bytes as in the section.
#[derive(Clone, Copy, Debug, PartialEq, Eq)]
pub struct Pattern<'a> {
    pub name: [u8; 16],
    pub frames: u16,
    /// Sixteen bytes a name.
    pub textures: &'a [u8],
    /// Sixteen bytes a name.
    pub palettes: &'a [u8],
    /// Twenty bytes a track: its name, and how many keys it has in four little-endian bytes.
    pub tracks: &'a [u8],
    /// Four bytes a key, track by track: its frame in two little-endian bytes, its texture and its palette.
    pub keys: &'a [u8],
}

/// A key as stored: a frame, and the indexes of a texture and a palette.
#[derive(Clone, Copy, Debug, PartialEq, Eq)]
pub struct Key {
    pub frame: u16,
    pub texture: u8,
    pub palette: u8,
}

/// A track of a PAT0 entry.
#[derive(Clone, Debug, PartialEq, Eq)]
pub struct Track {
    pub name: [u8; 16],
    pub keys: Vec<Key>,
}

/// A PAT0 entry's name, its frames and its lists, which can be changed and written.
#[derive(Clone, Debug, PartialEq, Eq)]
pub struct PatternLists {
    pub name: [u8; 16],
    pub frames: u16,
    pub textures: Vec<[u8; 16]>,
    pub palettes: Vec<[u8; 16]>,
    pub tracks: Vec<Track>,
}

/// What was resampled: the first frame and the one after the last (none for three missing curves), and how many frames were written.
#[derive(Clone, Copy, Debug, PartialEq, Eq)]
pub struct Resampled {
    pub span: Option<(u16, u16)>,
    pub frames: usize,
}

/// Four columns of four floats.
pub type Matrix = [[f64; 4]; 4];

/// Three columns of three floats.
pub type Rotation = [[f64; 3]; 3];

mod calls {
    extern "C" {
        pub fn motion_check(s: *const u8, len: usize, entry: usize) -> u32;
        pub fn motion_matrix(s: *const u8, len: usize, entry: usize, object: usize, frame: u16, out: *mut u8, out_len: usize) -> u32;
        pub fn motion_pose(
            s: *const u8,
            len: usize,
            entry: usize,
            frame: u16,
            out: *mut f64,
            out_len: usize,
            objects: *mut [u64; 1],
        ) -> u32;
        pub fn motion_clip(
            s: *const u8,
            len: usize,
            entry: usize,
            first: u16,
            frames: usize,
            out: *mut f64,
            out_len: usize,
            objects: *mut [u64; 1],
        ) -> u32;
        pub fn motion_kind(s: *const u8, len: usize, kind: *mut [u64; 1]) -> u32;
        pub fn motion_record(s: *const u8, len: usize, entry: usize, out: *mut [u64; 5]) -> u32;
        pub fn motion_find(s: *const u8, len: usize, name: *const [u8; 16], out: *mut [u64; 2]) -> u32;
        pub fn motion_translation_curve(
            s: *const u8,
            len: usize,
            entry: usize,
            object: usize,
            axis: usize,
            out: *mut super::CurveWords,
            value: *mut [f64; 1],
        ) -> u32;
        pub fn motion_rotation_curve(
            s: *const u8,
            len: usize,
            entry: usize,
            object: usize,
            out: *mut super::CurveWords,
            value: *mut [f64; 9],
        ) -> u32;
        pub fn motion_scale_curve(
            s: *const u8,
            len: usize,
            entry: usize,
            object: usize,
            axis: usize,
            out: *mut super::CurveWords,
            value: *mut [f64; 2],
        ) -> u32;
        pub fn motion_scale_value(
            s: *const u8,
            len: usize,
            entry: usize,
            object: usize,
            axis: usize,
            index: usize,
            out: *mut [f64; 2],
        ) -> u32;
        pub fn motion_channel_curve(
            s: *const u8,
            len: usize,
            entry: usize,
            track: usize,
            channel: usize,
            out: *mut super::CurveWords,
            value: *mut [f64; 1],
        ) -> u32;
        pub fn motion_uv_matrix(s: *const u8, len: usize, entry: usize, track: usize, frame: u16, out: *mut [f64; 16]) -> u32;
        pub fn motion_material_name(s: *const u8, len: usize, entry: usize, track: usize, out: *mut [u64; 2]) -> u32;
        pub fn motion_pattern_name(s: *const u8, len: usize, entry: usize, track: usize, out: *mut [u64; 2]) -> u32;
        pub fn motion_texture_names(s: *const u8, len: usize, entry: usize, out: *mut [u64; 2]) -> u32;
        pub fn motion_palette_names(s: *const u8, len: usize, entry: usize, out: *mut [u64; 2]) -> u32;
        pub fn motion_keys(s: *const u8, len: usize, entry: usize, track: usize, out: *mut [u64; 2]) -> u32;
        pub fn motion_choice(s: *const u8, len: usize, entry: usize, track: usize, frame: u16, out: *mut [u64; 2]) -> u32;
        pub fn motion_material(
            srt: *const u8,
            srt_len: usize,
            srt_entry: usize,
            pat: *const u8,
            pat_len: usize,
            pat_entry: usize,
            name: *const [u8; 16],
            frame: u16,
            shift: *mut [f64; 2],
            choice: *mut [u64; 3],
        ) -> u32;
        pub fn motion_player_pick(s: *const u8, len: usize, player: *mut super::PlayerWords, entry: usize) -> u32;
        pub fn motion_player_tick(s: *const u8, len: usize, player: *mut super::PlayerWords) -> u32;
        pub fn motion_player_mode(player: *mut super::PlayerWords, looping: u32) -> u32;
        pub fn motion_player_picture(
            s: *const u8,
            len: usize,
            player: *const super::PlayerWords,
            index: usize,
            matrix: *mut [f64; 16],
            picture: *mut [u64; 3],
        ) -> u32;
        pub fn motion_write_pattern(
            name: *const [u8; 16],
            frames: u16,
            textures: *const u8,
            textures_len: usize,
            palettes: *const u8,
            palettes_len: usize,
            tracks: *const u8,
            tracks_len: usize,
            keys: *const u8,
            keys_len: usize,
            out: *mut u8,
            out_len: usize,
            written: *mut [u64; 1],
        ) -> u32;
        pub fn motion_resample_translation(
            s: *const u8,
            len: usize,
            entry: usize,
            object: usize,
            floats: *mut f64,
            floats_len: usize,
            place: usize,
            out: *mut [u64; 4],
        ) -> u32;
        pub fn motion_resample_scale(
            s: *const u8,
            len: usize,
            entry: usize,
            object: usize,
            floats: *mut f64,
            floats_len: usize,
            place: usize,
            out: *mut [u64; 4],
        ) -> u32;
        pub fn motion_list(s: *const u8, len: usize, out: *mut [u8; super::LISTING]) -> usize;
    }
}

/// The words that a curve's record may take.
type CurveWords = [u64; 8];

/// The words of a player: whether an entry is picked, the entry, the frame, and whether it loops.
type PlayerWords = [u64; 4];

/// Bytes that hold every listing: MOTION_LIST_ROOM of the header.
const LISTING: usize = 65_536;

fn answer<T>(number: u32, value: T) -> Result<T> {
    if number == 0 {
        Ok(value)
    } else {
        Err(Refusal(number))
    }
}

fn name_of(lo: u64, hi: u64) -> [u8; 16] {
    let mut name = [0; 16];
    name[..8].copy_from_slice(&lo.to_le_bytes());
    name[8..].copy_from_slice(&hi.to_le_bytes());
    name
}

fn matrix_of(floats: [f64; 16]) -> Matrix {
    let mut m = [[0.0; 4]; 4];
    m.as_flattened_mut().copy_from_slice(&floats);
    m
}

fn curve_of<T>(words: CurveWords, value: T) -> Curve<T> {
    match words[0] {
        0 => Curve::None,
        1 => Curve::Constant(value),
        _ => Curve::List(List {
            start: words[1] as u16,
            end: words[2] as u16,
            place: words[3] as usize,
            length: words[4] as usize,
            size: words[5] as usize,
            rate: words[6] as u16,
            rest: words[7] as u16,
        }),
    }
}

// ---- any section

/// What a section holds, by its first four bytes alone: none of its entries need be whole.
///
/// ```
/// use motion::{example::{DRIFT, FLIP, WALK}, Kind, Refusal};
/// assert_eq!([WALK, DRIFT, &FLIP[..4]].map(motion::kind), [Ok(Kind::Jnt), Ok(Kind::Srt), Ok(Kind::Pat)]);
/// assert_eq!([&b"TEX0"[..], b"PAT"].map(motion::kind), [Err(Refusal(1)), Err(Refusal(2))]);
/// ```
pub fn kind(section: &[u8]) -> Result<Kind> {
    let mut out = [0];
    let n = unsafe { calls::motion_kind(section.as_ptr(), section.len(), &mut out) };
    let kind = match out[0] {
        0 => Kind::Jnt,
        1 => Kind::Srt,
        _ => Kind::Pat,
    };
    answer(n, kind)
}

/// Whether an entry is whole, as the number alone: 0 if it is.
///
/// ```
/// assert_eq!(motion::number(motion::example::WALK, 0), 0);
/// assert_eq!(motion::number(motion::example::WALK, 1), 9);
/// ```
pub fn number(section: &[u8], entry: usize) -> u32 {
    unsafe { calls::motion_check(section.as_ptr(), section.len(), entry) }
}

/// The record of an entry that is whole.
///
/// ```
/// let record = motion::check(motion::example::WALK, 0).unwrap();
/// assert_eq!(&record.name[..4], b"walk");
/// ```
pub fn check(section: &[u8], entry: usize) -> Result<Record> {
    let mut out = [0; 5];
    let n = unsafe { calls::motion_record(section.as_ptr(), section.len(), entry, &mut out) };
    answer(n, Record { name: name_of(out[0], out[1]), reach: out[2] as usize, frames: out[3] as u16, count: out[4] as usize })
}

/// The index of the earliest entry with this name, whole or not; none exactly if there is none. A name ends before its first zero byte, in the
/// section and in the call, or has all sixteen bytes.
///
/// ```
/// assert_eq!(motion::find(motion::example::WALK, b"walk\0\0\0\0\0\0\0\0\0\0\0\0"), Ok(Some(0)));
/// assert_eq!(motion::find(motion::example::WALK, b"walk\0leftovers.."), Ok(Some(0)));
/// assert_eq!(motion::find(motion::example::WALK, b"walking\0\0\0\0\0\0\0\0\0"), Ok(None));
/// ```
pub fn find(section: &[u8], name: &[u8; 16]) -> Result<Option<usize>> {
    let mut out = [0; 2];
    let n = unsafe { calls::motion_find(section.as_ptr(), section.len(), name, &mut out) };
    answer(n, (out[0] == 1).then_some(out[1] as usize))
}

/// The listing of a section, as the program motion-list prints it: the form of the listing, each entry, then how many were accepted and refused,
/// and how many values the lists of the accepted ones have.
///
/// ```
/// let listing = motion::list(motion::example::WALK);
/// assert!(listing.starts_with("listing=2\nsection=JNT0\nentries=1\nentry=0\n"));
/// assert!(listing.ends_with("accepted=1\nrefused=0\nsamples=0\n"));
/// assert_eq!(motion::list(b"TEX0"), "listing=2\nanswer=1\n");
/// ```
pub fn list(section: &[u8]) -> String {
    let mut out = [0; LISTING];
    let end = unsafe { calls::motion_list(section.as_ptr(), section.len(), &mut out) };
    String::from_utf8_lossy(&out[..end]).into_owned()
}

// ---- JNT0

/// The matrix of an object at a frame.
///
/// ```
/// let m = motion::matrix(motion::example::WALK, 0, 0, 5).unwrap();
/// assert_eq!(m[3], [1.0, -1.0, 0.5, 1.0]);
/// assert_eq!(motion::matrix(motion::example::WALK, 0, 1, 5), Err(motion::Refusal(9)));
/// ```
pub fn matrix(section: &[u8], entry: usize, object: usize, frame: u16) -> Result<Matrix> {
    let mut out = [0; 128];
    matrix_bytes(section, entry, object, frame, &mut out)?;
    let mut m = [[0.0; 4]; 4];
    for (float, bytes) in m.iter_mut().flatten().zip(out.chunks_exact(8)) {
        *float = f64::from_le_bytes(bytes.try_into().unwrap());
    }
    Ok(m)
}

/// The same matrix as bytes, into the first 128 of `out`: sixteen floats of eight little-endian bytes, column by column. The rest of
/// `out` keeps its contents, and so does all of it where the call refuses.
///
/// ```
/// let mut out = [7; 130];
/// motion::matrix_bytes(motion::example::WALK, 0, 0, 5, &mut out).unwrap();
/// assert_eq!(out[96..104], 1.0f64.to_le_bytes());
/// assert_eq!(out[128..], [7, 7]);
/// assert_eq!(motion::matrix_bytes(motion::example::WALK, 0, 0, 5, &mut out[..127]), Err(motion::Refusal(11)));
/// ```
pub fn matrix_bytes(section: &[u8], entry: usize, object: usize, frame: u16, out: &mut [u8]) -> Result<()> {
    let n = unsafe { calls::motion_matrix(section.as_ptr(), section.len(), entry, object, frame, out.as_mut_ptr(), out.len()) };
    answer(n, ())
}

/// The matrices of all objects at a frame, in order, from the start of `out`: sixteen floats each, column by column, the same bits as of [`matrix`].
/// Answers how many objects there are. The rest of `out` keeps its contents, and so does all of it where the call refuses: with 11, after everything
/// else, an `out` of fewer than sixteen floats an object.
///
/// ```
/// let walk = motion::example::WALK;
/// let mut out = vec![0.0; 16 * motion::check(walk, 0).unwrap().count];
/// let objects = motion::pose(walk, 0, 5, &mut out).unwrap();
/// for object in 0..objects {
///     // four columns, of which the last is where the object stands
///     let m = &out[16 * object..][..16];
///     assert_eq!(m[12..], [1.0, -1.0, 0.5, 1.0]);
/// }
/// assert_eq!(motion::pose(walk, 0, 5, &mut out[1..]), Err(motion::Refusal(11)));
/// ```
pub fn pose(section: &[u8], entry: usize, frame: u16, out: &mut [f64]) -> Result<usize> {
    let mut objects = [0];
    let n = unsafe { calls::motion_pose(section.as_ptr(), section.len(), entry, frame, out.as_mut_ptr(), out.len(), &mut objects) };
    answer(n, objects[0] as usize)
}

/// The poses at `first` and the frames after it, `frames` of them, one behind the other: the matrix of object o at frame `first + f` stands at
/// 16 * (objects * f + o). Answers how many objects there are, for no frames too. What is not written keeps its contents, and so does all of `out`
/// where the call refuses: with 9, after what is wrong with the entry, where `first + frames` passes 65,536; and then with 11 an `out` that is too
/// short. Frames past the animation's end are sampled as by [`matrix`].
///
/// ```
/// let grow = motion::example::GROW;
/// let record = motion::check(grow, 0).unwrap();
/// let frames = record.frames as usize;
/// let mut out = vec![0.0; 16 * record.count * frames];
/// let objects = motion::clip(grow, 0, 0, frames, &mut out).unwrap();
/// // the scale of an object on y, at each frame
/// let object = 0;
/// let grown: Vec<f64> = (0..frames).map(|f| out[16 * (objects * f + object)..][5]).collect();
/// assert_eq!(grown, [1.0, 2.0]);
/// assert_eq!(motion::clip(grow, 0, 65535, 2, &mut out), Err(motion::Refusal(9)));
/// assert_eq!(motion::clip(grow, 0, 0, frames + 1, &mut out), Err(motion::Refusal(11)));
/// ```
pub fn clip(section: &[u8], entry: usize, first: u16, frames: usize, out: &mut [f64]) -> Result<usize> {
    let mut objects = [0];
    let n = unsafe { calls::motion_clip(section.as_ptr(), section.len(), entry, first, frames, out.as_mut_ptr(), out.len(), &mut objects) };
    answer(n, objects[0] as usize)
}

/// An object's translation curve on axis 0, 1 or 2.
///
/// ```
/// assert_eq!(motion::translation_curve(motion::example::WALK, 0, 0, 2), Ok(motion::Curve::Constant(0.5)));
/// // eleven frames at rate 1: five values, and one frame is left over
/// let eleven = motion::List { start: 0, end: 11, place: 122, length: 5, size: 2, rate: 1, rest: 1 };
/// assert_eq!(motion::translation_curve(motion::example::SWAY, 0, 0, 0), Ok(motion::Curve::List(eleven)));
/// ```
pub fn translation_curve(section: &[u8], entry: usize, object: usize, axis: usize) -> Result<Curve<f64>> {
    let (mut out, mut value) = (CurveWords::default(), [0.0]);
    let n = unsafe { calls::motion_translation_curve(section.as_ptr(), section.len(), entry, object, axis, &mut out, &mut value) };
    answer(n, curve_of(out, value[0]))
}

/// An object's rotation curve.
///
/// ```
/// assert_eq!(motion::rotation_curve(motion::example::WALK, 0, 0), Ok(motion::Curve::None));
/// ```
pub fn rotation_curve(section: &[u8], entry: usize, object: usize) -> Result<Curve<Rotation>> {
    let (mut out, mut value) = (CurveWords::default(), [0.0; 9]);
    let n = unsafe { calls::motion_rotation_curve(section.as_ptr(), section.len(), entry, object, &mut out, &mut value) };
    let v = value;
    answer(n, curve_of(out, [[v[0], v[1], v[2]], [v[3], v[4], v[5]], [v[6], v[7], v[8]]]))
}

/// An object's scale curve on axis 0, 1 or 2. A constant has two numbers.
///
/// ```
/// let constant = motion::Curve::Constant(motion::Pair { first: 1.5, second: -2.0 });
/// assert_eq!(motion::scale_curve(motion::example::GROW, 0, 0, 0), Ok(constant));
/// assert_eq!(motion::scale_curve(motion::example::GROW, 0, 0, 3), Err(motion::Refusal(9)));
/// ```
pub fn scale_curve(section: &[u8], entry: usize, object: usize, axis: usize) -> Result<Curve<Pair>> {
    let (mut out, mut value) = (CurveWords::default(), [0.0; 2]);
    let n = unsafe { calls::motion_scale_curve(section.as_ptr(), section.len(), entry, object, axis, &mut out, &mut value) };
    answer(n, curve_of(out, pair_of(value)))
}

/// Both numbers of one value of an object's scale. The index counts the values that the curve of the axis stores: those of its list, or the one
/// of a constant.
///
/// ```
/// let grow = motion::example::GROW;
/// assert_eq!(motion::scale_value(grow, 0, 0, 0, 0), Ok(motion::Pair { first: 1.5, second: -2.0 }));
/// assert_eq!(motion::scale_value(grow, 0, 0, 1, 1), Ok(motion::Pair { first: 2.0, second: 0.5 }));
/// assert_eq!(motion::scale_value(grow, 0, 0, 1, 2), Err(motion::Refusal(9)));
/// ```
pub fn scale_value(section: &[u8], entry: usize, object: usize, axis: usize, index: usize) -> Result<Pair> {
    let mut out = [0.0; 2];
    let n = unsafe { calls::motion_scale_value(section.as_ptr(), section.len(), entry, object, axis, index, &mut out) };
    answer(n, pair_of(out))
}

fn pair_of(numbers: [f64; 2]) -> Pair {
    Pair { first: numbers[0], second: numbers[1] }
}

/// An object's translation at the common frames of its three curves, x, y, z for each, into `out` from element `place` on.
///
/// ```
/// let mut out = [9.0; 5];
/// let r = motion::resample_translation(motion::example::WALK, 0, 0, &mut out, 1).unwrap();
/// assert_eq!((r.span, r.frames), (Some((0, 1)), 1));
/// assert_eq!(out, [9.0, 1.0, -1.0, 0.5, 9.0]);
/// ```
pub fn resample_translation(section: &[u8], entry: usize, object: usize, out: &mut [f64], place: usize) -> Result<Resampled> {
    let mut words = [0; 4];
    let n = unsafe {
        calls::motion_resample_translation(section.as_ptr(), section.len(), entry, object, out.as_mut_ptr(), out.len(), place, &mut words)
    };
    answer(n, resampled_of(words))
}

/// An object's scale likewise.
///
/// ```
/// let r = motion::resample_scale(motion::example::WALK, 0, 0, &mut [], 0).unwrap();
/// assert_eq!((r.span, r.frames), (None, 0));
/// ```
pub fn resample_scale(section: &[u8], entry: usize, object: usize, out: &mut [f64], place: usize) -> Result<Resampled> {
    let mut words = [0; 4];
    let n = unsafe {
        calls::motion_resample_scale(section.as_ptr(), section.len(), entry, object, out.as_mut_ptr(), out.len(), place, &mut words)
    };
    answer(n, resampled_of(words))
}

fn resampled_of(words: [u64; 4]) -> Resampled {
    Resampled { span: (words[0] == 1).then_some((words[1] as u16, words[2] as u16)), frames: words[3] as usize }
}

// ---- SRT0

/// The matrix of a track at a frame: the identity, with u and v in the fourth column.
///
/// ```
/// assert_eq!(motion::uv_matrix(motion::example::WALK, 0, 0, 5), Err(motion::Refusal(1)));
/// ```
pub fn uv_matrix(section: &[u8], entry: usize, track: usize, frame: u16) -> Result<Matrix> {
    let mut out = [0.0; 16];
    let n = unsafe { calls::motion_uv_matrix(section.as_ptr(), section.len(), entry, track, frame, &mut out) };
    answer(n, matrix_of(out))
}

/// The curve of a track's channel, 0 to 4.
///
/// ```
/// assert_eq!(motion::channel_curve(b"SRT", 0, 0, 3), Err(motion::Refusal(2)));
/// ```
pub fn channel_curve(section: &[u8], entry: usize, track: usize, channel: usize) -> Result<Curve<f64>> {
    let (mut out, mut value) = (CurveWords::default(), [0.0]);
    let n = unsafe { calls::motion_channel_curve(section.as_ptr(), section.len(), entry, track, channel, &mut out, &mut value) };
    answer(n, curve_of(out, value[0]))
}

/// The name of a track of an SRT0 entry.
///
/// ```
/// assert_eq!(motion::material_name(b"SRT0", 0, 0), Err(motion::Refusal(2)));
/// ```
pub fn material_name(section: &[u8], entry: usize, track: usize) -> Result<[u8; 16]> {
    let mut out = [0; 2];
    let n = unsafe { calls::motion_material_name(section.as_ptr(), section.len(), entry, track, &mut out) };
    answer(n, name_of(out[0], out[1]))
}

// ---- PAT0

/// The texture and the palette of a track at a frame.
///
/// ```
/// assert_eq!(motion::choice(motion::example::WALK, 0, 0, 5), Err(motion::Refusal(1)));
/// ```
pub fn choice(section: &[u8], entry: usize, track: usize, frame: u16) -> Result<Choice> {
    let mut out = [0; 2];
    let n = unsafe { calls::motion_choice(section.as_ptr(), section.len(), entry, track, frame, &mut out) };
    answer(n, Choice { texture: out[0] as u8, palette: out[1] as u8 })
}

fn place_of(n: u32, out: [u64; 2]) -> Result<Place> {
    answer(n, Place { place: out[0] as usize, length: out[1] as usize })
}

/// Where an entry's texture names stand, sixteen bytes each.
///
/// ```
/// assert_eq!(motion::texture_names(b"PAT0", 0), Err(motion::Refusal(2)));
/// ```
pub fn texture_names(section: &[u8], entry: usize) -> Result<Place> {
    let mut out = [0; 2];
    let n = unsafe { calls::motion_texture_names(section.as_ptr(), section.len(), entry, &mut out) };
    place_of(n, out)
}

/// Where an entry's palette names stand, sixteen bytes each.
///
/// ```
/// assert_eq!(motion::palette_names(b"PAT0", 0), Err(motion::Refusal(2)));
/// ```
pub fn palette_names(section: &[u8], entry: usize) -> Result<Place> {
    let mut out = [0; 2];
    let n = unsafe { calls::motion_palette_names(section.as_ptr(), section.len(), entry, &mut out) };
    place_of(n, out)
}

/// Where a track's keys stand, four bytes each.
///
/// ```
/// assert_eq!(motion::keys(b"PAT0", 0, 0), Err(motion::Refusal(2)));
/// ```
pub fn keys(section: &[u8], entry: usize, track: usize) -> Result<Place> {
    let mut out = [0; 2];
    let n = unsafe { calls::motion_keys(section.as_ptr(), section.len(), entry, track, &mut out) };
    place_of(n, out)
}

/// The name of a track of a PAT0 entry.
///
/// ```
/// assert_eq!(motion::pattern_name(b"PAT0", 0, 0), Err(motion::Refusal(2)));
/// ```
pub fn pattern_name(section: &[u8], entry: usize, track: usize) -> Result<[u8; 16]> {
    let mut out = [0; 2];
    let n = unsafe { calls::motion_pattern_name(section.as_ptr(), section.len(), entry, track, &mut out) };
    answer(n, name_of(out[0], out[1]))
}

/// A PAT0 entry's name, its frames and its lists. Keys that tracks share stand in each of them.
///
/// ```
/// let flip = motion::pattern(motion::example::FLIP, 0).unwrap();
/// assert_eq!((&flip.name[..4], flip.frames, flip.textures.len(), flip.palettes.len()), (&b"flip"[..], 10, 1, 2));
/// assert_eq!(flip.tracks[1].keys, [motion::Key { frame: 3, texture: 0, palette: 1 }]);
/// assert_eq!(motion::pattern(motion::example::WALK, 0), Err(motion::Refusal(1)));
/// ```
pub fn pattern(section: &[u8], entry: usize) -> Result<PatternLists> {
    // first, since it takes no other stamp
    let textures = names_at(section, texture_names(section, entry)?);
    let palettes = names_at(section, palette_names(section, entry)?);
    let record = check(section, entry)?;
    let tracks = (0..record.count).map(|track| track_at(section, entry, track)).collect::<Result<_>>()?;
    Ok(PatternLists { name: record.name, frames: record.frames, textures, palettes, tracks })
}

fn names_at(section: &[u8], names: Place) -> Vec<[u8; 16]> {
    section[names.place..].chunks_exact(16).take(names.length).map(|name| name.try_into().unwrap()).collect()
}

fn track_at(section: &[u8], entry: usize, track: usize) -> Result<Track> {
    let (name, keys) = (pattern_name(section, entry, track)?, keys(section, entry, track)?);
    let stored = section[keys.place..].chunks_exact(4).take(keys.length);
    let keys = stored.map(|b| Key { frame: u16::from_le_bytes([b[0], b[1]]), texture: b[2], palette: b[3] }).collect();
    Ok(Track { name, keys })
}

impl PatternLists {
    /// The PAT0 section of this one entry, by [`write_pattern`].
    ///
    /// ```
    /// let mut flip = motion::pattern(motion::example::FLIP, 0).unwrap();
    /// flip.tracks[1].keys[0].palette = 0;
    /// assert_eq!(motion::pattern(&flip.section().unwrap(), 0), Ok(flip.clone()));
    /// flip.tracks[1].keys[0].palette = 2;
    /// assert_eq!(flip.section(), Err(motion::Refusal(8)));
    /// ```
    pub fn section(&self) -> Result<Vec<u8>> {
        let (mut tracks, mut keys) = (vec![], vec![]);
        for track in &self.tracks {
            tracks.extend(track.name);
            tracks.extend((track.keys.len() as u32).to_le_bytes());
            for key in &track.keys {
                keys.extend(key.frame.to_le_bytes());
                keys.extend([key.texture, key.palette]);
            }
        }
        let (textures, palettes) = (self.textures.as_flattened(), self.palettes.as_flattened());
        // beside its lists a section has 76 bytes, and 8 more for each track
        let mut out = vec![0; 76 + textures.len() + palettes.len() + tracks.len() + 8 * self.tracks.len() + keys.len()];
        let lent = Pattern { name: self.name, frames: self.frames, textures, palettes, tracks: &tracks, keys: &keys };
        let end = write_pattern(&lent, &mut out)?;
        out.truncate(end);
        Ok(out)
    }
}

/// Writes a PAT0 section of one entry into `out`, from its start, and answers how many bytes it has. The rest of `out` keeps its contents, and so
/// does all of it where the call refuses: with 15 over 255 names of a sort or tracks, where bytes left over do not count; with 9 bytes left over in
/// a list, or key counts that are not together the number of keys; with 8 a key whose texture or palette is not in its list; with 16 an offset that
/// would pass 65,535, or a section that would pass 4,294,967,295 bytes; with 11 an `out` that is shorter than the section. The first of these that
/// holds is answered.
///
/// ```
/// use motion::{example::FLIP, Choice, Pattern, Refusal};
/// // the lists of an entry
/// let list = |list: motion::Place, size| &FLIP[list.place..][..size * list.length];
/// let record = motion::check(FLIP, 0).unwrap();
/// let (textures, palettes) = (motion::texture_names(FLIP, 0).unwrap(), motion::palette_names(FLIP, 0).unwrap());
/// let (mut tracks, mut keys) = (vec![], vec![]);
/// for track in 0..record.count {
///     let own = motion::keys(FLIP, 0, track).unwrap();
///     tracks.extend(motion::pattern_name(FLIP, 0, track).unwrap());
///     tracks.extend((own.length as u32).to_le_bytes());
///     keys.extend(list(own, 4));
/// }
/// // palette 0 in the first key, which is that of track 1
/// assert_eq!(motion::choice(FLIP, 0, 1, 5), Ok(Choice { texture: 0, palette: 1 }));
/// assert_eq!(keys[..4], [3, 0, 0, 1]);
/// keys[3] = 0;
/// let (textures, palettes) = (list(textures, 16), list(palettes, 16));
/// let pattern = Pattern { name: record.name, frames: record.frames, textures, palettes, tracks: &tracks, keys: &keys };
/// let mut out = [7; 250];
/// assert_eq!(motion::write_pattern(&pattern, &mut out), Ok(248));
/// assert_eq!(out[248..], [7, 7]);
/// // and read back
/// let again = motion::check(&out, 0).unwrap();
/// assert_eq!((again.name, again.reach, again.frames, again.count), (record.name, 248, 10, 4));
/// assert_eq!(motion::choice(&out, 0, 1, 5), Ok(Choice { texture: 0, palette: 0 }));
/// assert_eq!(motion::keys(&out, 0, 1), Ok(motion::Place { place: 236, length: 1 }));
/// // there is no palette 2
/// let keys = [3, 0, 0, 2].repeat(3);
/// assert_eq!(motion::write_pattern(&Pattern { keys: &keys, ..pattern }, &mut out), Err(Refusal(8)));
/// ```
pub fn write_pattern(pattern: &Pattern, out: &mut [u8]) -> Result<usize> {
    let Pattern { name, frames, textures, palettes, tracks, keys } = pattern;
    let mut written = [0];
    let n = unsafe {
        calls::motion_write_pattern(
            name,
            *frames,
            textures.as_ptr(),
            textures.len(),
            palettes.as_ptr(),
            palettes.len(),
            tracks.as_ptr(),
            tracks.len(),
            keys.as_ptr(),
            keys.len(),
            out.as_mut_ptr(),
            out.len(),
            &mut written,
        )
    };
    answer(n, written[0] as usize)
}

// ---- SRT0 and PAT0 together

/// A material by its name at a frame: the shift of the SRT0 entry's earliest track with that name, and the choice of the PAT0 entry's. A side
/// without such a track gives its default, no shift or no choice; where neither has one the call is refused with 14. Names are compared as by
/// [`find`].
///
/// ```
/// use motion::{example::{DRIFT, FLIP}, Choice, Refusal};
/// let of = |name| motion::material(DRIFT, 0, FLIP, 0, name, 5).map(|m| (m.shift, m.choice));
/// assert_eq!(of(b"sea\0\0\0\0\0\0\0\0\0\0\0\0\0"), Ok(([1.0, -2.0], Some(Choice { texture: 0, palette: 1 }))));
/// assert_eq!(of(b"ice\0\0\0\0\0\0\0\0\0\0\0\0\0"), Ok(([0.0, 0.0], None)));
/// assert_eq!(of(b"sun\0\0\0\0\0\0\0\0\0\0\0\0\0"), Ok(([0.0, 0.0], Some(Choice { texture: 0, palette: 0 }))));
/// // a track without keys, and no track
/// assert_eq!(of(b"sky\0\0\0\0\0\0\0\0\0\0\0\0\0"), Err(Refusal(10)));
/// assert_eq!(of(b"fog\0\0\0\0\0\0\0\0\0\0\0\0\0"), Err(Refusal(14)));
/// ```
pub fn material(srt: &[u8], srt_entry: usize, pat: &[u8], pat_entry: usize, name: &[u8; 16], frame: u16) -> Result<Material> {
    let (mut shift, mut choice) = ([0.0; 2], [0; 3]);
    let n = unsafe {
        calls::motion_material(srt.as_ptr(), srt.len(), srt_entry, pat.as_ptr(), pat.len(), pat_entry, name, frame, &mut shift, &mut choice)
    };
    let chosen = Choice { texture: choice[1] as u8, palette: choice[2] as u8 };
    answer(n, Material { shift, choice: (choice[0] == 1).then_some(chosen) })
}

// ---- a player

/// A player of a section's entries: the entry that is picked, the frame that is shown, and the mode. A new one has picked none, is at frame 0 and
/// holds.
///
/// The section is handed to each call anew, and may be another one each time. A pick, a tick and a picture each check the entry in the section that
/// they are handed, since none relies on an earlier check; so a tick may be refused though the pick was not, and the frame may be past the entry's
/// last. A refused call changes nothing.
///
/// ```
/// use motion::{example::{GROW, WALK}, Mode, Picture, Player, Refusal};
/// let mut player = Player::new();
/// assert_eq!((player.entry(), player.frame(), player.mode()), (None, 0, Mode::Hold));
/// assert_eq!(player.tick(GROW), Err(Refusal(17)));
/// // two frames, and the last is held
/// player.pick(GROW, 0).unwrap();
/// let mut shown = vec![player.frame()];
/// for _ in 0..3 {
///     player.tick(GROW).unwrap();
///     shown.push(player.frame());
/// }
/// assert_eq!(shown, [0, 1, 1, 1]);
/// // a refused pick changes nothing
/// let before = player;
/// assert_eq!(player.pick(GROW, 1), Err(Refusal(9)));
/// assert_eq!(player, before);
/// // from here on it loops
/// player.set_mode(Mode::Loop);
/// let shown = [(); 4].map(|_| player.tick(GROW).map(|()| player.frame()));
/// assert_eq!(shown, [Ok(0), Ok(1), Ok(0), Ok(1)]);
/// assert_eq!(player.picture(GROW, 0), motion::matrix(GROW, 0, 0, 1).map(Picture::Matrix));
/// // another section, of twelve frames
/// player.tick(WALK).unwrap();
/// assert_eq!((player.entry(), player.frame(), player.mode()), (Some(0), 2, Mode::Loop));
/// ```
#[derive(Clone, Copy, Debug, Default, PartialEq, Eq)]
pub struct Player(PlayerWords);

impl Player {
    /// A player that has picked no entry, at frame 0, to hold.
    ///
    /// ```
    /// assert_eq!(motion::Player::new(), motion::Player::default());
    /// ```
    pub fn new() -> Self {
        Player::default()
    }

    /// Picks an entry, at frame 0, also if it is the one that plays. The mode stays. Refused exactly where the entry is not whole, as by [`check`].
    ///
    /// ```
    /// use motion::{example::WALK, Player, Refusal};
    /// let mut player = Player::new();
    /// assert_eq!(player.pick(&WALK[..85], 0), Err(Refusal(2)));
    /// assert_eq!(player.entry(), None);
    /// assert_eq!(player.pick(WALK, 0), Ok(()));
    /// assert_eq!((player.entry(), player.frame()), (Some(0), 0));
    /// ```
    pub fn pick(&mut self, section: &[u8], entry: usize) -> Result<()> {
        answer(unsafe { calls::motion_player_pick(section.as_ptr(), section.len(), &mut self.0, entry) }, ())
    }

    /// One tick: the next frame. At the entry's last frame or past it, the frame stays if the player holds, and is 0 if it loops; of an entry with no
    /// frames it is 0. Refused with 17 where no entry is picked, and else exactly where the entry is not whole, as by [`check`].
    ///
    /// ```
    /// use motion::{example::WALK, Player, Refusal};
    /// let mut player = Player::new();
    /// assert_eq!(player.tick(b"no section"), Err(Refusal(17)));
    /// player.pick(WALK, 0).unwrap();
    /// assert_eq!(player.tick(b"no section"), Err(Refusal(1)));
    /// assert_eq!(player.tick(WALK), Ok(()));
    /// assert_eq!(player.frame(), 1);
    /// ```
    pub fn tick(&mut self, section: &[u8]) -> Result<()> {
        answer(unsafe { calls::motion_player_tick(section.as_ptr(), section.len(), &mut self.0) }, ())
    }

    /// Sets the mode, before an entry is picked too.
    ///
    /// ```
    /// let mut player = motion::Player::new();
    /// player.set_mode(motion::Mode::Loop);
    /// assert_eq!((player.entry(), player.mode()), (None, motion::Mode::Loop));
    /// ```
    pub fn set_mode(&mut self, mode: Mode) {
        // no mode is refused
        let _ = unsafe { calls::motion_player_mode(&mut self.0, (mode == Mode::Loop) as u32) };
    }

    /// The entry that is picked.
    ///
    /// ```
    /// let mut player = motion::Player::new();
    /// assert_eq!(player.entry(), None);
    /// player.pick(motion::example::WALK, 0).unwrap();
    /// assert_eq!(player.entry(), Some(0));
    /// ```
    pub fn entry(&self) -> Option<usize> {
        (self.0[0] != 0).then_some(self.0[1] as usize)
    }

    /// The frame that is shown.
    ///
    /// ```
    /// let mut player = motion::Player::new();
    /// player.pick(motion::example::WALK, 0).unwrap();
    /// player.tick(motion::example::WALK).unwrap();
    /// assert_eq!(player.frame(), 1);
    /// ```
    pub fn frame(&self) -> u16 {
        self.0[2] as u16
    }

    /// What is done at the last frame.
    ///
    /// ```
    /// assert_eq!(motion::Player::new().mode(), motion::Mode::Hold);
    /// ```
    pub fn mode(&self) -> Mode {
        if self.0[3] == 0 {
            Mode::Hold
        } else {
            Mode::Loop
        }
    }

    /// What an object or a track shows at the player's frame: its matrix as by [`matrix`] or [`uv_matrix`], or its choice as by [`choice()`]. The
    /// section decides which of them. Refused with 17 where no entry is picked, and else as that call is.
    ///
    /// ```
    /// use motion::{example::{DRIFT, FLIP, WALK}, Choice, Picture, Player, Refusal};
    /// let mut player = Player::new();
    /// assert_eq!(player.picture(WALK, 0), Err(Refusal(17)));
    /// player.pick(WALK, 0).unwrap();
    /// assert_eq!(player.picture(WALK, 0), motion::matrix(WALK, 0, 0, 0).map(Picture::Matrix));
    /// assert_eq!(player.picture(WALK, 1), Err(Refusal(9)));
    /// // entry 0 of other sections
    /// assert_eq!(player.picture(DRIFT, 0), motion::uv_matrix(DRIFT, 0, 0, 0).map(Picture::Matrix));
    /// assert_eq!(player.picture(FLIP, 1), Ok(Picture::Choice(Choice { texture: 0, palette: 1 })));
    /// assert_eq!(player.picture(FLIP, 0), Err(Refusal(10)));
    /// ```
    pub fn picture(&self, section: &[u8], index: usize) -> Result<Picture> {
        let (mut matrix, mut picture) = ([0.0; 16], [0; 3]);
        let n = unsafe { calls::motion_player_picture(section.as_ptr(), section.len(), &self.0, index, &mut matrix, &mut picture) };
        let shown = match picture {
            [2, texture, palette] => Picture::Choice(Choice { texture: texture as u8, palette: palette as u8 }),
            _ => Picture::Matrix(matrix_of(matrix)),
        };
        answer(n, shown)
    }
}

/// Sections to try the calls on.
pub mod example {
    /// A JNT0 section with the entry `walk`: twelve frames, and one object, whose translation is 1, -1, 0.5.
    pub const WALK: &[u8] = b"JNT0\x56\0\0\0\0\x01\0\0\0\0\0\0\0\0\0\0\0\0\0\0\x04\0\0\0\x30\0\0\0walk\0\0\0\0\0\0\0\0\0\0\0\0J\0AC\x0c\0\x01\0\0\0\0\0\0\0\0\0\0\0\0\0\x16\0\x78\x02\0\0\0\x10\0\0\0\xf0\xff\xff\0\x08\0\0";

    /// A JNT0 section with the entry `grow`: two frames, and one object, whose scale is constant on x, two values in 1.3.12 on y and one value in
    /// 1.19.12 on z.
    pub const GROW: &[u8] = b"JNT0\x72\0\0\0\0\x01\0\0\0\0\0\0\0\0\0\0\0\0\0\0\x04\0\0\0\x30\0\0\0grow\0\0\0\0\0\0\0\0\0\0\0\0J\0AC\x02\0\x01\0\0\0\0\0\0\0\0\0\0\0\0\0\x16\0\x42\x08\0\0\0\x18\0\0\0\xe0\xff\xff\0\0\x02\x10\x32\0\0\0\0\0\x01\0\x3a\0\0\0\0\x10\0\xfc\0\x20\0\x08\0\x40\x06\0\0\xf8\xff\xff";

    /// A JNT0 section with the entry `sway`: twelve frames, and one object with three lists of eleven frames, in its translation on x at rate 1, in
    /// its rotation at rate 2 and in its scale on x at rate 3.
    pub const SWAY: &[u8] = b"JNT0\x96\0\0\0\0\x01\0\0\0\0\0\0\0\0\0\0\0\0\0\0\x04\0\0\0\x30\0\0\0sway\0\0\0\0\0\0\0\0\0\0\0\0J\0AC\x0c\0\x01\0\0\0\0\0\x58\0\0\0\0\0\0\0\x16\0\x30\x30\0\0\0\0\x0b\x60\x4a\0\0\0\0\0\0\0\0\0\0\0\x01\0\x0c\x80\x54\0\0\0\0\0\x0b\xc0\x5e\0\0\0\0\x10\0\0\0\x10\0\0\0\x10\0\0\0\x10\0\0\0\x10\0\x08\0\0\0\xf8\0\xf0\0\x80\0\x80\0\0\0\0\0\0\0\x10\0\0\0\x10\0\0";

    /// An SRT0 section with the entry `drift` and four tracks: `sea`, shifted by 1 and -2, with other bytes behind the name's zero; `sky`; a later
    /// `sea`, shifted by -2 and 1; and `ice`. `sky` and `ice` are not shifted.
    pub const DRIFT: &[u8] = b"SRT0\x3c\x01\0\0\0\x01\0\0\0\0\0\0\0\0\0\0\0\0\0\0\x04\0\0\0\x30\0\0\0drift\0\0\0\0\0\0\0\0\0\0\0\0\0\0\0\x01\0\0\0\0\x04\0\0\0\0\0\0\0\0\0\0\0\0\0\0\0\0\0\0\0\0\0\0\0\0\0\0\x28\0\0\0\0\0\0\0\0\0\0\0\0\0\0\0\0\0\0\0\0\0\0\0\0\0\0\0\x01\0\0\x10\x08\x01\0\0\x01\0\0\x10\x0a\x01\0\0\0\0\0\0\0\0\0\0\0\0\0\0\0\0\0\0\0\0\0\0\0\0\0\0\0\0\0\0\0\0\0\0\0\0\0\0\0\0\0\0\0\0\0\0\0\0\0\0\0\0\0\0\0\0\0\0\0\0\0\0\0\0\0\0\x01\0\0\x10\x0a\x01\0\0\x01\0\0\x10\x08\x01\0\0\0\0\0\0\0\0\0\0\0\0\0\0\0\0\0\0\0\0\0\0\0\0\0\0\0\0\0\0\0\0\0\0\0\0\0\0\0\0\0\0sea\0\xff\xff\xff\xff\xff\xff\xff\xff\xff\xff\xff\xffsky\0\0\0\0\0\0\0\0\0\0\0\0\0sea\0\0\0\0\0\0\0\0\0\0\0\0\0ice\0\0\0\0\0\0\0\0\0\0\0\0\0\x20\0\xc0\xff";

    /// A PAT0 section with the entry `flip` and four tracks: `sky`, without keys; `sea`, of palette 1, with other bytes behind the name's zero; a
    /// later `sea` and `sun`, of palette 0.
    pub const FLIP: &[u8] = b"PAT0\xe4\0\0\0\0\x01\0\0\0\0\0\0\0\0\0\0\0\0\0\0\x04\0\0\0\x30\0\0\0flip\0\0\0\0\0\0\0\0\0\0\0\0\0\0\0\0\x0a\0\x01\x02\x94\0\x94\0\0\x04\0\0\0\0\0\0\0\0\0\0\0\0\0\0\0\0\0\0\0\0\0\0\0\0\0\0\x08\0\0\0\0\0\0\0\0\0\x8c\0\x01\0\0\0\0\0\x8c\0\x01\0\0\0\0\0\x90\0\x01\0\0\0\0\0\x90\0sky\0\0\0\0\0\0\0\0\0\0\0\0\0sea\0\xee\xee\xee\xee\xee\xee\xee\xee\xee\xee\xee\xeesea\0\0\0\0\0\0\0\0\0\0\0\0\0sun\0\0\0\0\0\0\0\0\0\0\0\0\0\x03\0\0\x01\x03\0\0\0\0\0\0\0\0\0\0\0\0\0\0\0\0\0\0\0\0\0\0\0\0\0\0\0\0\0\0\0\0\0\0\0";
}

/* Motion sections of two-screen handheld games: JNT0, SRT0, PAT0.
 *
 * Link with libexports.a, which `bin/build-host` writes to target/staticlib.
 *
 * Every call takes a section of `length` bytes, motion_material two, motion_write_pattern lists in its place, of any length and with any contents,
 * and ends; motion_player_mode takes none. It answers 0, or the number of its refusal:
 *
 *    1  the first four bytes are no stamp that the call takes
 *    2  too short: a part ends past the section
 *    3  an info block's first byte is not 0
 *    4  an info block states a wrong size for its data
 *    5  the animation's stamp is wrong
 *    6  an animation of 0 frames
 *    7  a curve's start is not below its end
 *    8  a key's texture or palette is not below its count
 *    9  an index past its list; a clip that passes frame 65,535; in writing, bytes left over in a list, or counts that do not add up
 *   10  nothing to sample: an empty list, or a track without keys
 *   11  the lent slice is too small
 *   12  more than 999 objects
 *   14  neither entry has a track of this name
 *   15  more than 255 names of a sort, or tracks
 *   16  an offset would pass 65,535, or the section 4,294,967,295 bytes
 *   17  a tick or a picture before an entry is picked
 *
 * What is lent keeps its contents where the call refuses. No pointer may be null, not even for 0 bytes, and what a call writes into may
 * not overlap anything else that it is lent. Indexes count from 0.
 */
#ifndef MOTION_H
#define MOTION_H

#include <stddef.h>
#include <stdint.h>

#ifdef __cplusplus
extern "C" {
#endif

/* Whether entry `entry` is whole: 0, or the number. */
uint32_t motion_check(const uint8_t *section, size_t length, size_t entry);

/* The matrix of object `object` of a JNT0 entry at frame `frame`, into the first 128 of the `out_length` bytes at `out`: sixteen doubles,
 * column by column, eight little-endian bytes each. The other bytes keep their contents. Fewer than 128 bytes are refused with 11, after
 * everything else. */
uint32_t motion_matrix(const uint8_t *section, size_t length, size_t entry, size_t object, uint16_t frame, uint8_t *out, size_t out_length);

/* The matrices of all objects of a JNT0 entry at frame `frame`, in order, into the `count` doubles at `out`, from the first on: sixteen doubles each,
 * column by column, the same bits as of motion_matrix. objects[0] is how many objects there are; the doubles behind their matrices keep their
 * contents. Fewer than sixteen doubles an object are refused with 11, after everything else. */
uint32_t motion_pose(const uint8_t *section, size_t length, size_t entry, uint16_t frame, double *out, size_t count, uint64_t objects[1]);

/* The poses at frame `first` and the frames after it, `frames` of them, one behind the other: the matrix of object o at frame first + f stands at
 * out[16 * (objects[0] * f + o)]. For no frames nothing is written but objects[0]. Refused are, after what is wrong with the entry: a first + frames
 * that passes 65,536, with 9, whatever `frames` is; then a `count` below 16 * objects * frames, with 11. */
uint32_t motion_clip(const uint8_t *section, size_t length, size_t entry, uint16_t first, size_t frames, double *out, size_t count, uint64_t objects[1]);

/* The kind of a section by its first four bytes, whatever follows them: kind[0] is 0 for JNT0, 1 for SRT0, 2 for PAT0. */
uint32_t motion_kind(const uint8_t *section, size_t length, uint64_t kind[1]);

/* The record of an entry: the first and the last eight bytes of its name as little-endian words, its reach, its frames, and how many
 * objects or tracks it has. */
uint32_t motion_record(const uint8_t *section, size_t length, size_t entry, uint64_t out[5]);

/* The earliest entry with this name: 1 and its index, or 0 if there is none. A name ends before its first zero byte, or has all sixteen
 * bytes. */
uint32_t motion_find(const uint8_t *section, size_t length, const uint8_t name[16], uint64_t out[2]);

/* A curve of an object or track. out[0] is 0 for none; 1 for a constant, whose value goes to `value`; 2 for a list, with its start, end,
 * place in the section, length, bytes per value, rate and rest in out[1] to out[7]. The rate is the stored one, 0 to 3, and 0 in SRT0. The
 * rest is the frames that it leaves over: end - start is length times 2 to the power of rate, plus rest, and rest is below that power. Axes
 * are 0, 1, 2, channels 0 to 4. A rotation has nine doubles, column by column. A scale has two, its first and its second number; the first
 * is the one that is sampled. */
uint32_t motion_translation_curve(const uint8_t *section, size_t length, size_t entry, size_t object, size_t axis, uint64_t out[8], double value[1]);
uint32_t motion_rotation_curve(const uint8_t *section, size_t length, size_t entry, size_t object, uint64_t out[8], double value[9]);
uint32_t motion_scale_curve(const uint8_t *section, size_t length, size_t entry, size_t object, size_t axis, uint64_t out[8], double value[2]);
uint32_t motion_channel_curve(const uint8_t *section, size_t length, size_t entry, size_t track, size_t channel, uint64_t out[8], double value[1]);

/* One value of an object's scale: its first and its second number. The index counts the values that the curve stores: those of its list, or
 * the one of a constant. */
uint32_t motion_scale_value(const uint8_t *section, size_t length, size_t entry, size_t object, size_t axis, size_t index, double out[2]);

/* The matrix of an SRT0 track at a frame: sixteen doubles, column by column. */
uint32_t motion_uv_matrix(const uint8_t *section, size_t length, size_t entry, size_t track, uint16_t frame, double out[16]);

/* The name of a track, as two little-endian words. */
uint32_t motion_material_name(const uint8_t *section, size_t length, size_t entry, size_t track, uint64_t out[2]);
uint32_t motion_pattern_name(const uint8_t *section, size_t length, size_t entry, size_t track, uint64_t out[2]);

/* The place and the length of a PAT0 entry's texture names and palette names (sixteen bytes each), and of a track's keys (four each). */
uint32_t motion_texture_names(const uint8_t *section, size_t length, size_t entry, uint64_t out[2]);
uint32_t motion_palette_names(const uint8_t *section, size_t length, size_t entry, uint64_t out[2]);
uint32_t motion_keys(const uint8_t *section, size_t length, size_t entry, size_t track, uint64_t out[2]);

/* The texture and the palette of a PAT0 track at a frame, as indexes of the entry's names. */
uint32_t motion_choice(const uint8_t *section, size_t length, size_t entry, size_t track, uint16_t frame, uint64_t out[2]);

/* A material by its name at a frame, from an SRT0 section and a PAT0 section: the shift of the SRT0 entry's earliest track with that name, u and
 * v, and the choice of the PAT0 entry's. choice[0] is 1, with the texture and the palette in choice[1] and choice[2], or 0 for no choice, and
 * then the other two keep their contents. A side without such a track gives its default, 0 and 0 or no choice. The refusals of the SRT0 section
 * come first, then those of the PAT0 section, then 14 where neither side has the track, then 10 where the PAT0 entry's has no keys. Names are
 * compared as by motion_find. */
uint32_t motion_material(const uint8_t *srt, size_t srt_length, size_t srt_entry, const uint8_t *pat, size_t pat_length, size_t pat_entry, const uint8_t name[16], uint16_t frame, double shift[2], uint64_t choice[3]);

/* A player: which entry plays, at which frame, and what is done at its last frame. It is four words: player[0] is 0 before an entry is picked,
 * and any other word after that; player[1] is the entry; player[2] the frame, its low sixteen bits; player[3] is 0 to hold, and any other word to
 * loop. Any four words are a player, and four zeros are a new one: nothing is picked, the frame is 0, and it holds. The section may be another one
 * in each call, of any kind: a pick, a tick and a picture each check the entry anew. */

/* Picks entry `entry`: player[0] becomes 1, player[1] the entry and player[2] 0, also where this entry was picked before. player[3] keeps its
 * contents. Refused as by motion_check, and never with 17. */
uint32_t motion_player_pick(const uint8_t *section, size_t length, uint64_t player[4], size_t entry);

/* One tick, which writes the new frame into player[2] and nothing else. Before the entry's last frame that is the next one. At the last frame or
 * past it, it is the same one to hold, and 0 to loop. Of an entry with 0 frames it is 0. Refused with 17 where nothing is picked, whatever the
 * section is, and then as by motion_check of the entry. */
uint32_t motion_player_tick(const uint8_t *section, size_t length, uint64_t player[4]);

/* Sets the mode: player[3] becomes 0, to hold, if `loop` is 0, and else 1, to loop. Never refused. */
uint32_t motion_player_mode(uint64_t player[4], uint32_t loop);

/* What the player shows of object or track `index`, of its entry at its frame. The section's kind decides what that is. The matrix of JNT0 or SRT0
 * goes to `matrix`, sixteen doubles, column by column, the same bits as of motion_matrix or motion_uv_matrix; then picture[0] is 1, and the other
 * two keep their contents. The choice of PAT0, as of motion_choice, goes to `picture`: 2, the texture and the palette; then `matrix` keeps its
 * contents. Refused with 17 where nothing is picked, whatever the section is; then as by motion_kind, and then as that one call is. */
uint32_t motion_player_picture(const uint8_t *section, size_t length, const uint64_t player[4], size_t index, double matrix[16], uint64_t picture[3]);

/* Writes a PAT0 section of one entry into the `out_length` bytes at `out`, from the first on, and its size into written[0]. The bytes behind it
 * keep their contents. The lists are bytes: sixteen a name, twenty a track, which are its name and how many keys it has in four little-endian
 * bytes, and four a key as stored, its frame in two little-endian bytes, its texture and its palette. The keys stand track by track. Names are
 * written as they are, and 0 frames too.
 * Refused are, in this order: over 255 names of a sort or tracks, with 15, where bytes left over do not count; bytes left over in a list, or key
 * counts that are not together the number of keys, with 9; a key's texture or palette that is not below its count, with 8; an offset that would
 * pass 65,535, also that of an empty list, or a section that would pass 4,294,967,295 bytes, with 16; and an `out` that is shorter than the
 * section, with 11. */
uint32_t motion_write_pattern(const uint8_t name[16], uint16_t frames, const uint8_t *textures, size_t textures_length, const uint8_t *palettes, size_t palettes_length, const uint8_t *tracks, size_t tracks_length, const uint8_t *keys, size_t keys_length, uint8_t *out, size_t out_length, uint64_t written[1]);

/* An object's translation or scale at the common frames of its three curves: x, y, z for each frame, into the `count` doubles at `floats`
 * from element `place` on. out[0] is 1, with the first frame, the one after the last, and how many frames were written; or 0 for three
 * missing curves. */
uint32_t motion_resample_translation(const uint8_t *section, size_t length, size_t entry, size_t object, double *floats, size_t count, size_t place, uint64_t out[4]);
uint32_t motion_resample_scale(const uint8_t *section, size_t length, size_t entry, size_t object, double *floats, size_t count, size_t place, uint64_t out[4]);

/* Bytes that hold every listing. */
#define MOTION_LIST_ROOM 65536

/* The listing of a section, as the program motion-list prints it: the line listing=2 first, in a refused section too, and the totals after the
 * last entry. Answers how many bytes of `out` it has. */
size_t motion_list(const uint8_t *section, size_t length, uint8_t out[MOTION_LIST_ROOM]);

#ifdef __cplusplus
}
#endif

#endif

//! The sizes of things, in bytes, and the room that each answer needs.

use crate::finish::Finish;

/// A block.
pub const BLOCK: usize = 16;
/// A key: of AES-128, or of AES-256.
pub const KEYS: [usize; 2] = [16, 32];
/// A run record.
pub const RECORD: usize = 24;
/// The most blocks that a list has, and that a mask jumps, forward or back.
pub const LIMIT: usize = 1_048_576;
/// The longest message; its padding fills the last block.
pub const LONGEST_MESSAGE: usize = LIMIT * BLOCK - 1;
/// What a sealed record has beside its ciphertext: IV and tag, the tag being that of the cipher finish.
pub const AROUND: usize = around(Finish::Cipher);
/// A digest of SHA-1, and so a tag by the hash finish.
pub const DIGEST: usize = 20;
/// The longest text for SHA-1.
pub const LONGEST_TEXT: usize = 64_032;

/// What a sealed record with this finish has beside its ciphertext: IV and tag.
///
/// ```
/// use balzenoh::sizes::around;
/// use balzenoh::Finish;
///
/// assert_eq!(Finish::ALL.map(around), [32, 36]);
/// ```
pub const fn around(finish: Finish) -> usize {
    BLOCK + finish.tag_length()
}

/// The number of blocks of a message of this length, with its padding.
///
/// ```
/// use balzenoh::sizes::padded_blocks;
///
/// assert_eq!([0, 15, 16].map(padded_blocks), [1, 1, 2]);
/// ```
pub const fn padded_blocks(length: usize) -> usize {
    length / BLOCK + 1
}

/// The room that the sealed record of a message needs. A message over the limit gets no room: it is refused with any.
///
/// ```
/// use balzenoh::sizes::sealed_room;
///
/// assert_eq!([0, 16, 16_777_215, 16_777_216].map(sealed_room), [48, 64, 16_777_248, 0]);
/// ```
pub const fn sealed_room(message: usize) -> usize {
    sealed_room_with(Finish::Cipher, message)
}

/// The same with this finish.
///
/// ```
/// use balzenoh::sizes::sealed_room_with;
/// use balzenoh::Finish;
///
/// let room = |message| sealed_room_with(Finish::Sha1, message);
/// assert_eq!([0, 16, 16_777_215, 16_777_216].map(room), [52, 68, 16_777_252, 0]);
/// ```
pub const fn sealed_room_with(finish: Finish, message: usize) -> usize {
    if message > LONGEST_MESSAGE {
        return 0;
    }
    padded_blocks(message) * BLOCK + around(finish)
}

/// The room that always suffices to open a sealed record: that of its ciphertext, 1 to 16 bytes more than the message's, which is
/// what opening needs. A record over the limit gets no room.
///
/// ```
/// use balzenoh::sizes::open_room;
///
/// assert_eq!([0, 48, 16_777_248, 16_777_264].map(open_room), [0, 16, 16_777_216, 0]);
/// ```
pub const fn open_room(sealed: usize) -> usize {
    open_room_with(Finish::Cipher, sealed)
}

/// The same with this finish.
///
/// ```
/// use balzenoh::sizes::open_room_with;
/// use balzenoh::Finish;
///
/// let room = |sealed| open_room_with(Finish::Sha1, sealed);
/// assert_eq!([0, 52, 16_777_252, 16_777_268].map(room), [0, 16, 16_777_216, 0]);
/// ```
pub const fn open_room_with(finish: Finish, sealed: usize) -> usize {
    if sealed > LIMIT * BLOCK + around(finish) {
        return 0;
    }
    sealed.saturating_sub(around(finish))
}

/// The room that the ciphertext of a run needs. A run over the limit gets no room.
///
/// ```
/// use balzenoh::sizes::run_room;
///
/// assert_eq!([run_room(32, false), run_room(32, true), run_room(16_777_216, true)], [32, 48, 0]);
/// ```
pub const fn run_room(length: usize, last: bool) -> usize {
    let blocks = if last { padded_blocks(length) } else { length / BLOCK };
    if blocks > LIMIT {
        return 0;
    }
    blocks * BLOCK
}

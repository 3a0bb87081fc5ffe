//! The functions of the proved static library, on slices. All of the crate's `unsafe` calls are here.
//!
//! Each wrapper hands its slices over as pointer and length. It gives back the library's number, which is 0 or that of the
//! refusal, and the reported length where there is one.
//!
//! The library asks the same of every caller: each pointer is valid for its length, and a lent output overlaps no other argument.
//! Slices are valid for their length, and an exclusive borrow overlaps no other borrow. The library keeps no pointer, never
//! writes an input, and answers all lengths, bytes and numbers.

use crate::abi::*;
use crate::finish::Finish;

#[rustfmt::skip]
pub fn seal(finish: Finish, key: &[u8], iv: &[u8], message: &[u8], out: &mut [u8]) -> (u8, usize) {
    let call = match finish {
        Finish::Cipher => balzenoh_seal,
        Finish::Sha1 => balzenoh_seal_sha1,
    };
    let mut length = 0;
    // SAFETY: slices valid for their lengths, `out` and `length` borrowed exclusively (see above).
    let number = unsafe {
        call(
            key.as_ptr(), key.len(), iv.as_ptr(), iv.len(), message.as_ptr(), message.len(),
            out.as_mut_ptr(), out.len(), &mut length,
        )
    };
    (number, length)
}

#[rustfmt::skip]
pub fn open(finish: Finish, key: &[u8], sealed: &[u8], out: &mut [u8]) -> (u8, usize) {
    let call = match finish {
        Finish::Cipher => balzenoh_open,
        Finish::Sha1 => balzenoh_open_sha1,
    };
    let mut length = 0;
    // SAFETY: slices valid for their lengths, `out` and `length` borrowed exclusively (see above).
    let number = unsafe {
        call(
            key.as_ptr(), key.len(), sealed.as_ptr(), sealed.len(),
            out.as_mut_ptr(), out.len(), &mut length,
        )
    };
    (number, length)
}

#[rustfmt::skip]
pub fn seal_run(
    key: &[u8], iv: &[u8], first: u32, last: bool, bytes: &[u8], out: &mut [u8], run: &mut [u8],
) -> (u8, usize) {
    let mut length = 0;
    // SAFETY: slices valid for their lengths, `out`, `length` and `run` borrowed exclusively (see above).
    let number = unsafe {
        balzenoh_seal_run(
            key.as_ptr(), key.len(), iv.as_ptr(), iv.len(), first, u8::from(last), bytes.as_ptr(), bytes.len(),
            out.as_mut_ptr(), out.len(), &mut length, run.as_mut_ptr(), run.len(),
        )
    };
    (number, length)
}

#[rustfmt::skip]
pub fn check_run(key: &[u8], iv: &[u8], first: u32, ciphertext: &[u8], run: &mut [u8]) -> u8 {
    // SAFETY: slices valid for their lengths, `run` borrowed exclusively (see above).
    unsafe {
        balzenoh_check_run(
            key.as_ptr(), key.len(), iv.as_ptr(), iv.len(), first, ciphertext.as_ptr(), ciphertext.len(),
            run.as_mut_ptr(), run.len(),
        )
    }
}

#[rustfmt::skip]
pub fn join(left: &[u8], right: &[u8], run: &mut [u8]) -> u8 {
    // SAFETY: slices valid for their lengths, `run` borrowed exclusively (see above).
    unsafe {
        balzenoh_join(
            left.as_ptr(), left.len(), right.as_ptr(), right.len(), run.as_mut_ptr(), run.len(),
        )
    }
}

#[rustfmt::skip]
pub fn join_list(records: &[u8], run: &mut [u8]) -> u8 {
    // SAFETY: slices valid for their lengths, `run` borrowed exclusively (see above).
    unsafe {
        balzenoh_join_list(
            records.as_ptr(), records.len(), run.as_mut_ptr(), run.len(),
        )
    }
}

#[rustfmt::skip]
pub fn close(finish: Finish, key: &[u8], iv: &[u8], run: &[u8], tag: &mut [u8]) -> u8 {
    let call = match finish {
        Finish::Cipher => balzenoh_close,
        Finish::Sha1 => balzenoh_close_sha1,
    };
    // SAFETY: slices valid for their lengths, `tag` borrowed exclusively (see above).
    unsafe {
        call(
            key.as_ptr(), key.len(), iv.as_ptr(), iv.len(), run.as_ptr(), run.len(), tag.as_mut_ptr(), tag.len(),
        )
    }
}

#[rustfmt::skip]
pub fn test(finish: Finish, key: &[u8], iv: &[u8], run: &[u8], tag: &[u8]) -> u8 {
    let call = match finish {
        Finish::Cipher => balzenoh_test,
        Finish::Sha1 => balzenoh_test_sha1,
    };
    // SAFETY: slices valid for their lengths, and nothing is written (see above).
    unsafe {
        call(
            key.as_ptr(), key.len(), iv.as_ptr(), iv.len(), run.as_ptr(), run.len(), tag.as_ptr(), tag.len(),
        )
    }
}

#[rustfmt::skip]
pub fn jump(mask: &[u8], distance: i32, out: &mut [u8]) -> u8 {
    // SAFETY: slices valid for their lengths, `out` borrowed exclusively (see above).
    unsafe {
        balzenoh_jump(
            mask.as_ptr(), mask.len(), distance, out.as_mut_ptr(), out.len(),
        )
    }
}

#[rustfmt::skip]
pub fn sha1(text: &[u8], out: &mut [u8]) -> u8 {
    // SAFETY: slices valid for their lengths, `out` borrowed exclusively (see above).
    unsafe {
        balzenoh_sha1(
            text.as_ptr(), text.len(), out.as_mut_ptr(), out.len(),
        )
    }
}

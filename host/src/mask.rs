//! Jumping a mask.

use crate::raw;
use crate::refusal::Refusal;
use crate::sizes::BLOCK;

/// Jumps a mask by -1,048,576 to 1,048,576 blocks: forward, or back where the distance is negative.
///
/// A jump back undoes the jump forward by the same number. So the first mask of a run, jumped back by the run's first block, is
/// the list's start mask.
///
/// # Errors
///
/// [`Refusal::BeyondLimit`] for a distance below -1,048,576 or above 1,048,576.
///
/// ```
/// use balzenoh::{jump, Refusal};
///
/// let one = [0, 0, 0, 0, 0, 0, 0, 0, 0, 0, 0, 0, 0, 0, 0, 0x01];
/// assert_eq!(jump(&one, 128), Ok([0, 0, 0, 0, 0, 0, 0, 0, 0, 0, 0, 0, 0, 0, 0, 0x87]));
/// assert_eq!(jump(&one, -1), Ok([0x80, 0, 0, 0, 0, 0, 0, 0, 0, 0, 0, 0, 0, 0, 0, 0x43]));
/// assert_eq!(jump(&jump(&one, 1_048_576)?, -1_048_576), Ok(one));
/// assert_eq!(jump(&one, 1_048_577), Err(Refusal::BeyondLimit));
/// assert_eq!(jump(&one, -1_048_577), Err(Refusal::BeyondLimit));
/// # Ok::<(), Refusal>(())
/// ```
pub fn jump(mask: &[u8; BLOCK], distance: i32) -> Result<[u8; BLOCK], Refusal> {
    let mut jumped = [0; BLOCK];
    raw::jump(mask, distance, &mut jumped)?;
    Ok(jumped)
}

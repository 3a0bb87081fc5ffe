//! Wiping bytes that are not needed any more.
//!
//! A volatile write is made even where nothing reads the bytes again, and the fence keeps it before whatever frees them. Copies
//! that the compiler made by moving a value are not reached.

use std::ops::{Deref, DerefMut};
use std::ptr;
use std::sync::atomic::{compiler_fence, Ordering};

/// Sets the bytes to zero.
pub fn wipe(bytes: &mut [u8]) {
    for byte in bytes {
        // SAFETY: an exclusive borrow of a byte is valid for a write, and aligned.
        unsafe { ptr::write_volatile(byte, 0) };
    }
    compiler_fence(Ordering::SeqCst);
}

/// Bytes on their way to the library or from it, wiped at their end.
pub struct Wiped<B: AsMut<[u8]>>(pub B);

impl<B: AsMut<[u8]>> Deref for Wiped<B> {
    type Target = B;

    fn deref(&self) -> &B {
        &self.0
    }
}

impl<B: AsMut<[u8]>> DerefMut for Wiped<B> {
    fn deref_mut(&mut self) -> &mut B {
        &mut self.0
    }
}

impl<B: AsMut<[u8]>> Drop for Wiped<B> {
    fn drop(&mut self) {
        wipe(self.0.as_mut());
    }
}

#[cfg(test)]
mod tests {
    use std::mem::ManuallyDrop;
    use std::ptr;

    use super::Wiped;

    #[test]
    fn bytes_on_the_way_are_wiped() {
        let mut bytes = Box::new(ManuallyDrop::new(Wiped([0xA5_u8; 24])));
        let place: *const [u8; 24] = &bytes.0;
        // SAFETY: the value is not used again, and the box, which is still there, ends nothing.
        unsafe { ManuallyDrop::drop(&mut bytes) };
        // SAFETY: the bytes lie in the box, and any bytes are such an array.
        assert_eq!(unsafe { ptr::read_volatile(place) }, [0; 24]);
    }
}

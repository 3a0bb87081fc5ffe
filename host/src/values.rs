//! IV and tag: 16 bytes each, and not to be mistaken for one another.

use std::fmt;
use std::str::FromStr;

use crate::hex;
use crate::refusal::Refusal;
use crate::sizes::BLOCK;

/// A type of 16 bytes, and the refusal that a wrong length gets.
macro_rules! sixteen_bytes {
    ($(#[$attribute:meta])* $name:ident, $refusal:ident) => {
        $(#[$attribute])*
        #[derive(Clone, Copy, PartialEq, Eq)]
        pub struct $name([u8; BLOCK]);

        impl $name {
            /// Takes 16 bytes.
            ///
            /// # Errors
            ///
            #[doc = concat!("[`Refusal::", stringify!($refusal), "`] for any other number of bytes, as the library would.")]
            ///
            /// ```
            #[doc = concat!("use balzenoh::{", stringify!($name), ", Refusal};")]
            ///
            #[doc = concat!("assert!(", stringify!($name), "::from_slice(&[7; 16]).is_ok());")]
            #[doc = concat!("assert_eq!(", stringify!($name), "::from_slice(&[7; 15]).unwrap_err(), Refusal::", stringify!($refusal), ");")]
            /// ```
            pub fn from_slice(bytes: &[u8]) -> Result<Self, Refusal> {
                bytes.try_into().map(Self).map_err(|_| Refusal::$refusal)
            }

            /// The 16 bytes.
            ///
            /// ```
            #[doc = concat!("assert_eq!(balzenoh::", stringify!($name), "::from([7; 16]).as_bytes(), &[7; 16]);")]
            /// ```
            pub fn as_bytes(&self) -> &[u8; BLOCK] {
                &self.0
            }
        }

        impl From<[u8; BLOCK]> for $name {
            fn from(bytes: [u8; BLOCK]) -> Self {
                Self(bytes)
            }
        }

        impl TryFrom<&[u8]> for $name {
            type Error = Refusal;

            fn try_from(bytes: &[u8]) -> Result<Self, Refusal> {
                Self::from_slice(bytes)
            }
        }

        impl AsRef<[u8]> for $name {
            fn as_ref(&self) -> &[u8] {
                &self.0
            }
        }

        /// Reads 32 hexadecimal digits. Any other text is refused as a wrong number of bytes is.
        impl FromStr for $name {
            type Err = Refusal;

            fn from_str(text: &str) -> Result<Self, Refusal> {
                let mut value = Self([0; BLOCK]);
                hex::decode_into(text, &mut value.0).map_err(|_| Refusal::$refusal)?;
                Ok(value)
            }
        }
    };
}

sixteen_bytes! {
    /// The initialisation vector. It must not be used twice under one key.
    ///
    /// ```
    /// use balzenoh::{Iv, Refusal};
    ///
    /// let iv: Iv = "0123456789ABCDEF0123456789ABCDEF".parse()?;
    /// assert_eq!(iv.as_bytes()[..3], [0x01, 0x23, 0x45]);
    /// # Ok::<(), Refusal>(())
    /// ```
    Iv, IvLength
}
sixteen_bytes! {
    /// The tag of a sealed list. To see whether it is right, use [`test`](fn@crate::test).
    ///
    /// ```
    /// use balzenoh::{seal, Iv, Key, Refusal, Tag};
    ///
    /// let sealed = seal(&Key::from([7; 16]), &Iv::from([1; 16]), b"parcel 4711 -> cage 12")?;
    /// let tag = Tag::try_from(&sealed[sealed.len() - 16..])?;
    /// # Ok::<(), Refusal>(())
    /// ```
    Tag, Length
}

impl fmt::Debug for Iv {
    fn fmt(&self, f: &mut fmt::Formatter<'_>) -> fmt::Result {
        write!(f, "Iv({})", hex::encode(&self.0))
    }
}

impl fmt::Debug for Tag {
    fn fmt(&self, f: &mut fmt::Formatter<'_>) -> fmt::Result {
        write!(f, "Tag({})", hex::encode(&self.0))
    }
}

#[cfg(test)]
mod tests {
    use super::{Iv, Tag};

    #[test]
    fn a_wrong_length_gets_its_number() {
        for length in (0..40).filter(|&length| length != 16) {
            let bytes = vec![0; length];
            assert_eq!(Iv::from_slice(&bytes).unwrap_err().number(), 2);
            assert_eq!(Tag::from_slice(&bytes).unwrap_err().number(), 3);
        }
    }

    #[test]
    fn they_show_their_bytes() {
        assert_eq!(format!("{:?}", Iv::from([0xAB; 16])), format!("Iv({})", "AB".repeat(16)));
        assert_eq!(format!("{:?}", Tag::from([0xAB; 16])), format!("Tag({})", "AB".repeat(16)));
    }
}

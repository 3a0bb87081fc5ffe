//! What the tests share: two other implementations of the mode, a bench that holds every call of the library against them, and the
//! mode in 64-bit words.

pub mod aesni;
pub mod bench;
pub mod call;
pub mod cipher;
pub mod finish;
pub mod fips197;
pub mod library;
pub mod lists;
pub mod masks;
pub mod mode;
pub mod openssl;
pub mod pairs;
pub mod plan;
pub mod random;
pub mod reference;
pub mod sealed_list;
pub mod segments;
pub mod sha1;
pub mod tally;
pub mod words;

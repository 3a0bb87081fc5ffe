//! A block cipher in two halves, over blocks as numbers: the first byte is the highest.

pub trait Cipher {
    /// Under a key of 16 bytes, which has ten rounds, or of 32, which has fourteen.
    fn new(key: &[u8]) -> Self;
    /// Key whitening and the first half of the rounds; gives the middletext.
    fn first_half(&self, block: u128) -> u128;
    /// The other half of the rounds, from the middletext.
    fn second_half(&self, middletext: u128) -> u128;
    fn first_half_back(&self, middletext: u128) -> u128;
    fn second_half_back(&self, block: u128) -> u128;
    /// A round key, the whitening's being number 0.
    fn round_key(&self, round: usize) -> u128;

    fn encrypt(&self, block: u128) -> u128 {
        self.second_half(self.first_half(block))
    }

    fn decrypt(&self, block: u128) -> u128 {
        self.first_half_back(self.second_half_back(block))
    }
}

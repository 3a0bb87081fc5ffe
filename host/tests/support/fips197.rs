//! AES-128 and AES-256 straight from FIPS 197: a state of four rows and four columns, and an S-box that is computed from the
//! field's inverse.

use std::sync::OnceLock;

use super::cipher::Cipher;

/// `state[row][column]`, as in section 3.4.
type State = [[u8; 4]; 4];

struct Boxes {
    forward: [u8; 256],
    backward: [u8; 256],
}

pub struct Fips197 {
    boxes: &'static Boxes,
    round_keys: Vec<State>,
}

impl Cipher for Fips197 {
    fn new(key: &[u8]) -> Self {
        let boxes = boxes();
        Self { boxes, round_keys: expand(boxes, key) }
    }

    fn first_half(&self, block: u128) -> u128 {
        let mut state = load(block);
        self.add_round_key(&mut state, 0);
        for round in 1..=self.half() {
            self.substitute(&mut state);
            shift_rows(&mut state);
            mix_columns(&mut state);
            self.add_round_key(&mut state, round);
        }
        store(&state)
    }

    fn second_half(&self, middletext: u128) -> u128 {
        let mut state = load(middletext);
        for round in self.half() + 1..=self.rounds() {
            self.substitute(&mut state);
            shift_rows(&mut state);
            if round < self.rounds() {
                mix_columns(&mut state);
            }
            self.add_round_key(&mut state, round);
        }
        store(&state)
    }

    fn first_half_back(&self, middletext: u128) -> u128 {
        let mut state = load(middletext);
        for round in (1..=self.half()).rev() {
            self.add_round_key(&mut state, round);
            mix_columns_back(&mut state);
            shift_rows_back(&mut state);
            self.substitute_back(&mut state);
        }
        self.add_round_key(&mut state, 0);
        store(&state)
    }

    fn second_half_back(&self, block: u128) -> u128 {
        let mut state = load(block);
        for round in (self.half() + 1..=self.rounds()).rev() {
            self.add_round_key(&mut state, round);
            if round < self.rounds() {
                mix_columns_back(&mut state);
            }
            shift_rows_back(&mut state);
            self.substitute_back(&mut state);
        }
        store(&state)
    }

    fn round_key(&self, round: usize) -> u128 {
        store(&self.round_keys[round])
    }
}

impl Fips197 {
    fn rounds(&self) -> usize {
        self.round_keys.len() - 1
    }

    fn half(&self) -> usize {
        self.rounds() / 2
    }

    fn add_round_key(&self, state: &mut State, round: usize) {
        for (row, key_row) in state.iter_mut().zip(&self.round_keys[round]) {
            for (byte, key_byte) in row.iter_mut().zip(key_row) {
                *byte ^= key_byte;
            }
        }
    }

    fn substitute(&self, state: &mut State) {
        for byte in state.as_flattened_mut() {
            *byte = self.boxes.forward[usize::from(*byte)];
        }
    }

    fn substitute_back(&self, state: &mut State) {
        for byte in state.as_flattened_mut() {
            *byte = self.boxes.backward[usize::from(*byte)];
        }
    }
}

fn load(block: u128) -> State {
    let bytes = block.to_be_bytes();
    std::array::from_fn(|row| std::array::from_fn(|column| bytes[4 * column + row]))
}

fn store(state: &State) -> u128 {
    u128::from_be_bytes(std::array::from_fn(|at| state[at % 4][at / 4]))
}

fn shift_rows(state: &mut State) {
    for (row, bytes) in state.iter_mut().enumerate() {
        bytes.rotate_left(row);
    }
}

fn shift_rows_back(state: &mut State) {
    for (row, bytes) in state.iter_mut().enumerate() {
        bytes.rotate_right(row);
    }
}

/// Multiplies by the polynomial x in the field of 256 elements.
fn double(byte: u8) -> u8 {
    (byte << 1) ^ if byte & 0x80 != 0 { 0x1B } else { 0 }
}

/// A product in the field of 256 elements.
fn product(left: u8, right: u8) -> u8 {
    let (mut sum, mut power) = (0, left);
    for bit in 0..8 {
        if right >> bit & 1 == 1 {
            sum ^= power;
        }
        power = double(power);
    }
    sum
}

fn mix_columns(state: &mut State) {
    let old = *state;
    for column in 0..4 {
        let byte = |row: usize| old[row % 4][column];
        for (row, bytes) in state.iter_mut().enumerate() {
            let (b0, b1, b2, b3) = (byte(row), byte(row + 1), byte(row + 2), byte(row + 3));
            bytes[column] = double(b0) ^ double(b1) ^ b1 ^ b2 ^ b3;
        }
    }
}

/// The coefficients 14, 11, 13 and 9, put together from doublings: 14 = 8 + 4 + 2, and so on.
fn mix_columns_back(state: &mut State) {
    let once = *state;
    let twice = once.map(|row| row.map(double));
    let four = twice.map(|row| row.map(double));
    let eight = four.map(|row| row.map(double));
    for column in 0..4 {
        for (row, bytes) in state.iter_mut().enumerate() {
            let (r0, r1, r2, r3) = (row, (row + 1) % 4, (row + 2) % 4, (row + 3) % 4);
            let by_14 = eight[r0][column] ^ four[r0][column] ^ twice[r0][column];
            let by_11 = eight[r1][column] ^ twice[r1][column] ^ once[r1][column];
            let by_13 = eight[r2][column] ^ four[r2][column] ^ once[r2][column];
            let by_9 = eight[r3][column] ^ once[r3][column];
            bytes[column] = by_14 ^ by_11 ^ by_13 ^ by_9;
        }
    }
}

/// Section 5.1.1: the inverse in the field, then the affine step.
fn boxes() -> &'static Boxes {
    static BOXES: OnceLock<Boxes> = OnceLock::new();
    BOXES.get_or_init(|| {
        let mut boxes = Boxes { forward: [0; 256], backward: [0; 256] };
        for byte in 0..=255 {
            let inverse = (0..=255).find(|&other| product(byte, other) == 1).unwrap_or(0);
            let turned = (1..5).fold(inverse, |sum, turn| sum ^ inverse.rotate_left(turn));
            boxes.forward[usize::from(byte)] = turned ^ 0x63;
            boxes.backward[usize::from(turned ^ 0x63)] = byte;
        }
        boxes
    })
}

/// Section 5.2: the key has `nk` words of four bytes; a round key is four words of the schedule, one to a column.
fn expand(boxes: &Boxes, key: &[u8]) -> Vec<State> {
    let mut words: Vec<[u8; 4]> = key.chunks(4).map(|word| word.try_into().expect("4 bytes")).collect();
    let nk = words.len();
    let substituted = |word: [u8; 4]| word.map(|byte| boxes.forward[usize::from(byte)]);
    let mut round_constant = 1;
    for at in nk..4 * (nk + 7) {
        let mut word = words[at - 1];
        if at % nk == 0 {
            word.rotate_left(1);
            word = substituted(word);
            word[0] ^= round_constant;
            round_constant = double(round_constant);
        } else if nk > 6 && at % nk == 4 {
            word = substituted(word);
        }
        words.push(std::array::from_fn(|byte| words[at - nk][byte] ^ word[byte]));
    }
    let state = |columns: &[[u8; 4]]| std::array::from_fn(|row| std::array::from_fn(|column| columns[column][row]));
    words.chunks(4).map(state).collect()
}

//! The published vectors: of FIPS 197 and FIPS 180-4, of the mode's paper with both finishes, and the examples of document 01. The
//! records of vectors/make-mode-vectors.

use std::fs;
use std::path::Path;

use balzenoh::{check_run, close, close_with, hex, join_list, jump, open, open_with, seal_run, seal_with, test_with};
use balzenoh::{AnyTag, Iv, Key, Kind, Refusal};

use crate::support::aesni::{self, AesNi};
use crate::support::cipher::Cipher;
use crate::support::finish::{Finish, FINISHES};
use crate::support::fips197::Fips197;
use crate::support::mode::{divided_by_x, divided_by_x_power, padded, times_x, Mode};
use crate::support::sha1::sha1;

const KEY: &str = "000102030405060708090A0B0C0D0E0F";
const LONG_KEY: &str = "000102030405060708090A0B0C0D0E0F101112131415161718191A1B1C1D1E1F";
const IV: &str = "0123456789ABCDEF0123456789ABCDEF";
const M1: &str = "00112233445566778899AABBCCDDEEFF";

fn bytes(digits: &str) -> Vec<u8> {
    hex::decode(digits).expect("digits")
}

fn block(digits: &str) -> [u8; 16] {
    bytes(digits).try_into().expect("16 bytes")
}

fn digits(number: u128) -> String {
    format!("{number:032X}")
}

/// Appendix B and C.1, and C.3 for AES-256: key, plaintext, ciphertext.
const EXAMPLES: [[&str; 3]; 3] = [
    [A1_KEY, "3243F6A8885A308D313198A2E0370734", "3925841D02DC09FBDC118597196A0B32"],
    [KEY, M1, "69C4E0D86A7B0430D8CDB78070B4C55A"],
    [LONG_KEY, M1, "8EA2B7CA516745BFEAFC49904B496089"],
];

/// Where round 6 starts in C.1, and round 8 in C.3: key, plaintext, state.
const MIDDLETEXTS: [[&str; 3]; 2] =
    [[KEY, M1, "C81677BC9B7AC93B25027992B0261996"], [LONG_KEY, M1, "D653A4696CA0BC0F5ACAAB5DB96C5E7D"]];

/// Appendix A.1, and A.3 for AES-256: key, the number of a round key, and that round key.
const SCHEDULES: [(&str, usize, &str); 5] = [
    (A1_KEY, 1, "A0FAFE1788542CB123A339392A6C7605"),
    (A1_KEY, 10, "D014F9A8C9EE2589E13F0CC8B6630CA6"),
    (A3_KEY, 2, "9BA354118E6925AFA51A8B5F2067FCDE"),
    (A3_KEY, 3, "A8B09C1A93D194CDBE49846EB75D5B9A"),
    (A3_KEY, 14, "FE4890D1E6188D0B046DF344706C631E"),
];

const A1_KEY: &str = "2B7E151628AED2A6ABF7158809CF4F3C";
const A3_KEY: &str = "603DEB1015CA71BE2B73AEF0857D77811F352C073B6108D72D9810A30914DFF4";

fn fips197_examples<C: Cipher>() {
    for [key, plain, encrypted] in EXAMPLES {
        let (cipher, plain) = (C::new(&bytes(key)), u128::from_be_bytes(block(plain)));
        assert_eq!(digits(cipher.encrypt(plain)), encrypted);
        assert_eq!(cipher.decrypt(cipher.encrypt(plain)), plain);
    }
    for [key, plain, middletext] in MIDDLETEXTS {
        let (cipher, plain) = (C::new(&bytes(key)), u128::from_be_bytes(block(plain)));
        assert_eq!(digits(cipher.first_half(plain)), middletext);
        assert_eq!(digits(cipher.second_half_back(cipher.encrypt(plain))), middletext);
    }
    for (key, round, expected) in SCHEDULES {
        assert_eq!(digits(C::new(&bytes(key)).round_key(round)), expected, "{key}, round key {round}");
    }
}

/// Both tests of the paper, the second with all of its 1,000,000 blocks: each ciphertext block is the next block.
fn paper_vectors<C: Cipher>() {
    let mode = Mode::<C>::new(&block(KEY), &block(IV));
    let (mut mask, mut preauthenticator, mut text) = (mode.start_mask, 0, u128::from_be_bytes(block(M1)));
    for number in 1..=1_000_000 {
        let step = mode.forward(text, mask);
        assert_eq!(mode.backward(step.other, mask).other, text);
        preauthenticator = times_x(preauthenticator) ^ step.middletext;
        let seen = || [mask, step.middletext, preauthenticator, step.other].map(digits);
        let tags = || FINISHES.map(|finish| hex::encode(&mode.tag_after(finish, preauthenticator, times_x(mask))));
        match number {
            1 => assert_eq!((seen(), tags()), (BLOCK_1.map(String::from), TAGS_1.map(String::from))),
            2 => assert_eq!(seen(), BLOCK_2),
            1_000_000 => assert_eq!((seen(), tags()), (BLOCK_1_000_000.map(String::from), TAGS_1_000_000.map(String::from))),
            _ => {}
        }
        (mask, text) = (times_x(mask), step.other);
    }
}

/// AUTH-AES and AUTH-SHA-1 of lists of one block and of 1,000,000.
const TAGS_1: [&str; 2] = ["CBBD199D075F7220957FD8205A233B9F", "ECFA375F615DB07834F50C7B9C3B08A9C9D3F12F"];
const TAGS_1_000_000: [&str; 2] = ["9D6478D55514E83763C369067E8B82D0", "29520E37A0D635C41694F30AA9C09FE5AF525D2B"];

/// Mask, middletext, pre-authenticator and ciphertext block.
const BLOCK_1: [&str; 4] = [
    "FDED29920913A3DA8C9ECA2F0FD434AA",
    "C31FDB743AA199CB78AA156AED162EB9",
    "C31FDB743AA199CB78AA156AED162EB9",
    "030F28E63B8A9C570D7FEF31940226F4",
];
const BLOCK_2: [&str; 4] = [
    "FBDA5324122747B5193D945E1FA869D3",
    "E005EF3D83A7F60BD8486A7B15CC93DD",
    "663A59D5F6E4C59D291C40AECFE0CE28",
    "8C501ED50FBBECE46655493BF9AD5229",
];
const BLOCK_1_000_000: [&str; 4] = [
    "8F3461728ECD3A7B3D3CC89808967071",
    "0DF19348FE1FD9EFEC91D9843B13566A",
    "D72D708155DB739339471E4D1EAB6D85",
    "F347A18A64E419D33759AD819D5CD8B4",
];

/// The mask after the last block.
const MASK_1_000_001: &str = "1E68C2E51D9A74F67A799130112CE065";

/// FIPS 180-4's examples of one block and of two, and the empty text.
const DIGESTS: [(&[u8], &str); 3] = [
    (b"", "DA39A3EE5E6B4B0D3255BFEF95601890AFD80709"),
    (b"abc", "A9993E364706816ABA3E25717850C26C9CD0D89D"),
    (b"abcdbcdecdefdefgefghfghighijhijkijkljklmklmnlmnomnopnopq", "84983E441C3BD26EBAAE4AA1F95129E5E54670F1"),
];

#[test]
fn reference_and_library_meet_the_examples_of_sha1() {
    for (text, digest) in DIGESTS {
        assert_eq!(hex::encode(&sha1(text)), digest);
        assert_eq!(balzenoh::sha1(text).map(|bytes| hex::encode(&bytes)).as_deref(), Ok(digest));
    }
}

#[test]
fn the_reference_meets_the_published_vectors() {
    fips197_examples::<Fips197>();
    paper_vectors::<Fips197>();
}

#[test]
fn the_processor_meets_the_published_vectors() {
    if !aesni::available() {
        println!("no AES instructions here: skipped");
        return;
    }
    fips197_examples::<AesNi>();
    paper_vectors::<AesNi>();
}

/// The paper's blocks have no padding: they go through middle runs and closing.
#[test]
fn the_library_meets_the_papers_vectors() {
    let (key, iv) = (Key::from(block(KEY)), Iv::from(block(IV)));
    let (c1, record) = seal_run(&key, &iv, 0, Kind::Middle, &block(M1)).expect("one block");
    assert_eq!(hex::encode(&record.preauthenticator), BLOCK_1[2]);
    assert_eq!(hex::encode(&c1), BLOCK_1[3]);
    let tag = close(&key, &iv, &record).expect("a whole record");
    assert_eq!(hex::encode(tag.as_bytes()), TAGS_1[0]);
    // The second block is the first one's ciphertext.
    let (c2, right) = seal_run(&key, &iv, 1, Kind::Middle, &c1).expect("one block");
    assert_eq!(hex::encode(&right.preauthenticator), BLOCK_2[1]);
    assert_eq!(hex::encode(&c2), BLOCK_2[3]);
    let joined = record.join(&right).expect("neighbours");
    assert_eq!(hex::encode(&joined.preauthenticator), BLOCK_2[2]);
    // Row 7's example: the published block ends in FF.
    let sealed = [&iv.as_bytes()[..], &c1, tag.as_bytes()].concat();
    assert_eq!(open(&key, &sealed), Err(Refusal::Padding));
}

/// The second vector: each ciphertext block is the next block, so that the runs of one block come in turn. Then all blocks as one
/// run, and in runs of at most 2,048 blocks, sealed and checked: the same last values.
#[test]
fn the_library_meets_the_papers_million_blocks() {
    let (key, iv) = (Key::from(block(KEY)), Iv::from(block(IV)));
    let mut text = block(M1).to_vec();
    for first in 0..1_000_000 {
        let (next, record) = seal_run(&key, &iv, first, Kind::Middle, &text[16 * first as usize..]).expect("one block");
        if first == 999_999 {
            assert_eq!(hex::encode(&record.preauthenticator), BLOCK_1_000_000[1]);
        }
        text.extend(next);
    }
    assert_eq!(hex::encode(&text[16_000_000..]), BLOCK_1_000_000[3]);
    let (plain, sealed) = (&text[..16_000_000], &text[16..]);
    let whole = seal_run(&key, &iv, 0, Kind::Middle, plain).expect("within the limit");
    assert!(whole.0 == sealed);
    let sealed_run = |(first, bytes): (u32, &[u8])| seal_run(&key, &iv, first, Kind::Middle, bytes).expect("a run").1;
    let checked_run = |(first, bytes): (u32, &[u8])| check_run(&key, &iv, first, bytes).expect("a run");
    let in_runs = |text| (0..).step_by(2_048).zip(<[u8]>::chunks(text, 16 * 2_048));
    let records = [in_runs(plain).map(sealed_run).collect::<Vec<_>>(), in_runs(sealed).map(checked_run).collect()];
    for record in records.map(|records| join_list(&records).expect("neighbours")) {
        assert_eq!(record, whole.1);
        assert_eq!((record.count, &hex::encode(&record.preauthenticator)[..]), (1_000_000, BLOCK_1_000_000[2]));
        let tags = FINISHES.map(|finish| close_with(finish, &key, &iv, &record).expect("a whole record"));
        assert_eq!(tags.map(|tag| hex::encode(tag.as_bytes())), TAGS_1_000_000);
    }
}

/// The same block by each finish: only the tag differs.
#[test]
fn the_library_meets_the_papers_tags() {
    let (key, iv) = (Key::from(block(KEY)), Iv::from(block(IV)));
    let (c1, record) = seal_run(&key, &iv, 0, Kind::Middle, &block(M1)).expect("one block");
    for (finish, expected) in FINISHES.into_iter().zip(TAGS_1) {
        let tag = close_with(finish, &key, &iv, &record).expect("a whole record");
        assert_eq!(hex::encode(tag.as_bytes()), expected);
        assert_eq!(test_with(finish, &key, &iv, &record, &expected.parse::<AnyTag>().expect("a tag")), Ok(()));
        let sealed = [&iv.as_bytes()[..], &c1, tag.as_bytes()].concat();
        assert_eq!(open_with(finish, &key, &sealed), Err(Refusal::Padding));
    }
}

/// With each finish, under keys of 16 and of 32 bytes.
#[test]
fn the_program_in_python_seals_the_same_records() {
    let files = [
        ("cases/data/sealed.txt", Finish::Cipher, [128, 0]),
        ("cases/data/sealed256.txt", Finish::Cipher, [0, 128]),
        ("hash_cases/data/sealed.txt", Finish::Sha1, [32, 32]),
    ];
    for (name, finish, expected) in files {
        let path = Path::new(env!("CARGO_MANIFEST_DIR")).join("../crates").join(name);
        let lines = fs::read_to_string(path).expect("sealed records");
        let lengths: Vec<_> = lines.lines().map(|line| same_record(finish, line)).collect();
        assert_eq!([16, 32].map(|length| lengths.iter().filter(|&&other| other == length).count()), expected, "{name}");
    }
}

/// Seals what a line has: key, IV, message and sealed record. Gives the key's length.
fn same_record(finish: Finish, line: &str) -> usize {
    let fields: Vec<_> = line.split(' ').map(bytes).collect();
    let [key, iv, message, record] = &fields[..] else { panic!("{line}") };
    let iv = iv[..].try_into().expect("16 bytes");
    assert_eq!(&Mode::<Fips197>::new(key, &iv).seal_blocks(finish, &iv, &padded(message)), record);
    let typed = Key::from_slice(key).expect("a key");
    assert_eq!(seal_with(finish, &typed, &Iv::from(iv), message).as_ref(), Ok(record));
    key.len()
}

/// Cards (a) to (d), and ticket P1's example.
#[test]
fn the_library_meets_the_cards_for_jumps() {
    let one = 1_u128.to_be_bytes();
    assert_eq!(jump(&one, 0), Ok(one));
    assert_eq!(jump(&one, 127), Ok((1_u128 << 127).to_be_bytes()));
    assert_eq!(jump(&one, 128), Ok(0x87_u128.to_be_bytes()));
    assert_eq!(jump(&block(BLOCK_1[0]), 1), Ok(block(BLOCK_2[0])));
    assert_eq!(jump(&one, -1), Ok(block("80000000000000000000000000000043")));
}

/// From each published mask back to the one before it, and from the mask of the last block back to the start mask.
#[test]
fn the_papers_masks_lead_back_to_the_start_mask() {
    assert_eq!(jump(&block(BLOCK_2[0]), -1), Ok(block(BLOCK_1[0])));
    assert_eq!(jump(&block(MASK_1_000_001), -1), Ok(block(BLOCK_1_000_000[0])));
    assert_eq!(jump(&block(BLOCK_1_000_000[0]), -999_999), Ok(block(BLOCK_1[0])));
    assert_eq!(jump(&block(BLOCK_1[0]), 1_000_000), Ok(block(MASK_1_000_001)));
}

/// The references' divisions on the same masks, and on ticket P1's example.
#[test]
fn the_reference_divides_the_papers_masks() {
    let number = |digits| u128::from_be_bytes(block(digits));
    assert_eq!(digits(divided_by_x(1)), "80000000000000000000000000000043");
    assert_eq!(digits(divided_by_x(number(MASK_1_000_001))), BLOCK_1_000_000[0]);
    assert_eq!(digits(divided_by_x_power(number(BLOCK_1_000_000[0]), 999_999)), BLOCK_1[0]);
}

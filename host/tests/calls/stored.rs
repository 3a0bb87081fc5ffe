//! Stored lists keep their bytes. The digests are those of records that the library made when the limit was 4,000 blocks: of the
//! commit before ticket P7, to which this test can be held too (`BALZENOH_LIB_DIR=$(./earlier f3bbf1e) cargo test stored`).

use balzenoh::{hex, open_with, seal_with, Finish, Iv, Key};

use crate::support::finish::FINISHES;
use crate::support::pairs::KEY_LENGTHS;
use crate::support::random::Random;
use crate::support::sha1::sha1;

/// Bytes of the message, and SHA-1 of the sealed record: by each finish under a key of 16 bytes, then under one of 32.
const STORED: [(usize, [&str; 4]); 7] = [
    (
        0,
        [
            "5D5C6741F62A38155841A7990F28F1AB8B0745BF",
            "AD5BE1D8DFDB16244E530D1DE93FA4B5312C4460",
            "DFC70C8D4CDAEB7FEC3027C950473A91CFAB5515",
            "4F05E67BF4BC8F3E2C74A16646EB0D8E53921A39",
        ],
    ),
    (
        15,
        [
            "DA836BE000DB1C8D70C5A535D740DF2957346B9D",
            "C7E1262B51C65E7298411BAC827C932A4F686E02",
            "226B2266199AFFAFB1588161CDA234B600924B8D",
            "F704F3F3E1556FB65874F4904FB5D671EF1A8D27",
        ],
    ),
    (
        16,
        [
            "5C6A815BFC351A396DEA7B9C8842B9948F6D4224",
            "14EB0F2C8CDB939BFB856F2F68F32BEEB4B0E23D",
            "63C0538E2D9D58ECF33BA8DF6195BA7D46954F11",
            "F69363B60B8A933C1B4695E9CF1F38A60369DADD",
        ],
    ),
    (
        1_000,
        [
            "719207BCDB4B9666CE6399345D5E03D36D8C5CF7",
            "934F043D720BF0B6DDA8AF662293364DF8535E45",
            "0C5ABF914FABB2FD1B542F0E35842B0A24E87AD5",
            "B84C729F5A0DFA9DC2DC627D4F14899770E6DBFB",
        ],
    ),
    (
        63_983,
        [
            "CAEA9BE1FE5B4028DCD08FCEEC3E1BE1258EF876",
            "5C9A97D580352101C26DFD9FD9551AD7676D498A",
            "BFC87CC78E3C08261A397AB5CF22270B4754AA71",
            "2212BC7064AA70FDDB4AAA20547375B39CC717F1",
        ],
    ),
    (
        63_984,
        [
            "20CCA836F9166D0D3F27DD528BC67B4874EB1992",
            "4DF10D68C79C26BA645D0A706AACB22794677739",
            "4603E3D765EFCFD030322F435E8D1D75D3EB7596",
            "960D72CD9B71B367FBD3AE38BA73FB3A979BE08B",
        ],
    ),
    (
        63_999,
        [
            "E2E7E58B8F9D9668343903C6BACFA1CAB4BC2C45",
            "E7D171AAEEA05E9136FE9C1FE2BF19C77E633C80",
            "21594E3EEDDC827BC2236FFB2CDF2E97B67B25E1",
            "D9B64B3780CFB6279CC684F10F5D81D2C9FA96E0",
        ],
    ),
];

#[test]
fn stored_lists_keep_their_bytes_and_open() {
    let ways: Vec<_> = KEY_LENGTHS.into_iter().flat_map(|key| FINISHES.map(|finish| (key, finish))).collect();
    let mut random = Random::new(81);
    for (length, digests) in STORED {
        let message = random.bytes(length);
        let iv = Iv::from(random.block());
        let given: Vec<_> = ways.iter().map(|&(key, finish)| digest_of_sealed(&mut random, key, finish, &iv, &message)).collect();
        assert_eq!(given, digests, "{length} bytes");
    }
}

/// Seals and opens under a key of this length.
fn digest_of_sealed(random: &mut Random, key_length: usize, finish: Finish, iv: &Iv, message: &[u8]) -> String {
    let key = Key::from_slice(&random.bytes(key_length)).expect("a key");
    let sealed = seal_with(finish, &key, iv, message).expect("within the limit");
    assert!(open_with(finish, &key, &sealed).as_deref() == Ok(message));
    hex::encode(&sha1(&sealed))
}

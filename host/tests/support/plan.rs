//! The topics of the tests, and how many calls of the library each makes at least.

#[derive(Clone, Copy)]
pub struct Topic {
    pub name: &'static str,
    pub seed: u64,
    pub calls: u64,
}

const fn topic(name: &'static str, seed: u64, calls: u64) -> Topic {
    Topic { name, seed, calls }
}

pub const SEALING: Topic = topic("sealing, every length and room", 1, 51_000);
pub const SEALING_EDGES: Topic = topic("sealing at the edges", 2, 16_300);
pub const OPENING: Topic = topic("opening, every length and room", 3, 51_000);
pub const OPENING_EDGES: Topic = topic("opening at the edges", 4, 4_400);
pub const OPENING_ENDS: Topic = topic("opening, ends of lists", 5, 60_000);
pub const RUNS_SEALED: Topic = topic("sealing runs", 6, 51_000);
pub const RUNS_CHECKED: Topic = topic("checking runs", 7, 25_000);
pub const RUN_EDGES: Topic = topic("runs at the edges", 8, 26_000);
pub const JOINS: Topic = topic("joining records", 9, 250_000);
pub const CLOSINGS: Topic = topic("closing and testing records", 10, 200_000);
pub const JUMPS: Topic = topic("jumping masks", 11, 210_000);
pub const CUTS_SEALED: Topic = topic("cuts over messages", 12, 330_000);
pub const CUTS_CHECKED: Topic = topic("cuts over sealed records", 13, 310_000);
pub const DAMAGE: Topic = topic("damaged records", 14, 60_000);
pub const REPLACED_MASKS: Topic = topic("start masks replaced by the key", 15, 20_000);
pub const EQUAL_COUNTS: Topic = topic("joining runs of equal counts", 16, 190_000);
pub const CHANGING_COUNTS: Topic = topic("joining runs of changing counts", 17, 180_000);
pub const EVERY_COUNT: Topic = topic("joining by every count", 18, 70_000);
pub const REFUSED_LISTS: Topic = topic("lists refused within", 19, 20_000);
pub const NO_MASK: Topic = topic("mask of nothing, every call", 20, 24_000);
pub const NO_MASK_ROWS: Topic = topic("mask of nothing, rows above and below", 21, 120_000);
pub const NO_MASK_EMPTY: Topic = topic("mask of nothing, empty runs", 22, 24_000);
pub const NEAR_NO_MASK: Topic = topic("next to a mask of nothing", 23, 14_000);
pub const WORDS_JUMPED: Topic = topic("jumping in 64-bit words", 24, 50_000);
pub const WORDS_JOINED: Topic = topic("joining in 64-bit words", 25, 100_000);
pub const WORDS_SEALED: Topic = topic("runs and tags in 64-bit words", 26, 15_000);
pub const GROUPS: Topic = topic("every number of blocks", 27, 7_200);
pub const GROUPS_DAMAGED: Topic = topic("every block damaged", 28, 13_000);
pub const LAST_BYTES: Topic = topic("the last bytes of long keys", 29, 5_000);
pub const WRONG_KEYS: Topic = topic("keys of wrong lengths", 30, 47_000);
pub const EXTENDED_KEYS: Topic = topic("keys with another before them", 31, 10_000);
pub const DIGESTS: Topic = topic("SHA-1, every length and room", 32, 25_000);
pub const OTHER_FINISH: Topic = topic("what the other finish made", 33, 3_600);
pub const TAG_BITS: Topic = topic("every bit of a tag", 34, 5_700);
pub const OPENING_EVERY_ROOM: Topic = topic("opening into every room", 35, 56_000);
pub const OPENING_ROOMS: Topic = topic("opening, a short output told last", 36, 21_400);
pub const OPENING_TAGS: Topic = topic("opening, every bit of a tag", 37, 18_400);
pub const LONGEST: Topic = topic("the longest lists", 38, 130);
pub const LIMITS: Topic = topic("numbers about the limit", 39, 300);
pub const CHANGES: Topic = topic("one block changed", 40, 24_000);
pub const LONGEST_CHANGES: Topic = topic("one block of the longest list changed", 41, 8);

/// How many cuts each of their two topics has.
pub const CUTS: usize = 12_000;

const ALL: [Topic; 41] = [
    SEALING,
    SEALING_EDGES,
    OPENING,
    OPENING_EDGES,
    OPENING_ENDS,
    RUNS_SEALED,
    RUNS_CHECKED,
    RUN_EDGES,
    JOINS,
    CLOSINGS,
    JUMPS,
    CUTS_SEALED,
    CUTS_CHECKED,
    DAMAGE,
    REPLACED_MASKS,
    EQUAL_COUNTS,
    CHANGING_COUNTS,
    EVERY_COUNT,
    REFUSED_LISTS,
    NO_MASK,
    NO_MASK_ROWS,
    NO_MASK_EMPTY,
    NEAR_NO_MASK,
    WORDS_JUMPED,
    WORDS_JOINED,
    WORDS_SEALED,
    GROUPS,
    GROUPS_DAMAGED,
    LAST_BYTES,
    WRONG_KEYS,
    EXTENDED_KEYS,
    DIGESTS,
    OTHER_FINISH,
    TAG_BITS,
    OPENING_EVERY_ROOM,
    OPENING_ROOMS,
    OPENING_TAGS,
    LONGEST,
    LIMITS,
    CHANGES,
    LONGEST_CHANGES,
];

/// Each topic's test sees that it made its number of calls.
#[test]
fn a_million_calls_are_planned() {
    let planned: u64 = ALL.iter().map(|topic| topic.calls).sum();
    println!("planned: {planned} calls of the library");
    assert!(planned >= 1_000_000);
}

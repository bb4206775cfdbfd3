//! Rule sets for hex addresses: numbers that no set has, in every call that is
//! told a set or given a reader; and what both sets read alike.

use second::boundary::{self, ReaderRecord, RULES_1, RULES_2};
use second::cases::{Buffer, Part};

use crate::boards;
use crate::files;
use crate::pair::Pair;
use crate::random::Random;
use crate::site::{Site, SITES};

pub const SETS: [u32; 2] = [RULES_1, RULES_2];

/// Rounds with every number that no set has.
const ROUNDS: u32 = 6;
/// How many files without 02 are read under both sets, on each board.
const ALIKE: u32 = 40;

/// Next to a set's number, alike in some of its bytes or bits, or a number of
/// something else.
const UNKNOWN: [u32; 20] = [
    0,
    3,
    4,
    5,
    124,
    248,
    254,
    255,
    RULES_1 + 0x100,
    RULES_2 + 0x100,
    RULES_1 + 0x1_0000,
    RULES_2 + 0x1_0000,
    RULES_1 + 0x100_0000,
    RULES_2 + 0x100_0000,
    RULES_1 << 24,
    RULES_2 << 24,
    RULES_1 + 0x8000_0000,
    RULES_2 + 0x8000_0000,
    u32::MAX - 1,
    u32::MAX,
];

/// A number that no rule set has.
pub fn unknown(random: &mut Random) -> u32 {
    let any = random.word();
    let listed = random.pick(&UNKNOWN);
    match boundary::rule_set(any) {
        Err(_) => random.pick(&[listed, listed, any]),
        Ok(_) => listed,
    }
}

/// The set's number, at times the other's or that of none.
pub fn told(random: &mut Random, rules: u32) -> u32 {
    match random.below(40) {
        0 => unknown(random),
        1 => random.pick(&SETS),
        _ => rules,
    }
}

pub fn compare(pair: &mut Pair) {
    let mut random = Random::new(11);
    for buffer in [Buffer::Image, Buffer::Map] {
        pair.fill_buffer(buffer, 0x5A);
    }
    for site in SITES {
        for _ in 0..ROUNDS {
            for none in UNKNOWN {
                opened(pair, &mut random, site, none);
                read(pair, &mut random, site, none);
            }
        }
        for _ in 0..ALIKE {
            alike(pair, &mut random, site);
        }
    }
}

/// At opening 34 comes after 65 and 20.
fn opened(pair: &mut Pair, random: &mut Random, site: Site, none: u32) {
    let before = pair.open_file(site, random.pick(&SETS));
    let (image, map) = wrong_file(random, site);
    let board = boards::unknown(random);
    let given = [
        pair.hex(site.pages(), none, site.image, site.map),
        pair.hex(site.pages(), none, image, map),
        pair.hex(board, none, image, map),
        pair.hex(board, none, site.image, site.map),
    ];
    let expected = [34, 20, 65, 65].map(|number| (number, before));
    assert_eq!(given, expected, "opening under {none}");
}

/// At a record 34 comes after 65 and 20 and before all that a line can bring;
/// at closing after 65.
fn read(pair: &mut Pair, random: &mut Random, site: Site, none: u32) {
    let state = ReaderRecord {
        board: site.pages(),
        rules: none,
        ..files::made_up(random, site, none)
    };
    let nowhere = ReaderRecord {
        board: boards::unknown(random),
        ..state
    };
    let (image, map) = wrong_file(random, site);
    let text = files::text(random, site);
    let given = [
        pair.record(state, &text, site.image, site.map),
        pair.record(state, &text, image, map),
        pair.record(nowhere, &text, image, map),
    ];
    let expected = [(34, state), (20, state), (65, nowhere)];
    assert_eq!(given, expected, "a record under {none}");
    let given = [pair.close_file(state), pair.close_file(nowhere)];
    assert_eq!(given, [34, 65], "closing under {none}");
}

/// Image and map, one of a wrong size or both.
fn wrong_file(random: &mut Random, site: Site) -> (Part, Part) {
    let (image, map) = (site.wrong_image(random), site.wrong_map(random));
    random.pick(&[(image, site.map), (site.image, map), (image, map)])
}

/// Everything that reading a file gives: number, column and next reader of each
/// call, then image and map.
#[derive(PartialEq, Eq)]
struct Outcome {
    given: Vec<(u8, usize, ReaderRecord)>,
    closed: u8,
    image: Vec<u8>,
    map: Vec<u8>,
}

/// Lines without 02 give the same under both sets.
fn alike(pair: &mut Pair, random: &mut Random, site: Site) {
    let texts = (0..60).map(|_| files::text(random, site));
    let mut texts: Vec<Vec<u8>> = texts.filter(|text| text.get(7..9) != Some(b"02")).collect();
    if random.once_in(2) {
        texts.push(files::END.to_vec());
    }
    let [one, two] = SETS.map(|rules| outcome(pair, site, rules, &texts));
    assert!(one == two, "a file without 02");
}

fn outcome(pair: &mut Pair, site: Site, rules: u32, texts: &[Vec<u8>]) -> Outcome {
    let mut state = pair.open_file(site, rules);
    let mut given = Vec::new();
    for text in texts {
        let number;
        (number, state) = pair.record(state, text, site.image, site.map);
        assert_eq!(state.rules, rules, "a file keeps its set");
        given.push((number, pair.column(), ReaderRecord { rules: 0, ..state }));
    }
    Outcome {
        given,
        closed: pair.close_file(state),
        image: pair.look(site.image).to_vec(),
        map: pair.look(site.map).to_vec(),
    }
}

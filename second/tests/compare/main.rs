//! The product compared with the second program, call by call and byte by
//! byte, on random case lines that are the same in every run. The product's
//! programs must have been built. With `--nocapture` the counts are printed.

mod boards;
mod caselines;
mod damage;
mod examples;
mod files;
mod loaders;
mod logs;
mod made;
mod maps;
mod noise;
mod noisy;
mod packets;
mod pair;
mod places;
mod plains;
mod plans;
mod programs;
mod random;
mod receivers;
mod rehearsals;
mod root;
mod rules;
mod sessions;
mod site;
mod srec;
mod stations;
mod tables;
mod tally;
mod tools;
mod wire;
mod wraps;
mod writer;

use std::thread;

use second::boundary::{RULES_1, RULES_2};
use second::units::Board;

use pair::Pair;
use tally::{On, Tallies};

type Compare = fn(&mut Pair);

/// How often each number of each function must be seen, on each board.
const OFTEN: u64 = 100;
/// The same of each program, which is started anew for each input.
const OFTEN_IN_PROGRAMS: u64 = 5;
/// How often each listed column must be seen that is not the same in every line.
const OFTEN_IN_COLUMNS: u64 = 2;

const PARTS: [(&str, Compare); 15] = [
    ("packet", packets::compare),
    ("loader", loaders::compare),
    ("receiver", receivers::compare),
    ("hex, set 1", |pair| files::compare(pair, RULES_1)),
    ("hex, set 2", |pair| files::compare(pair, RULES_2)),
    ("rule sets", rules::compare),
    ("hex writer", writer::compare),
    ("session", sessions::compare),
    ("plain", plains::compare),
    ("log", logs::compare),
    ("rehearsal", rehearsals::compare),
    ("noisy line", noisy::compare),
    ("boards", boards::compare),
    ("stations", stations::compare),
    ("examples", examples::compare),
];

#[test]
fn library() {
    let parts: Vec<Tallies> = thread::scope(|scope| {
        let parts = PARTS.map(|(name, compare)| {
            let thread = thread::Builder::new().name(name.to_string());
            let part = thread.spawn_scoped(scope, move || compared(compare));
            part.expect("a thread")
        });
        parts.map(|part| part.join().expect("alike")).into()
    });
    let mut whole = Tallies::default();
    println!("part, board, calls compared, how often each number was seen");
    for ((name, _), tallies) in PARTS.iter().zip(&parts) {
        print(name, tallies);
        whole.add(tallies);
    }
    print("all", &whole);
    println!("all, on any board: {}", whole.compared());
    check(&mut whole);
}

fn print(part: &str, tallies: &Tallies) {
    for (on, tally) in tallies.each() {
        let (name, compared) = (on.name(), tally.compared);
        println!("{part:10} {name:9} {compared:7} {}", tally.line());
    }
}

fn check(whole: &mut Tallies) {
    whole.on(On::Nothing).check(&tally::ON_NOTHING, OFTEN);
    whole.on(On::Unknown).check(&tally::ON_UNKNOWN, OFTEN);
    for board in Board::ALL {
        let tally = whole.on(On::board(board));
        let name = On::board(board).name();
        println!("made log records, {name}:{}", tally.made_line());
        let expected = [&tally::ON_EACH, tally::wrapped(board)].concat();
        tally.check(&expected, OFTEN);
        tally.check_made(&logs::numbers(board), OFTEN);
        tally.check_columns(&tally::FIXED_COLUMNS, OFTEN);
        tally.check_columns(&tally::RECORD_COLUMNS, OFTEN_IN_COLUMNS);
    }
}

#[test]
fn plan() {
    let tally = programs::compare_plan();
    println!("plan: {} texts {}", tally.compared, tally.line());
    tally.check(&tally::PLAN, OFTEN_IN_PROGRAMS);
    tally.check_columns(&tally::FIXED_COLUMNS, OFTEN_IN_PROGRAMS);
    tally.check_columns(&tally::PLAN_COLUMNS, OFTEN_IN_COLUMNS);
}

#[test]
fn readlog() {
    let tally = programs::compare_readlog();
    println!("readlog: {} inputs {}", tally.compared, tally.line());
    tally.check(&tally::READLOG, OFTEN_IN_PROGRAMS);
}

#[test]
fn cases() {
    println!("stored cases: {} lines", caselines::compare_list());
    println!("random cases: {} lines", caselines::compare_random());
}

fn compared(compare: Compare) -> Tallies {
    let mut pair = Pair::open();
    compare(&mut pair);
    pair.close()
}

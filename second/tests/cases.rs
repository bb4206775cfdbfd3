//! Case lines, stored ones and some more, with what the paper says comes out.

use second::cases;

const LIST: &str = include_str!("../../tests/cases.txt");

fn answered(input: &[u8]) -> String {
    let mut output = Vec::new();
    cases::run(input, &mut output).expect("a vector takes all");
    String::from_utf8(output).expect("characters")
}

/// Asks the lines of what must be printed.
fn check(printed: &str) {
    let lines = printed.lines().map(cases::asked);
    let input: String = lines.map(|line| format!("{line}\n")).collect();
    let output = answered(input.as_bytes());
    for (given, expected) in output.lines().zip(printed.lines()) {
        assert_eq!(given, expected);
    }
    assert_eq!(output.lines().count(), printed.lines().count());
}

#[test]
fn every_line_gives_what_the_paper_says() {
    check(LIST);
}

#[test]
fn a_line_that_is_no_text_is_asked_back() {
    let mut output = Vec::new();
    cases::run(&b"\xFF\n"[..], &mut output).expect("a vector takes all");
    assert_eq!(output, b"\xFF -> ?\n");
}

#[test]
fn the_last_line_may_lack_its_end() {
    assert_eq!(answered(b""), "");
    assert_eq!(answered(b"\n"), " -> ?\n");
    assert_eq!(answered(b"turned 81"), "turned 81 -> 0 0C\n");
    assert_eq!(answered(b"# turned 81"), "# turned 81\n");
}

#[test]
fn refusals_of_the_hex_reader_show_their_column() {
    let printed = "lend map 7935 -> 0\n\
                   board 125 -> 0\n\
                   hex -> 65 0\n\
                   hex 3 -> 65 0\n\
                   board 124 -> 0\n\
                   hex -> 20 0\n\
                   hex 3 -> 20 0\n\
                   record :0000 -> 20 0\n\
                   lend map 7936 -> 0\n\
                   hex 3 -> 34 0\n\
                   reader 124 3 0 0 0 1 0 -> 0\n\
                   record :0000 -> 34 0\n\
                   close -> 34 0\n\
                   hex -> 0\n\
                   close -> 31 0\n\
                   record  -> 22 0\n\
                   record X -> 22 0\n\
                   line  -> 22 0\n\
                   record :0000 -> 23 5\n\
                   line 3A30303030 -> 23 5\n\
                   record :000000G1FF -> 24 7\n\
                   line 3A303030300A3030314646 -> 24 5\n\
                   record :01000000FF -> 25 11\n\
                   record :020000040108EA -> 26 13\n\
                   record :00000006FA -> 27 7\n\
                   record :0100000100FE -> 28 1\n\
                   record :00000101FE -> 28 3\n\
                   record :0100010100FD -> 28 1\n\
                   record :01F800000007 -> 29 0\n\
                   record :00000001FF -> 0\n\
                   line 3A30303030 -> 21 0\n\
                   close -> 32 0\n\
                   hex -> 0\n\
                   record :020000001234B8 -> 0\n\
                   record :010001000AF4 -> 30 0\n\
                   record :00000001FF -> 0\n\
                   close -> 0\n";
    check(printed);
}

#[test]
fn a_file_is_opened_under_set_1_unless_told() {
    let printed = "reader -> 0 124 1 0 0 0 0 0\n\
                   hex 2 -> 0\n\
                   reader -> 0 124 2 0 0 0 0 0\n\
                   hex 257 -> 34 0\n\
                   hex 4294967296 -> ?\n\
                   hex  -> ?\n\
                   hex 2 1 -> ?\n\
                   reader -> 0 124 2 0 0 0 0 0\n\
                   hex 1 -> 0\n\
                   reader -> 0 124 1 0 0 0 0 0\n\
                   hex 2 -> 0\n\
                   hex -> 0\n\
                   reader -> 0 124 1 0 0 0 0 0\n";
    check(printed);
}

#[test]
fn other_refusals_show_no_column() {
    let printed = "lend record 43 -> 0\n\
                   write 00000000 0000 -> 33\n\
                   lend map 7935 -> 0\n\
                   write 00000000 0000 -> 20\n\
                   start reset -> 20\n\
                   rehearse reset  -> 20\n\
                   board 125 -> 0\n\
                   take  -> 65\n\
                   write 00000000 0000 -> 65\n\
                   start reset -> 65\n\
                   rehearse reset  -> 65\n\
                   read  -> 1\n\
                   logread  -> 50\n";
    check(printed);
}

//! Hex files past 64 KiB, written for the comparison by the tools that are
//! installed.

use std::env;
use std::fs;
use std::path::{Path, PathBuf};
use std::process::{self, Command, Stdio};

use crate::examples;
use crate::maps;
use crate::pair::Pair;
use crate::random::Random;
use crate::rules::SETS;
use crate::site::{Site, SITES};
use crate::srec;

/// A tool, by the kind of bases that it writes.
#[derive(Clone, Copy)]
enum Tool {
    Objcopy,
    SrecCatLinear,
    SrecCatSegments,
}

const TOOLS: [Tool; 3] = [Tool::Objcopy, Tool::SrecCatLinear, Tool::SrecCatSegments];

/// Where files begin and how long they are: over the short board's end, over 64
/// KiB, from there on, and up to the last byte.
const FILES: [(u32, u32); 5] = [
    (0xF7E1, 64),
    (0xFE03, 1000),
    (0x1_0000, 96),
    (0x1_2345, 301),
    (0x1_EF00, 256),
];

impl Tool {
    fn name(self) -> &'static str {
        match self {
            Tool::Objcopy => "objcopy",
            Tool::SrecCatLinear | Tool::SrecCatSegments => "srec_cat",
        }
    }

    /// The type of its records that set a base.
    fn base(self) -> &'static str {
        match self {
            Tool::Objcopy | Tool::SrecCatSegments => "02",
            Tool::SrecCatLinear => "04",
        }
    }

    /// Writes the bytes of one file as hex, from an address on, to another.
    fn command(self, from: &Path, start: u32, to: &Path) -> Command {
        let start = format!("{start:#x}");
        let mut command = Command::new(self.name());
        match self {
            Tool::Objcopy => {
                command.args(["-I", "binary", "-O", "ihex", "--change-section-address"]);
                command.arg(format!(".data={start}")).args([from, to]);
            }
            Tool::SrecCatLinear | Tool::SrecCatSegments => {
                command.arg(from).args(["-binary", "-offset", &start]);
                command.arg("-o").arg(to).arg("-intel");
            }
        }
        if let Tool::SrecCatSegments = self {
            command.arg("-address-length=3");
        }
        command
    }

    /// The hex file of these bytes; none where the tool is not installed.
    fn written(self, place: &Path, start: u32, bytes: &[u8]) -> Option<Vec<u8>> {
        let (from, to) = (place.join("bytes"), place.join("text"));
        fs::write(&from, bytes).expect("a place for files");
        let mut command = self.command(&from, start, &to);
        let status = command.stdout(Stdio::null()).status().ok()?;
        assert!(status.success(), "{}: {status}", self.name());
        Some(fs::read(&to).expect("what the tool wrote"))
    }
}

/// Reads each tool's files on both boards and under both rule sets, and under
/// set 2 as `srec_cat` reads them back.
pub fn compare(pair: &mut Pair) {
    let place = place("tools");
    let mut random = Random::new(10);
    for tool in TOOLS {
        for (start, length) in FILES {
            let bytes = random.bytes(length);
            let Some(text) = tool.written(&place, start, &bytes) else {
                let (name, base) = (tool.name(), tool.base());
                println!("{name} is not installed: no file of its bases of type {base}");
                break;
            };
            srec::compare_text(pair, &place, tool.name(), &String::from_utf8_lossy(&text));
            for site in SITES {
                for rules in SETS {
                    read(pair, site, rules, tool, &text, (start, &bytes));
                }
            }
        }
    }
    fs::remove_dir_all(place).expect("files of our own");
}

/// A directory of this run.
pub fn place(name: &str) -> PathBuf {
    let place = env::temp_dir().join(format!("gremolunde-{name}-{}", process::id()));
    fs::create_dir_all(&place).expect("a place for files");
    place
}

/// Reads a file, which is 29 where it reaches past the board's end.
fn read(
    pair: &mut Pair,
    site: Site,
    rules: u32,
    tool: Tool,
    text: &[u8],
    (start, bytes): (u32, &[u8]),
) {
    let end = start + bytes.len() as u32;
    let what = format!("{} at {start:#x} under {rules}", tool.name());
    assert!(end <= 0x1_0000 || has_type(text, tool.base()), "{what}");
    let given = examples::read(pair, site, rules, text);
    if end > site.end() {
        let number = given.map_err(|(_, number)| number);
        assert_eq!(number, Err(29), "{what}");
        return;
    }
    assert_eq!(given, Ok(()), "{what}");
    let map = maps::of_runs(site.board, &[(start, bytes.len() as u32)]);
    assert!(pair.look(site.map) == map, "{what}: the map");
    let places = start as usize..end as usize;
    assert!(&pair.look(site.image)[places] == bytes, "{what}: the bytes");
}

/// Whether a file has a record of a type.
fn has_type(text: &[u8], kind: &str) -> bool {
    let mut lines = text.split(|byte| *byte == b'\n');
    lines.any(|line| line.get(7..9) == Some(kind.as_bytes()))
}

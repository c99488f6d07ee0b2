//! The folder `inputs`: the program's inputs (`NAME.in`) with the lines expected of it (`NAME.out`),
//! held against the other program; program.rs holds the program itself to them.

use std::fs;
use std::path::{Path, PathBuf};

use other::line::line;
use other::tree::with_big_stack;

/// Every input of the folder, with its name and the line expected.
fn inputs() -> Vec<(String, Vec<u8>, String)> {
    let folder = Path::new(env!("CARGO_MANIFEST_DIR")).join("../inputs");
    let mut paths: Vec<PathBuf> = fs::read_dir(folder)
        .expect("the folder of inputs")
        .map(|entry| entry.expect("an entry of it").path())
        .filter(|path| path.extension().is_some_and(|end| end == "in"))
        .collect();
    paths.sort();
    paths.into_iter().map(read).collect()
}

fn read(path: PathBuf) -> (String, Vec<u8>, String) {
    let name = path.file_stem().unwrap().to_string_lossy().into_owned();
    let expected = fs::read_to_string(path.with_extension("out")).expect("the line expected");
    (name, fs::read(&path).expect("the input"), expected)
}

#[test]
fn the_folder_has_every_example_and_every_refusal() {
    let lines: Vec<String> = inputs().into_iter().map(|input| input.2).collect();
    assert!(lines.len() >= 30);
    let begins = |word: &str| lines.iter().any(|line| line.starts_with(word));
    for word in ["finished ", "over ", "noroom ", "spent "] {
        assert!(begins(word), "{word}");
    }
    for number in [1, 2, 3, 4, 5, 15, 6, 16, 10] {
        assert!(begins(&format!("refused {number}\n")), "{number}");
    }
}

/// Of edition 2 (02, C-17; kind 9) one input finishes, one stops over below the largest value, and each
/// length from 8 to 11 bytes is refused as too short.
#[test]
fn the_folder_has_edition_2() {
    let second: Vec<(Vec<u8>, String)> = inputs()
        .into_iter()
        .filter(|(_, bytes, _)| bytes.get(2..4) == Some(&[9, 0]))
        .map(|(_, bytes, line)| (bytes, line))
        .collect();
    let has = |word: &str| second.iter().any(|(_, line)| line.starts_with(word));
    for word in ["finished ", "over ", "refused 15\n", "refused 16\n"] {
        assert!(has(word), "{word}");
    }
    let below = |line: &str| line.starts_with("over ") && !line.contains("4294967295");
    assert!(second.iter().any(|(_, line)| below(line)));
    for used in 8..12 {
        let short = |bytes: &[u8]| bytes.starts_with(&[used, 0, 9, 0]);
        let line = second
            .iter()
            .find(|(bytes, _)| short(bytes))
            .map(|found| &found.1[..]);
        assert_eq!(line, Some("refused 2\n"), "{used} bytes");
    }
}

#[test]
fn the_other_program_prints_the_lines_expected() {
    with_big_stack(|| {
        for (name, bytes, expected) in inputs() {
            assert_eq!(line(&bytes) + "\n", expected, "{name}");
        }
    });
}

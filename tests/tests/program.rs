//! The program itself (`../crates/lockstep/out/lockstep`, built by rt), run on its standard input and held
//! against the lines expected and against the other program.

use std::fs;
use std::io::Write;
use std::path::{Path, PathBuf};
use std::process::{Command, Stdio};
use std::thread;

use other::codec::Record;
use other::examples::{add, row_of_blocks};
use other::generate::lending::lent_store;
use other::generate::programs::program;
use other::line::line;
use other::random::cases;
use other::tree::{with_big_stack, Program};

fn root() -> PathBuf {
    Path::new(env!("CARGO_MANIFEST_DIR")).join("..")
}

/// What it prints. It is fed from another thread: it may print before it has read all.
fn printed(input: &[u8]) -> String {
    let mut child = Command::new(root().join("crates/lockstep/out/lockstep"))
        .stdin(Stdio::piped())
        .stdout(Stdio::piped())
        .spawn()
        .expect("the program: `../run` builds it");
    let mut feed = child.stdin.take().unwrap();
    let input = input.to_vec();
    let fed = thread::spawn(move || feed.write_all(&input).expect("all of the input is read"));
    let output = child.wait_with_output().unwrap();
    fed.join().unwrap();
    assert!(output.status.success());
    String::from_utf8(output.stdout).unwrap()
}

fn agrees(input: &[u8]) {
    assert_eq!(printed(input), line(input) + "\n", "{input:02X?}");
}

fn input(program: &Program, store: &[u32]) -> Vec<u8> {
    let mut bytes = program.encode();
    bytes.extend(store.iter().flat_map(|value| value.to_le_bytes()));
    bytes
}

#[test]
fn the_inputs_of_the_folder() {
    let mut count = 0;
    for entry in fs::read_dir(root().join("inputs")).unwrap() {
        let path = entry.unwrap().path();
        if path.extension().is_some_and(|end| end == "in") {
            let expected = fs::read_to_string(path.with_extension("out")).unwrap();
            assert_eq!(
                printed(&fs::read(&path).unwrap()),
                expected,
                "{}",
                path.display()
            );
            count += 1;
        }
    }
    assert!(count >= 30);
}

/// Empty, one byte, every length up to the whole input and a little more, a first length above
/// 16,384, and megabytes behind a sound input.
#[test]
fn bad_input() {
    let whole = input(&add(), &[7, 3, 0, 0]);
    for len in 0..whole.len() {
        agrees(&whole[..len]);
    }
    for extra in [1, 4, 49, 50, 64, 65, 66, 5_000, 1 << 22] {
        let mut longer = whole.clone();
        longer.resize(whole.len() + extra, 0);
        assert_eq!(printed(&longer), "refused 6\n", "{extra} bytes more");
    }
    for first in [0, 1, 2, 7, 8, 16_383, 16_384, 16_385, 65_535] {
        let mut bytes = whole.clone();
        bytes[..2].copy_from_slice(&u16::to_le_bytes(first));
        agrees(&bytes);
        bytes.resize(20_000, 0);
        agrees(&bytes);
    }
}

/// ADD in edition 2, at every length of the input; with every first length up to the block's own; with
/// every kind up to 50; and with every ceiling about its values: on 7, 3 it needs 10.
#[test]
fn a_program_under_a_ceiling() {
    let whole = input(&add().under(10), &[7, 3, 0, 0]);
    for len in 0..=whole.len() {
        agrees(&whole[..len]);
    }
    for first in 0..=20 {
        let mut bytes = whole.clone();
        bytes[0] = first;
        agrees(&bytes);
    }
    for kind in 0..=50 {
        let mut bytes = whole.clone();
        bytes[2] = kind;
        agrees(&bytes);
    }
    for ceiling in (0..14).chain([u32::MAX - 1, u32::MAX]) {
        agrees(&input(&add().under(ceiling), &[7, 3, 0, 0]));
        agrees(&input(
            &add().under(ceiling),
            &[ceiling, 3.min(ceiling), 0, 0],
        ));
    }
}

#[test]
fn a_term_that_just_fits() {
    with_big_stack(|| {
        for blocks in [119, 120, 4_093] {
            for values in [15, 16, 17] {
                agrees(&input(&row_of_blocks(16, blocks), &vec![3; values]));
            }
        }
    });
}

/// Programs of every shape, some with a bit changed, some with another store.
#[test]
fn generated_inputs() {
    cases(600, |random| {
        let limit = 12 + random.below(150);
        let program = program(random, limit);
        let mut values = lent_store(random, program.header);
        // Large values run long: that is the spent budget's part, which the folder has. But where the
        // ceiling is low, one above it is refused.
        if program.header.ceiling() > 12 {
            for value in &mut values {
                *value %= 12;
            }
        }
        let mut bytes = input(&program, &values);
        for _ in 0..random.below(3) {
            let place = random.below(bytes.len());
            bytes[place] ^= 1 << random.below(8);
        }
        if random.one_in(8) {
            bytes.truncate(random.below(bytes.len()));
        }
        agrees(&bytes);
    });
}

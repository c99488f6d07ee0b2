//! The names and numbers of `include/vistrokk.h`, held to 01's table of refusals ("Where an order
//! stops"), with 02's rows at their places, and to the outcomes, limits and answers that the other
//! program has; and the refusals of `docs/FORMAT.md`, held to the same.

use std::fs;
use std::path::Path;

use other::check::{Refusal, BATCH_LIMIT, BUFFER_LIMIT};
use other::run::counting::words::STATE_WORDS;
use other::run::Outcome;

fn header() -> String {
    read("../include/vistrokk.h")
}

fn read(name: &str) -> String {
    let path = Path::new(env!("CARGO_MANIFEST_DIR")).join(name);
    fs::read_to_string(path).expect("the file")
}

/// Every `NAME = NUMBER` of an enum of the header, without the prefix of the name.
fn enumerators(header: &str, name: &str) -> Vec<(String, u32)> {
    let start = format!("enum {name} {{");
    let from = header.find(&start).expect("the enum") + start.len();
    let body = header[from..].split('}').next().expect("its end");
    let without_comments: String = body
        .split("/*")
        .map(|part| part.split("*/").last().unwrap_or(part))
        .collect();
    let one = |entry: &str| {
        let (name, number) = entry.split_once('=')?;
        let name = name.trim().strip_prefix("VISTROKK_")?.to_string();
        Some((name, number.trim().parse().expect("a number")))
    };
    without_comments.split(',').filter_map(one).collect()
}

/// `FreeVariable` as the header writes it: `FREE_VARIABLE`.
fn in_capitals(name: impl std::fmt::Debug) -> String {
    let mut capitals = String::new();
    for letter in format!("{name:?}").chars() {
        if letter.is_uppercase() && !capitals.is_empty() {
            capitals.push('_');
        }
        capitals.push(letter.to_ascii_uppercase());
    }
    capitals
}

/// What the header lists for these refusals, in this order, behind what is accepted.
fn listed(refusals: &[Refusal]) -> Vec<(String, u32)> {
    let numbered = |refusal: &Refusal| (in_capitals(*refusal), refusal.number());
    let accepted = ("ACCEPTED".to_string(), 0);
    std::iter::once(accepted)
        .chain(refusals.iter().map(numbered))
        .collect()
}

/// In the table's order, which the header promises: 14 stands behind 1, 12, 15 and 17 behind 5, and 11, 13
/// and 16 behind 6. The forecast's two are looked at in the next test.
#[test]
fn the_refusals_have_their_numbers_in_the_order_of_the_table() {
    let mut found = enumerators(&header(), "vistrokk_refusal");
    found.retain(|(_, number)| ![18, 19].contains(number));
    let refusals = [
        Refusal::BadBuffer,
        Refusal::BadBatch,
        Refusal::BadHeader,
        Refusal::BadK,
        Refusal::Malformed,
        Refusal::BadVariable,
        Refusal::TooDeep,
        Refusal::LiteralAboveCeiling,
        Refusal::SmallCeiling,
        Refusal::BadStore,
        Refusal::BadRule,
        Refusal::BadState,
        Refusal::ValueAboveCeiling,
        Refusal::FreeVariable,
        Refusal::Unfinished,
        Refusal::NoProgram,
        Refusal::OutputTooShort,
    ];
    assert_eq!(found, listed(&refusals));
}

/// 02, C-19: 18 stands behind 16, with which the store is checked, and 19 is the last.
#[test]
fn the_refusals_of_a_forecast_stand_at_their_places() {
    let found = enumerators(&header(), "vistrokk_refusal");
    let place = |refusal: Refusal| {
        let wanted = (in_capitals(refusal), refusal.number());
        found.iter().position(|it| *it == wanted)
    };
    let behind_the_store = place(Refusal::ValueAboveCeiling).unwrap() + 1;
    assert_eq!(place(Refusal::BoundAssigned), Some(behind_the_store));
    assert_eq!(place(Refusal::FigureTooLarge), Some(found.len() - 1));
    assert_eq!(found.len(), 20);
}

/// The format's table, whose rows begin with number and name: the same, without what is accepted.
#[test]
fn the_format_lists_the_same_refusals() {
    let format = read("../docs/FORMAT.md");
    let (_, from) = format.split_once("\n## Refusals\n").expect("its part");
    let (table, _) = from.split_once("\n| call |").expect("its end");
    let row = |line: &str| {
        let mut cells = line.strip_prefix("| ")?.split(" | ");
        let number: u32 = cells.next()?.parse().ok()?;
        let name = cells.next()?.trim_matches('`').to_string();
        Some((name, number))
    };
    let listed: Vec<(String, u32)> = table.lines().filter_map(row).collect();
    assert_eq!(listed, enumerators(&header(), "vistrokk_refusal")[1..]);
}

#[test]
fn the_outcomes_have_their_numbers() {
    let outcomes = [
        Outcome::Refused,
        Outcome::Finished,
        Outcome::Over,
        Outcome::NoRoom,
        Outcome::Spent,
    ];
    let wanted = outcomes.map(|outcome| (in_capitals(outcome), outcome.number()));
    assert_eq!(enumerators(&header(), "vistrokk_outcome"), wanted);
}

/// 02, C-11: rule 1 rounds down, rule 2 to the nearest.
#[test]
fn the_rules_have_02s_numbers() {
    let wanted = [("ROUND_DOWN", 1), ("ROUND_NEAREST", 2)];
    let wanted = wanted.map(|(name, number)| (name.to_string(), number));
    assert_eq!(enumerators(&header(), "vistrokk_rule"), wanted);
}

/// What the calls answer, field by field: callers in another language declare it anew. 02, C-13 adds the
/// two counts, C-14 a run that writes no buffer, C-19 three figures of 64 bits.
#[test]
fn the_answers_have_their_fields() {
    let ran = "uint32_t number, outcome, steps, left, used;";
    let reduced = format!("{ran} uint64_t replaced;");
    let forecast = "uint32_t number; uint64_t steps, program_bytes, term_bytes;";
    let answers = [
        ("checked", "uint32_t number, k;"),
        ("written", "uint32_t number, used;"),
        ("substituted", "uint32_t number, used, replaced;"),
        ("ran", ran),
        ("reduced", &reduced),
        ("counted", "uint32_t number, outcome, steps, left;"),
        ("forecast", forecast),
    ];
    for (name, fields) in answers {
        let line = format!("\ntypedef struct {{ {fields} }} vistrokk_{name};\n");
        assert!(header().contains(&line), "{name}");
    }
    let calls = [
        ("checked", "check_program"),
        ("checked", "check_term"),
        ("written", "translate"),
        ("written", "read_back"),
        ("written", "program_to_edition_2"),
        ("written", "program_to_edition_1"),
        ("written", "term_to_edition_2"),
        ("written", "term_to_edition_1"),
        ("substituted", "substitute"),
        ("ran", "run_stepper"),
        ("reduced", "run_reducer"),
        ("forecast", "forecast_run"),
        ("counted", "run_counting"),
        ("written", "expand"),
        ("written", "run_batch"),
    ];
    for (answer, call) in calls {
        let start = format!("\nvistrokk_{answer} vistrokk_{call}(");
        assert!(header().contains(&start), "{call}");
    }
}

/// The lines of the header that declare a call.
fn call_lines(header: &str) -> impl Iterator<Item = &str> {
    header
        .lines()
        .filter(|line| line.starts_with("vistrokk_") || line.starts_with("uint32_t vistrokk_"))
}

/// The calls of the header are those that `calls` has, and no other: sixteen, without the forecast.
#[test]
fn there_are_sixteen_calls() {
    let header = header();
    let is_older = |line: &&str| !line.contains("vistrokk_forecast_run(");
    assert_eq!(call_lines(&header).filter(is_older).count(), 16);
}

/// With it (02, C-19) they are seventeen.
#[test]
fn there_are_seventeen_calls() {
    assert_eq!(call_lines(&header()).count(), 17);
}

/// 02, C-18: what a record is moved from and to. The source is not written.
#[test]
fn a_record_is_moved_from_one_buffer_to_another() {
    let lent = "const uint8_t *src, size_t src_len, size_t used, uint8_t *out, size_t out_len";
    for sort in ["program", "term"] {
        for edition in [1, 2] {
            let call =
                format!("\nvistrokk_written vistrokk_{sort}_to_edition_{edition}({lent});\n");
            assert!(header().contains(&call), "{call}");
        }
    }
}

/// 02, C-19: a forecast is lent a program and a store, and writes neither.
#[test]
fn a_forecast_writes_nothing() {
    let lent =
        "const uint8_t *buf, size_t buf_len, size_t used, const uint32_t *store, size_t store_len";
    let call = format!("\nvistrokk_forecast vistrokk_forecast_run({lent});\n");
    assert!(header().contains(&call));
}

/// 02, C-14: the state's length, which goes over in no call; a run writes it, the writing out does not.
#[test]
fn a_state_has_189_words() {
    let line = format!("\nenum {{ VISTROKK_STATE_WORDS = {STATE_WORDS} }};\n");
    assert!(header().contains(&line));
    assert_eq!(STATE_WORDS, 189);
    for (how, store) in [("", ""), ("const ", "const ")] {
        let state = format!("{how}uint32_t state[VISTROKK_STATE_WORDS], {store}uint32_t *store, ");
        assert_eq!(header().matches(&format!(" {state}")).count(), 1, "{state}");
    }
}

/// 02, C-16: what a batch is lent, in the order of the call.
#[test]
fn a_batch_is_lent_three_buffers_and_three_rows_of_words() {
    let lent =
        "const uint8_t *program, size_t program_len, size_t used, uint8_t *term, size_t term_len, \
        uint8_t *work, size_t work_len, const uint32_t *budgets, size_t budgets_len, \
        const uint32_t *values, size_t values_len, uint32_t *answers, size_t answers_len";
    let header = header();
    let words: Vec<&str> = header.split_whitespace().collect();
    assert!(words
        .join(" ")
        .contains(&format!("vistrokk_run_batch({lent});")));
}

#[test]
fn the_limits_are_01s_and_02s() {
    let limits = [
        ("BUFFER_MOST", BUFFER_LIMIT),
        ("VARIABLES_MOST", 16),
        ("BATCH_MOST", BATCH_LIMIT),
    ];
    for (name, limit) in limits {
        let line = format!("\n#define VISTROKK_{name} {limit}\n");
        assert!(header().contains(&line), "{name}");
    }
}

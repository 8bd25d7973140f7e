//! The crate is in step with `include/otto.h`: each number and each sentence of the header is that
//! of the crate, and the header has no number that the crate lacks.

use std::collections::{BTreeMap, BTreeSet};

use otto::*;

const HEADER: &str = include_str!("../../../../include/otto.h");

/// The header's names of numbers, without `OTTO_`.
fn numbers() -> BTreeMap<&'static str, u32> {
    numbers_of(HEADER)
}

fn numbers_of(text: &'static str) -> BTreeMap<&'static str, u32> {
    text.lines()
        .filter_map(|line| {
            let mut words = line.strip_prefix("#define OTTO_")?.split_whitespace();
            let name = words.next()?;
            let value = words.next()?.trim_end_matches('u');

            match value.strip_prefix("0x") {
                Some(digits) => u32::from_str_radix(digits, 16),
                None => value.parse(),
            }
            .ok()
            .map(|value| (name, value))
        })
        .collect()
}

/// The part of the header under one of its headings.
fn section(name: &str) -> &'static str {
    let (_, from) = HEADER.split_once(&format!("/* ---- {name} --")).unwrap();

    from.split_once("/* ---- ").map_or(from, |(part, _)| part)
}

macro_rules! by_name {
    ($($name:ident)*) => { BTreeMap::from([$((stringify!($name), $name as u32)),*]) };
}

fn values() -> BTreeMap<&'static str, u32> {
    by_name![
        RECORD_WORDS OUTPUT_VALUES VOICES CHANNELS LEAST_ACTV WHOLE_SAMPLE BANK_WORDS
        MOST_MEMORY_WORDS MOST_FILE_BYTES
        NO_VOICE VOL_LOUDEST K_OPEN MOST_ECOUNT
        CR_STP0 CR_STP1 CR_LEI CR_LPE CR_BLE CR_IRQE CR_DIR CR_IRQ CR_LP3 CR_LP4 CR_CMPD
        WORD_SLOW WORD_WRITE_LATCH WORD_READ_LATCH WORD_WAITING
    ]
}

/// Registers by name, of voice 0 and channel 0 where they are not shared.
fn registers() -> Vec<(&'static str, Register)> {
    let voice = Voice::ALL[0];

    vec![
        ("CR", voice.cr()),
        ("FC", voice.fc()),
        ("LVOL", voice.lvol()),
        ("LVRAMP", voice.lvramp()),
        ("RVOL", voice.rvol()),
        ("RVRAMP", voice.rvramp()),
        ("ECOUNT", voice.ecount()),
        ("K2", voice.k2()),
        ("K2RAMP", voice.k2ramp()),
        ("K1", voice.k1()),
        ("K1RAMP", voice.k1ramp()),
        ("START", voice.start()),
        ("END", voice.end()),
        ("ACCUM", voice.accum()),
        ("O4_N1", voice.o4_n1()),
        ("O3_N1", voice.o3_n1()),
        ("O3_N2", voice.o3_n2()),
        ("O2_N1", voice.o2_n1()),
        ("O2_N2", voice.o2_n2()),
        ("O1_N1", voice.o1_n1()),
        ("ACTV", Register::ACTV),
        ("MODE", Register::MODE),
        ("W_ST", Register::W_ST),
        ("W_END", Register::W_END),
        ("LR_END", Register::LR_END),
        ("PAR", Register::PAR),
        ("IRQV", Register::IRQV),
        ("PAGE", Register::PAGE),
    ]
}

/// Words of the record that are a register's.
fn words() -> Vec<(&'static str, Register)> {
    vec![
        ("WORD_PAGE", Register::PAGE),
        ("WORD_IRQV", Register::IRQV),
        ("WORD_PAR", Register::PAR),
        ("WORD_ACTV", Register::ACTV),
        ("WORD_MODE", Register::MODE),
        ("WORD_W_ST", Register::W_ST),
        ("WORD_W_END", Register::W_END),
        ("WORD_LR_END", Register::LR_END),
        ("WORD_SUMS", Channel::ALL[0].left()),
    ]
}

#[test]
fn values_are_the_headers() {
    let header = numbers();

    for (name, value) in values() {
        assert_eq!(header[name], value, "{name}");
    }
}

#[test]
fn registers_are_the_headers() {
    let header = numbers();

    for (name, register) in registers() {
        let first = 4 * header[name];
        assert_eq!(
            register.addresses(),
            [0, 1, 2, 3].map(|byte| Address(first + byte)),
            "{name}"
        );
    }
    for (name, register) in words() {
        assert_eq!(header[name] as usize, register.word(), "{name}");
    }
    assert_eq!(
        Channel::ALL[0].left().lowest_page(),
        header["PAGE_CHANNELS"]
    );
}

/// A refusal's name in the header: `RecordLength` is `RECORD_LENGTH`.
fn header_name(refusal: Refusal) -> String {
    format!("{refusal:?}")
        .chars()
        .enumerate()
        .flat_map(|(i, letter)| {
            let gap = (i > 0 && letter.is_uppercase()).then_some('_');
            gap.into_iter().chain(letter.to_uppercase())
        })
        .collect()
}

fn refusals() -> Vec<Refusal> {
    (0..1000)
        .filter_map(|n| Refusal::try_from(n).ok())
        .collect()
}

#[test]
fn refusals_are_the_headers() {
    let answers = numbers_of(section("answers"));

    for refusal in refusals() {
        assert_eq!(answers[&header_name(refusal)[..]], refusal.number());
        assert_eq!(Refusal::try_from(u32::from(refusal)), Ok(refusal));
    }
    assert_eq!(answers["DONE"], 0);
    assert_eq!(answers.len(), refusals().len() + 1);
    assert_eq!(Refusal::try_from(0), Err(UnknownRefusal(0)));
}

#[test]
fn sentences_are_the_headers() {
    let reasons = section("answers in words");

    for refusal in refusals() {
        let label = format!("case OTTO_{}:", header_name(refusal));
        let (_, from) = reasons.split_once(&label).unwrap();
        let (statement, _) = from.split_once(';').unwrap();
        let sentence: String = statement.split('"').skip(1).step_by(2).collect();
        assert_eq!(refusal.to_string(), sentence);
    }
}

#[test]
fn the_version_is_the_headers() {
    let version = format!(
        "#define OTTO_VERSION_TEXT \"{}\"",
        env!("CARGO_PKG_VERSION")
    );

    assert!(HEADER.lines().any(|line| line == version), "{version}");
}

#[test]
fn the_header_has_no_other_number() {
    let known: BTreeSet<String> = values()
        .into_keys()
        .chain(registers().into_iter().map(|(name, _)| name))
        .chain(words().into_iter().map(|(name, _)| name))
        .chain(["DONE", "PAGE_CHANNELS", "VERSION"])
        .map(String::from)
        .chain(refusals().into_iter().map(header_name))
        .collect();
    let header: BTreeSet<String> = numbers().into_keys().map(String::from).collect();

    assert_eq!(known, header);
}

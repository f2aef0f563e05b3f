//! Codes 1 to 3: the header alone, and the length.

use super::{one_of_each, shown, Cases};
use crate::draft::Draft;
use crate::layout::{
    FIRST_COUNT_WORD, HEADER_FLAGS_WORD, HEADER_LIMITS, HEADER_WORDS, RECORD_WORDS, TABLE_NAMES,
};

fn header_name(place: usize) -> &'static str {
    let before_the_counts = ["width", "height", "run capacity", "header flags"];
    match place.checked_sub(FIRST_COUNT_WORD) {
        None => before_the_counts[place],
        Some(table) => TABLE_NAMES[table],
    }
}

pub fn add(cases: &mut Cases) {
    too_short(cases);
    sizes(cases);
    counts(cases);
    flags(cases);
    two_numbers_at_fault(cases);
    lengths(cases);
}

/// "under 12 words"
fn too_short(cases: &mut Cases) {
    for length in 0..HEADER_WORDS {
        let name = format!("{length} of 12 words, all 0");
        cases.refused_words(name, vec![0; length], 1, 0);
    }
    let name = "11 words, each over any limit";
    cases.refused_words(name, vec![u32::MAX; 11], 1, 0);
    cases.accepted("12 words, all 0", &Draft::blank_sheet(0, 0));
}

/// A header of which one number is not 0, and nothing after it.
fn header_with(place: usize, value: u32) -> Vec<u32> {
    let mut words = vec![0; HEADER_WORDS];
    words[place] = value;
    words
}

/// One past the limit, and past it in the upper bits alone.
fn over_the_limit(cases: &mut Cases, place: usize) {
    let limit = HEADER_LIMITS[place];
    for value in [limit + 1, 0x1_0000, 1 << 31, u32::MAX] {
        let name = format!("{} {}", header_name(place), shown(value));
        cases.refused_words(name, header_with(place, value), 2, place as u32);
    }
}

/// "width (0..1,024), height (0..32,767), run capacity (0..16,384)"
fn sizes(cases: &mut Cases) {
    for place in 0..HEADER_FLAGS_WORD {
        for value in [1, HEADER_LIMITS[place] - 1, HEADER_LIMITS[place]] {
            let mut draft = Draft::blank_sheet(0, 0);
            draft.head[place] = value;
            cases.accepted(format!("{} {value}", header_name(place)), &draft);
        }
        over_the_limit(cases, place);
    }
    let mut largest = Draft::blank_sheet(HEADER_LIMITS[0], HEADER_LIMITS[1]);
    largest.head[2] = HEADER_LIMITS[2];
    cases.accepted("width, height and run capacity at their limits", &largest);
}

/// A count at its limit is no fault of the header: then the length is wrong,
/// and the place is "length wanted".
fn counts(cases: &mut Cases) {
    for (table, record_words) in RECORD_WORDS.into_iter().enumerate() {
        let place = FIRST_COUNT_WORD + table;
        for count in [1, HEADER_LIMITS[place]] {
            let wanted = HEADER_WORDS as u32 + count * record_words as u32;
            let name = format!("{} {count} and no record", header_name(place));
            cases.refused_words(name, header_with(place, count), 3, wanted);
        }
        over_the_limit(cases, place);
    }
    let mut at_the_limit = vec![0; HEADER_WORDS];
    at_the_limit[FIRST_COUNT_WORD..].copy_from_slice(&HEADER_LIMITS[FIRST_COUNT_WORD..]);
    let name = "every count at its limit and no record";
    cases.refused_words(name, at_the_limit, 3, 81_932);
}

/// "flags (label policy 1 bit [..]; show dummies 1 bit)"
fn flags(cases: &mut Cases) {
    for flags in 0..4 {
        let mut draft = Draft::blank_sheet(0, 0);
        draft.head[HEADER_FLAGS_WORD] = flags << 30;
        cases.accepted(format!("header flags {}", shown(flags << 30)), &draft);
    }
    let place = HEADER_FLAGS_WORD as u32;
    for bit in 0..30 {
        let words = header_with(HEADER_FLAGS_WORD, 1 << bit);
        cases.refused_words(format!("header flags, spare bit {bit}"), words, 2, place);
    }
    let words = header_with(HEADER_FLAGS_WORD, u32::MAX);
    cases.refused_words("header flags, all bits", words, 2, place);
}

/// "first such word"
fn two_numbers_at_fault(cases: &mut Cases) {
    for place in 0..HEADER_WORDS - 1 {
        let mut words = vec![0; HEADER_WORDS];
        words[place..].fill(u32::MAX);
        let name = format!("{} and all after it at fault", header_name(place));
        cases.refused_words(name, words, 2, place as u32);
    }
}

fn lengths(cases: &mut Cases) {
    let draft = one_of_each();
    let words = draft.to_words();
    let wanted = words.len() as u32;
    cases.accepted("one record in each table", &draft);
    for (name, length) in [
        ("one word less than the tables", words.len() - 1),
        ("one word more than the tables", words.len() + 1),
        ("the header without its tables", HEADER_WORDS),
        ("one word after the header, of many", HEADER_WORDS + 1),
    ] {
        let mut changed = words.clone();
        changed.resize(length, 0);
        cases.refused_words(name, changed, 3, wanted);
    }
    cases.refused_words("13 words, no counts", vec![0; 13], 3, 12);
    for (table, record_words) in RECORD_WORDS.into_iter().enumerate() {
        let name = TABLE_NAMES[table];
        let place = FIRST_COUNT_WORD + table;
        let (mut more, mut less) = (words.clone(), words.clone());
        more[place] += 1;
        less[place] -= 1;
        let record_words = record_words as u32;
        cases.refused_words(format!("{name} 2 of 1"), more, 3, wanted + record_words);
        cases.refused_words(format!("{name} 0 of 1"), less, 3, wanted - record_words);
    }
}

//! What is refused, what is said of it, and that the lent words are kept.

mod blobs;

use blobs::{rich, rich_needs, t, u, with, z};
use ducatfeather::{Capacities, Field, List, Refusal, raw, read_into};

/// The refusal of a block; the lent words must be as they were.
#[track_caller]
fn refused(blob: &[u8], capacities: &Capacities) -> Refusal {
    let pattern: Vec<u32> = (0..capacities.words().unwrap_or(0) as u32 + 3)
        .map(|i| i.wrapping_mul(0x9e37_79b9))
        .collect();
    let mut words = pattern.clone();
    let refusal = read_into(blob, capacities, &mut words).unwrap_err();
    assert!(words == pattern, "a refusal touched a word");
    refusal
}

/// Whether a block is accepted with such room.
fn accepted(blob: &[u8], capacities: &Capacities) -> bool {
    let mut words = vec![0; capacities.words().unwrap()];
    read_into(blob, capacities, &mut words).is_ok()
}

#[track_caller]
fn says(blob: &[u8], code: u32, text: &str) {
    let refusal = refused(blob, &Capacities::each(4));
    assert_eq!((refusal.code(), refusal.to_string().as_str()), (code, text));
}

#[test]
fn the_cases_of_the_format() {
    let short = "cut short, 4 bytes are needed and 0 are there";
    says(&[], 1, &format!("CRIM signature at 0: {short}"));
    says(&with(&z(), 4, 15), 3, "CRIM.size at 0: 15 is out of bounds");
    says(&with(&z(), 4, 17), 3, "CRIM.size at 0: 17 is out of bounds");
    let short = "cut short, 20 bytes are needed and 0 are there";
    let array = "CRIM provider descriptor array";
    says(&with(&z(), 12, 1), 1, &format!("{array} at 16: {short}"));
    let short = "cut short, 40 bytes are needed and 39 are there";
    says(
        &with(&t(), 68, 51),
        1,
        &format!("TEMP header at 76: {short}"),
    );
    says(
        &with(&t(), 80, 39),
        3,
        "TEMP.size at 76: 39 is out of bounds",
    );
    says(
        &with(&t(), 92, 75),
        5,
        "TEMP.template_items_offset at 75: this offset is out of bounds, the length is 116",
    );
    says(
        &with(&t(), 92, 117),
        5,
        "TEMP.template_items_offset (relative) at 41: this offset is out of bounds, the length is 40",
    );
    let field = "TEMP.item_name_count (expected 0 when item_descriptor_count == 0)";
    says(
        &with(&t(), 88, 1),
        4,
        &format!("{field} at 88: a count of 1 is refused"),
    );
}

#[test]
fn items() {
    let array = "template item descriptors";
    let short = "cut short, 40 bytes are needed and 28 are there";
    says(&with(&u(), 84, 2), 1, &format!("{array} at 116: {short}"));
    let short = "cut short, 20 bytes are needed and 0 are there";
    says(&with(&u(), 92, 0), 1, &format!("{array} at 144: {short}"));
    let short = "cut short, 85899345900 bytes are needed and 28 are there";
    let many = with(&u(), 84, u32::MAX);
    says(&many, 1, &format!("{array} at 116: {short}"));
    let bounds = "this offset is out of bounds, the length is";
    let before = format!("template item name_offset at 75: {bounds} 152");
    says(&with(&u(), 132, 75), 5, &before);
    let past = format!("template item name at 145: {bounds} 144");
    says(&with(&u(), 132, 145), 5, &past);
    let short = "cut short, 4 bytes are needed and 0 are there";
    let end = format!("template item name at 144: {short}");
    says(&with(&u(), 132, 144), 1, &end);
    let size = "template item name at 136: 3 is out of bounds";
    says(&with(&u(), 136, 3), 3, size);
    let text = "template item name at 136: the text is not UTF-16";
    says(&with(&u(), 136, 7), 6, text);
    says(&with(&u(), 140, 0xdc00), 6, text);
}

#[test]
fn signatures_and_names() {
    let found = with(&t(), 76, u32::from_le_bytes(*b"TE\0P"));
    says(
        &found,
        2,
        "signature at 76: TE\\x00P is found where TEMP is expected",
    );
    let mut lone = rich();
    let name = lone.windows(2).position(|pair| pair == [b'G', 0]).unwrap();
    lone[name..name + 2].copy_from_slice(&0xdc00_u16.to_le_bytes());
    says(
        &lone,
        6,
        &format!("CHAN name at {}: the text is not UTF-16", name - 4),
    );
}

#[test]
fn the_numbers_of_a_refusal() {
    let refusal = refused(&with(&t(), 68, 51), &Capacities::MOST);
    let Refusal::CutShort {
        field,
        place,
        need,
        have,
        ..
    } = refusal
    else {
        panic!("{refusal:?}");
    };
    assert_eq!((field, place, need, have), (Field(80), 76, 40, 39));
    assert_eq!(Field(80).text(), Some("TEMP header"));
    assert_eq!(Field(0).text(), None);
}

#[test]
fn too_many_bytes() {
    let mut long = z();
    long.resize(16_777_216, 1);
    assert!(accepted(&long, &Capacities::each(0)));
    long.push(1);
    let refusal = refused(&long, &Capacities::each(0));
    assert_eq!(refusal, Refusal::TooLong);
    assert_eq!(
        refusal.to_string(),
        "too long: at most 16777216 bytes are read"
    );
    // 7 comes before 8.
    assert_eq!(refused(&long, &Capacities::each(65_537)), Refusal::TooLong);
}

#[test]
fn capacities_over_the_limit() {
    for list in List::all() {
        let capacities = Capacities::each(0).with(list, 65_537);
        assert_eq!(capacities.words(), None);
        // 8 comes before whatever is wrong with the bytes.
        for blob in [z(), t(), Vec::new()] {
            let refusal = refused(&blob, &capacities);
            assert_eq!(refusal, Refusal::BadLending);
            assert_eq!(
                refusal.to_string(),
                "a capacity is over 65536, or fewer words are lent than the capacities ask for"
            );
        }
        assert!(accepted(&z(), &capacities.with(list, 65_536)));
    }
    assert_eq!(
        refused(&z(), &Capacities::each(u32::MAX)),
        Refusal::BadLending
    );
}

#[test]
fn too_few_words() {
    let capacities = Capacities::each(2);
    let mut words = vec![7; capacities.words().unwrap() - 1];
    let refusal = read_into(&t(), &capacities, &mut words).unwrap_err();
    assert_eq!(refusal, Refusal::BadLending);
    assert!(words.iter().all(|&word| word == 7));
    words.push(7);
    assert!(read_into(&t(), &capacities, &mut words).is_ok());
}

#[test]
fn lists_too_small() {
    let fitting = rich_needs();
    assert!(accepted(&rich(), &fitting));
    let last = List::all().last().unwrap();
    for list in List::all() {
        let capacity = fitting.of(list) - 1;
        let short = fitting.with(list, capacity);
        let refusal = refused(&rich(), &short);
        assert_eq!(refusal.code(), 9);
        assert_eq!(
            refusal.to_string(),
            format!(
                "list {} ({list}): there are more entries than its capacity of {capacity}",
                list.number()
            )
        );
        // The lowest-numbered list is named.
        assert_eq!(refused(&rich(), &short.with(last, 0)), refusal);
    }
    let events = refused(&rich(), &fitting.with(List::Events, 0));
    assert_eq!(
        events.to_string(),
        "list 6 (events): there are more entries than its capacity of 0"
    );
    let Refusal::ListTooSmall { list, capacity, .. } = events else {
        panic!("{events:?}");
    };
    assert_eq!((list, capacity), (List::Events, 0));
    // 9 comes after whatever is wrong with the bytes.
    assert_eq!(refused(&with(&t(), 80, 39), &Capacities::each(0)).code(), 3);
}

#[test]
fn lengths_of_the_c_call() {
    let mut words = vec![7; 200];
    let lists = List::all().len();
    let capacities = vec![1; lists + 1];
    let only = |code: u64| {
        let mut answer = [0; raw::NUMBERS];
        answer[0] = code;
        answer
    };
    for length in [0, lists - 1, lists + 1] {
        let mut answer = [9; raw::NUMBERS];
        let code = raw::ducat_read(&t(), &mut words, &capacities[..length], &mut answer);
        assert_eq!((code, answer), (8, only(8)));
    }
    for length in [0, 1, raw::NUMBERS - 1, raw::NUMBERS + 1] {
        let mut answer = [9; raw::NUMBERS + 1];
        let numbers = &mut answer[..length];
        let code = raw::ducat_read(&t(), &mut words, &capacities[..lists], numbers);
        assert_eq!(
            (code, answer),
            (8, [9; raw::NUMBERS + 1]),
            "it is not written"
        );
    }
    // 7 comes first here too.
    let long = vec![0; 16_777_217];
    let mut answer = [9; raw::NUMBERS];
    let code = raw::ducat_read(&long, &mut words, &capacities, &mut answer);
    assert_eq!((code, answer), (7, only(7)));
    assert_eq!(
        raw::ducat_read(&long, &mut words, &capacities, &mut answer[..3]),
        7
    );
    assert!(words.iter().all(|&word| word == 7));
}

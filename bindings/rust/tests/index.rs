//! Reading an index: every refusal at its place, and how much is lent.

mod second;

use ducatfeather::{Guid, Index, Key, Refusal, raw};

use second::{ENTRY, Held, WORD, decode, encode, form, words};

const NOT_TOUCHED: u32 = 0x5a5a_5a5a;

/// The answer and the words that are given, with so many words lent. All others must be as they
/// were.
#[track_caller]
fn read(bytes: &[u8], lent: usize) -> ([u64; 5], Vec<u32>) {
    let mut numbers = vec![NOT_TOUCHED; lent];
    let mut answer = [99; 5];
    let code = raw::ducat_index_read(bytes, &mut numbers, &mut answer);
    assert_eq!(u64::from(code), answer[0]);
    assert!(code == 0 || answer[4] == 0);
    let kept = numbers.split_off(answer[4] as usize);
    assert!(kept.iter().all(|&word| word == NOT_TOUCHED));
    (answer, numbers)
}

/// These bytes are refused so, however many words are lent.
#[track_caller]
fn refused(bytes: &[u8], code: u64, place: usize) {
    let place = place as u64;
    for lent in [0, 1, 100] {
        let answer = [code, place, 0, 0, 0];
        assert_eq!(read(bytes, lent), (answer, vec![]), "{bytes:x?}");
    }
    let refusal = Index::read(bytes).unwrap_err();
    let told = match refusal {
        Refusal::NumberCut { place, .. }
        | Refusal::BadNumber { place, .. }
        | Refusal::OtherEdition { place, .. }
        | Refusal::LeftOver { place, .. } => place,
        _ => panic!("{refusal:?}"),
    };
    assert_eq!((u64::from(refusal.code()), told), (code, place));
}

/// The numbers of an index, each with its bits: two providers and two entries.
const NUMBERS: [(u64, u32); 23] = {
    let mut numbers = [(300, WORD); 23];
    numbers[0] = (1, WORD);
    numbers[1] = (2, WORD);
    numbers[4] = (2, WORD);
    let mut place = 0;
    while place < 18 {
        let bits = ENTRY[place % 9];
        numbers[5 + place] = (if bits == 8 { 200 } else { 300 }, bits);
        place += 1;
    }
    numbers
};

/// Which of them are counts or the edition.
const STEERING: [usize; 3] = [0, 1, 4];

/// The forms of the numbers up to one of them.
fn before(number: usize) -> Vec<u8> {
    NUMBERS[..number]
        .iter()
        .flat_map(|&(n, _)| form(n))
        .collect()
}

/// The index with other bytes in the place of a number, and where they stand.
fn with(number: usize, bytes: &[u8]) -> (Vec<u8>, usize) {
    let before = before(number);
    let behind = NUMBERS[number + 1..].iter().flat_map(|&(n, _)| form(n));
    let place = before.len();
    let all = before
        .into_iter()
        .chain(bytes.iter().copied())
        .chain(behind);
    (all.collect(), place)
}

#[test]
fn bytes_that_run_out() {
    refused(&[], 15, 0);
    let whole = before(NUMBERS.len());
    assert!(decode(&whole).is_ok());
    // Wherever it is cut: at the first byte of the number, or where that would be.
    for number in 0..NUMBERS.len() {
        let [start, end] = [number, number + 1].map(|number| before(number).len());
        for length in start..end {
            refused(&whole[..length], 15, start);
        }
    }
}

#[test]
fn cut_short_before_anything_else() {
    // Past any width, but cut before ten bytes; ten are enough to tell.
    for number in 0..NUMBERS.len() {
        let before = before(number);
        for count in 1..14 {
            let bytes = [&before[..], &vec![0xff; count]].concat();
            refused(&bytes, if count < 10 { 15 } else { 16 }, before.len());
            let bytes = [&before[..], &vec![0x80; count]].concat();
            refused(&bytes, if count < 10 { 15 } else { 16 }, before.len());
        }
    }
}

#[test]
fn ten_without_a_last_byte() {
    for number in 0..NUMBERS.len() {
        for last in [0x00, 0x01, 0x7f, 0x80] {
            let (bytes, place) = with(number, &[[0x80; 10].as_slice(), &[last]].concat());
            refused(&bytes, 16, place);
        }
    }
}

#[test]
fn longer_than_shortest() {
    for number in 0..NUMBERS.len() {
        for first in [0x80, 0x81, 0xff] {
            for more in 0..9 {
                let longer = [&[first][..], &vec![0x80; more], &[0]].concat();
                let (bytes, place) = with(number, &longer);
                refused(&bytes, 16, place);
            }
        }
    }
    // The edition is right but for its form, and so it isn't 17.
    refused(&[0x81, 0], 16, 0);
}

#[test]
fn past_its_width() {
    for (number, (_, bits)) in NUMBERS.into_iter().enumerate() {
        let most = u64::MAX >> (64 - bits);
        let mut past = vec![form(most)];
        if bits == 64 {
            // The tenth byte has one bit of the number: 2⁶⁴, and the most that ten bytes can say.
            past[0][9] = 2;
            past.push([[0xff; 9].as_slice(), &[0x7f]].concat());
        } else {
            past = [most + 1, most + 2, 2 * most + 1, u64::MAX]
                .map(form)
                .to_vec();
        }
        for past in past {
            let (bytes, place) = with(number, &past);
            refused(&bytes, 16, place);
        }
        if !STEERING.contains(&number) {
            let (bytes, _) = with(number, &form(most));
            let held = decode(&bytes).unwrap();
            assert_eq!(read(&bytes, 24), ([0, 0, 0, 0, 24], words(&held)));
        }
    }
    // An edition past its width isn't 17.
    refused(&[0x80, 0x80, 0x80, 0x80, 0x10], 16, 0);
    refused(&[0x80, 0x80, 0x80, 0x80, 0x10, 0, 0], 16, 0);
}

#[test]
fn other_editions() {
    for edition in [0, 2, 127, 128, 300, u64::from(u32::MAX)] {
        let (bytes, _) = with(0, &form(edition));
        refused(&bytes, 17, 0);
        // Whatever stands behind it, or if nothing does.
        for behind in [&[][..], &[0x80], &[0x80, 0], &[0xff; 12], &[0, 0, 7]] {
            refused(&[&form(edition), behind].concat(), 17, 0);
        }
    }
}

#[test]
fn bytes_left_over() {
    let whole = before(NUMBERS.len());
    for behind in [&[0][..], &[1], &[0x80], &[0x80, 0], &[0xff; 12]] {
        refused(&[&whole, behind].concat(), 18, whole.len());
        refused(&[&[1, 0, 0], behind].concat(), 18, 3);
    }
}

#[test]
fn the_first_fault_counts() {
    // A width, a form and bytes left over, one behind the other, and each made right.
    let mut bytes = vec![1, 0, 1, 0, 0, 0x80, 2, 0x80, 0, 0, 0, 0, 0, 0, 0];
    refused(&bytes, 16, 5);
    bytes[6] = 1;
    refused(&bytes, 16, 7);
    bytes[7] = 0x81;
    bytes[8] = 1;
    refused(&bytes, 18, 14);
    bytes.pop();
    let entry = [0, 0, 128, 129, 0, 0, 0, 0, 0, 0];
    assert_eq!(read(&bytes, 12).1, [&[0, 1][..], &entry].concat());
}

#[test]
fn too_few_words() {
    let whole = before(NUMBERS.len());
    let needed = 2 + 2 + 10 * 2;
    for lent in 0..needed {
        assert_eq!(read(&whole, lent), ([9, 0, 15, lent as u64, 0], vec![]));
    }
    let given = words(&decode(&whole).unwrap());
    for lent in [needed, needed + 1, 65_536, 65_537, 200_000] {
        let answer = [0, 0, 0, 0, needed as u64];
        assert_eq!(read(&whole, lent), (answer, given.clone()));
    }
    assert_eq!(read(&[1, 0, 0], 2), ([0, 0, 0, 0, 2], vec![0, 0]));
    assert_eq!(read(&[1, 0, 0], 1), ([9, 0, 15, 1, 0], vec![]));
}

#[test]
fn no_time_is_spent_on_a_count() {
    // So often that a step for each of what is counted would never end.
    for _ in 0..1_000 {
        let most = form(u64::from(u32::MAX));
        let bytes = [&[1], &most[..], &[7, 8, 9]].concat();
        refused(&bytes, 15, bytes.len());
        let bytes = [&[1, 1, 5], &most[..], &[0, 1, 2, 3, 4, 5, 6, 7, 8, 9]].concat();
        refused(&bytes, 15, bytes.len());
        let bytes = [&[1], &most[..], &[0x80]].concat();
        refused(&bytes, 15, bytes.len() - 1);
    }
}

#[test]
fn as_many_entries_as_a_block_can_have() {
    let held = Held {
        counts: Vec::new(),
        entries: (0..65_536)
            .map(|n| [n, 1, 2, 3, 4, 5, 6, n << 40, 8])
            .collect(),
    };
    let bytes = encode(&held);
    let needed = 655_362;
    assert_eq!(
        read(&bytes, needed),
        ([0, 0, 0, 0, needed as u64], words(&held))
    );
    let less = [9, 0, 15, needed as u64 - 1, 0];
    assert_eq!(read(&bytes, needed - 1), (less, vec![]));
    let index = Index::read(&bytes).unwrap();
    assert_eq!(
        (index.len(), index.entries()[65_535].keywords),
        (65_536, 65_535 << 40)
    );
}

#[test]
fn longer_than_a_block_can_be() {
    let providers = 16_777_217;
    let mut bytes = [&[1], &form(providers as u64)[..]].concat();
    let head = bytes.len();
    bytes.resize(head + providers + 1, 0);
    let (answer, words) = read(&bytes, providers + 2);
    assert_eq!(answer, [0, 0, 0, 0, providers as u64 + 2]);
    assert_eq!(words[0] as usize, providers);
    assert!(words[1..].iter().all(|&word| word == 0));
    bytes.push(0);
    refused(&bytes, 18, head + providers + 1);
}

#[test]
fn lengths_of_the_call() {
    // Before any fault of the bytes.
    for bytes in [&[1, 0, 0][..], &[], &[2], &[1, 0, 0, 0]] {
        for other in [0, 4, 6] {
            let mut answer = [99; 6];
            let mut numbers = [NOT_TOUCHED; 8];
            let code = raw::ducat_index_read(bytes, &mut numbers, &mut answer[..other]);
            assert_eq!((code, answer, numbers), (8, [99; 6], [NOT_TOUCHED; 8]));
        }
    }
}

#[test]
fn what_an_index_holds() {
    let bytes = before(NUMBERS.len());
    let index = Index::read(&bytes).unwrap();
    assert_eq!(index.unknown2_counts(), [300, 300]);
    assert_eq!((index.len(), index.is_empty()), (2, false));
    let entry = index.entries()[0];
    // Of a provider that isn't there, which is no fault.
    assert_eq!((entry.provider, entry.template_offset), (300, 300));
    let guid = Guid([9; 16]);
    let key = Key {
        guid,
        event_id: 300,
        version: 200,
        channel: 200,
        level: 200,
        opcode: 200,
        task: 300,
        keywords: 300,
    };
    assert_eq!(entry.key(guid), key);
    assert!((&index).into_iter().eq([&entry, &entry]));
    assert_eq!(index, index.clone());
    assert!(format!("{index:?}").contains("event_id: 300"));

    let empty = Index::read(&[1, 0, 0]).unwrap();
    assert!(empty.is_empty() && empty.unknown2_counts().is_empty());
    assert_ne!(empty, Index::read(&[1, 1, 0, 0]).unwrap());
}

//! Writing an index of lent lists: what it holds, every refusal, and how much is lent.

mod lent;
mod second;

use ducatfeather::{Capacities, Index, Kind, List, raw};

use lent::{Lent, cut};
use second::{decode, encode, found, words};

/// What the lent bytes hold before.
const KEPT: u8 = 0x5a;

impl Lent {
    /// The answer and the bytes that are written, with so many lent. All others must be as they
    /// were.
    #[track_caller]
    fn write(&self, lent: usize) -> ([u64; 5], Vec<u8>) {
        let mut bytes = vec![KEPT; lent];
        let mut answer = [99; 5];
        let code = raw::ducat_index_write(
            &self.words,
            self.capacities.in_order(),
            self.counts.in_order(),
            &mut bytes,
            &mut answer,
        );
        assert_eq!(u64::from(code), answer[0]);
        assert!(code == 0 || answer[4] == 0);
        let kept = bytes.split_off(answer[4] as usize);
        assert!(kept.iter().all(|&byte| byte == KEPT));
        (answer, bytes)
    }

    /// The entries of the index, as it is read back: their words.
    #[track_caller]
    fn entries(&self) -> Vec<Vec<u32>> {
        let (answer, bytes) = self.write(10_000);
        assert_eq!(answer, [0, 0, 0, 0, bytes.len() as u64]);
        let words = words(&decode(&bytes).unwrap());
        assert_eq!(words[0], self.counts.of(List::Providers));
        let entries = &words[2 + words[0] as usize..];
        entries.chunks(10).map(<[u32]>::to_vec).collect()
    }

    /// Of these entries, which events they are: by provider and identifier.
    #[track_caller]
    fn events(&self) -> Vec<(u32, u32)> {
        let entries = self.entries();
        entries.iter().map(|entry| (entry[0], entry[1])).collect()
    }

    /// The index is refused with this code, however many bytes are lent.
    #[track_caller]
    fn refused(&self, code: u64) {
        for lent in [0, 1, 1_000] {
            assert_eq!(self.write(lent), ([code, 0, 0, 0, 0], vec![]));
        }
    }
}

/// Two providers, of which the second has the first events; event 13 has no template offset, event
/// 22 no template at its offset. No two of the lists that tables have entries in are equally long.
fn lists() -> Lent {
    let mut lent = Lent::new(8);
    lent.put(List::Providers, &[(8, 300)]);
    lent.put(List::Providers, &[(8, 2)]);
    lent.table(0, Kind::Evnt, 3, 3).table(0, Kind::Ttbl, 3, 1);
    lent.table(1, Kind::Ttbl, 0, 3).table(1, Kind::Evnt, 0, 3);
    lent.event(11, 200).event(12, 300).event(13, 0);
    lent.event(21, 100).event(22, 200).event(23, 100);
    lent.template(1, 100, 60).template(1, 200, 61);
    lent.template(1, 300, 62).template(0, 100, 63);
    lent.put(List::Definitions, &[]).put(List::Definitions, &[]);
    lent.put(List::Maps, &[]);
    lent
}

#[test]
fn byte_by_byte() {
    let mut lent = lists();
    for (place, value) in (1..8).zip([255, 2, 3, 4, 500, 0, 0x8000_0000]) {
        *lent.word(List::Events, 0, place) = value;
    }
    let expected = [
        [1, 2, 0xac, 0x02, 2, 4].as_slice(),
        &[1, 11, 0xff, 0x01, 2, 3, 4, 0xf4, 0x03],
        &[0x80, 0x80, 0x80, 0x80, 0x80, 0x80, 0x80, 0x80, 0x80, 0x01],
        &[0xc8, 0x01],
        &[1, 12, 0, 0, 0, 0, 0, 0, 0xac, 0x02],
        &[0, 21, 0, 0, 0, 0, 0, 0, 100],
        &[0, 23, 0, 0, 0, 0, 0, 0, 100],
    ]
    .concat();
    let answer = [0, 0, 0, 0, expected.len() as u64];
    assert_eq!(lent.write(expected.len()), (answer, expected.clone()));
    assert_eq!(lent.write(200), (answer, expected.clone()));
    let index = Index::read(&expected).unwrap();
    assert_eq!(index.unknown2_counts(), [300, 2]);
    assert_eq!(index.entries()[0].keywords, 1 << 63);
}

#[test]
fn no_lists() {
    let empty = ([0, 0, 0, 0, 3], vec![1, 0, 0]);
    assert_eq!(Lent::new(8).write(3), empty);
    let mut none = Lent::new(0);
    none.words.clear();
    assert_eq!(none.write(3), empty);
    assert_eq!(none.write(2), ([9, 0, 15, 2, 0], vec![]));
}

#[test]
fn the_largest_numbers() {
    let mut lent = Lent::new(2);
    lent.put(List::Providers, &[(8, u32::MAX)]);
    lent.table(0, Kind::Evnt, 0, 1).table(0, Kind::Ttbl, 0, 1);
    let most = u32::MAX;
    let fields = [65_535, 255, 255, 255, 255, 65_535, most, most, most, most];
    let event: Vec<_> = (0..16).zip(fields.into_iter().chain([most; 6])).collect();
    lent.put(List::Events, &event).template(0, u32::MAX, 60);
    let expected = [0, 65_535, 255, 255, 255, 255, 65_535, most, most, most];
    assert_eq!(lent.entries(), [expected]);
    // What a list needs at most, but for counts and numbers that are small here.
    assert_eq!(lent.write(100).0[4], 7 + 5 + 32 - 2 * 2 - 2);
}

#[test]
fn entries_stand_in_the_order_of_the_events() {
    let lent = lists();
    assert_eq!(lent.events(), [(1, 11), (1, 12), (0, 21), (0, 23)]);
    // Ranges that follow one another as the events do.
    let mut lent = lists();
    for (table, first) in [(0, 0), (3, 3)] {
        *lent.word(List::Tables, table, 5) = first;
    }
    *lent.word(List::Events, 2, 9) = 100;
    assert_eq!(lent.events(), [(0, 13), (1, 21), (1, 22), (1, 23)]);
}

#[test]
fn events_without_a_template_are_left_out() {
    // No offset, even where a template stands at 0.
    let mut lent = lists();
    *lent.word(List::Templates, 0, 1) = 0;
    *lent.word(List::Templates, 3, 1) = 0;
    assert_eq!(lent.events(), [(1, 11), (1, 12)]);
    // No table of templates; none of the provider's; a second one, which isn't used.
    let mut lent = lists();
    *lent.word(List::Tables, 1, 1) = Kind::Chan as u32;
    *lent.word(List::Tables, 1, 5) = 0;
    assert_eq!(lent.events(), [(1, 11), (1, 12)]);
    let mut lent = lists();
    *lent.word(List::Tables, 1, 6) = 0;
    lent.table(0, Kind::Ttbl, 3, 1);
    assert_eq!(lent.events(), [(1, 11), (1, 12)]);
    // At the offset there is another provider's.
    let mut lent = lists();
    *lent.word(List::Templates, 3, 1) = 101;
    assert_eq!(lent.events(), [(1, 11), (1, 12)]);
    // Several events with one template, several templates at one offset.
    let mut lent = lists();
    for event in 0..3 {
        *lent.word(List::Events, event, 9) = 200;
        *lent.word(List::Templates, event, 1) = 200;
    }
    let events = [(1, 11), (1, 12), (1, 13), (0, 21), (0, 23)];
    assert_eq!(lent.events(), events);
}

#[test]
fn too_few_bytes() {
    let lent = lists();
    let expected = encode(&found(|list| lent.list(list)).unwrap());
    let needed = expected.len();
    for room in 0..needed {
        assert_eq!(lent.write(room), ([9, 0, 15, room as u64, 0], vec![]));
    }
    let answer = [0, 0, 0, 0, needed as u64];
    for room in [needed, needed + 1, 65_537, 16_777_217] {
        assert_eq!(lent.write(room), (answer, expected.clone()));
    }
}

#[test]
fn lendings_that_are_refused() {
    let mut few = lists();
    few.words.pop();
    assert_eq!(few.events().len(), 4);
    few.words.pop();
    few.refused(8);
    // 8 comes before 10.
    few.counts = Capacities::each(9);
    few.refused(8);
    for list in List::all() {
        let mut much = lists();
        much.capacities = much.capacities.with(list, 65_537);
        much.words.resize(16 * 65_537 + 1_000, 0);
        much.refused(8);
    }
}

#[test]
fn lengths_of_the_call() {
    let lent = lists();
    let right = List::all().len();
    let write = |capacities, counts, numbers: usize| {
        let mut answer = [99; 6];
        let mut bytes = [KEPT; 100];
        let code = raw::ducat_index_write(
            &lent.words,
            &cut(&lent.capacities, capacities),
            &cut(&lent.counts, counts),
            &mut bytes,
            &mut answer[..numbers],
        );
        assert!(code == 0 || bytes == [KEPT; 100]);
        (code, answer)
    };
    let (code, [told @ .., _, 99]) = write(right, right, 5) else {
        panic!("a number behind the answer");
    };
    assert_eq!((code, told), (0, [0; 4]));
    for other in [0, right - 1, right + 1] {
        assert_eq!(write(other, right, 5), (8, [8, 0, 0, 0, 0, 99]));
        assert_eq!(write(right, other, 5), (8, [8, 0, 0, 0, 0, 99]));
    }
    for other in [0, 4, 6] {
        assert_eq!(write(right, right, other), (8, [99; 6]));
    }
}

#[test]
fn counts_over_their_capacities() {
    for list in List::all() {
        let mut lent = lists();
        lent.counts = lent.counts.with(list, 9);
        lent.refused(10);
    }
}

#[test]
fn tables_that_do_not_fit() {
    let kinds = [
        (Kind::Chan, List::Definitions),
        (Kind::Evnt, List::Events),
        (Kind::Keyw, List::Definitions),
        (Kind::Levl, List::Definitions),
        (Kind::Maps, List::Maps),
        (Kind::Opco, List::Definitions),
        (Kind::Task, List::Definitions),
        (Kind::Ttbl, List::Templates),
    ];
    for (kind, list) in kinds {
        // A table that isn't used, and fits its list exactly.
        let mut fitting = lists();
        let count = fitting.counts.of(list);
        fitting.table(0, kind, count - 1, 1);
        assert_eq!(fitting.events().len(), 4);
        let faults = [
            (0, 2),
            (0, u32::MAX),
            (1, 0),
            (1, 9),
            (1, u32::MAX),
            (5, count),
            (5, u32::MAX),
            (6, 2),
            (6, u32::MAX),
        ];
        for (word, value) in faults {
            let mut lent = fitting.clone();
            *lent.word(List::Tables, 4, word) = value;
            lent.refused(10);
        }
        // Empty, but past its list.
        *fitting.word(List::Tables, 4, 6) = 0;
        *fitting.word(List::Tables, 4, 5) = count;
        assert_eq!(fitting.events().len(), 4);
        *fitting.word(List::Tables, 4, 5) = count + 1;
        fitting.refused(10);
    }
}

#[test]
fn another_providers_template() {
    for (template, own) in [(0, 1), (1, 1), (2, 1), (3, 0)] {
        for other in [1 - own, 2, u32::MAX] {
            let mut lent = lists();
            *lent.word(List::Templates, template, 0) = other;
            lent.refused(10);
        }
    }
    // In a table that isn't used; in none.
    let mut lent = lists();
    lent.table(0, Kind::Ttbl, 2, 1);
    lent.refused(10);
    let mut lent = lists();
    lent.template(7, 200, 64);
    assert_eq!(lent.events().len(), 4);
}

#[test]
fn an_event_in_no_range() {
    // The first and the last of each range, with a template and without.
    for (table, event) in [(0, 3), (0, 5), (3, 0), (3, 2)] {
        for offset in [0, 100, 7_777] {
            let mut lent = lists();
            *lent.word(List::Events, event, 9) = offset;
            *lent.word(List::Tables, table, 6) = 2;
            if event % 3 == 0 {
                *lent.word(List::Tables, table, 5) = event + 1;
            }
            lent.refused(10);
            // Only a table of events counts, and of a provider only the first.
            lent.table(table / 3, Kind::Evnt, event, 1);
            lent.refused(10);
        }
    }
    let mut lent = lists();
    lent.event(31, 0);
    lent.refused(10);
    // That of a third provider is its first.
    lent.provider(7).table(2, Kind::Evnt, 6, 1);
    assert_eq!(lent.events().len(), 4);

    // Without any table.
    let mut lent = Lent::new(8);
    lent.provider(7).event(1, 0);
    lent.refused(10);
}

#[test]
fn an_event_in_two_ranges() {
    for event in 0..6 {
        let mut lent = lists();
        lent.provider(7).table(2, Kind::Evnt, event, 1);
        lent.refused(10);
        *lent.word(List::Events, event, 9) = 0;
        lent.refused(10);
        // In a second table of a provider it doesn't count, whosever event it is.
        let mut lent = lists();
        lent.table(0, Kind::Evnt, event, 1)
            .table(1, Kind::Evnt, event, 1);
        lent.table(1, Kind::Evnt, 0, 6);
        assert_eq!(lent.events().len(), 4);
    }
    // An empty range has none.
    let mut lent = lists();
    lent.provider(7).table(2, Kind::Evnt, 3, 0);
    assert_eq!(lent.events().len(), 4);
    // One that is the provider's first by standing before the other.
    *lent.word(List::Tables, 0, 0) = 2;
    *lent.word(List::Tables, 4, 0) = 0;
    assert_eq!(lent.events(), [(1, 11), (1, 12)]);
}

#[test]
fn fields_past_their_width() {
    let most = [65_535, 255, 255, 255, 255, 65_535];
    for (field, most) in most.into_iter().enumerate() {
        // With a template, without an offset, without a template.
        for event in [0, 2, 4] {
            let mut lent = lists();
            *lent.word(List::Events, event, field) = most;
            assert_eq!(lent.entries().len(), 4);
            for past in [most + 1, 1 << 31, u32::MAX] {
                *lent.word(List::Events, event, field) = past;
                lent.refused(10);
            }
        }
    }
    // All other words have no other width than 32 bits.
    let mut lent = lists();
    for word in 6..16 {
        *lent.word(List::Events, 2, word) = u32::MAX;
    }
    assert_eq!(lent.entries().len(), 4);
}

#[test]
fn as_many_as_there_can_be() {
    // All providers but the first have an event each, the last one the first of them.
    let most = 65_536;
    let capacities = [List::Providers, List::Tables, List::Events, List::Templates]
        .into_iter()
        .fold(Capacities::each(0), |all, list| all.with(list, most));
    let mut lent = Lent {
        words: vec![0; capacities.words().unwrap()],
        capacities,
        counts: capacities,
    };
    let (evnt, ttbl) = (Kind::Evnt as u32, Kind::Ttbl as u32);
    *lent.word(List::Tables, 0, 1) = ttbl;
    *lent.word(List::Tables, 0, 6) = most;
    for number in 0..most {
        *lent.word(List::Events, number, 0) = number;
        *lent.word(List::Events, number, 9) = 9;
        *lent.word(List::Providers, number, 8) = number;
        if number > 0 {
            *lent.word(List::Tables, number, 0) = most - number;
            *lent.word(List::Tables, number, 1) = evnt;
            *lent.word(List::Tables, number, 5) = number - 1;
            *lent.word(List::Tables, number, 6) = 1;
        }
    }
    // The last event is in no range.
    lent.refused(10);
    *lent.word(List::Tables, most - 1, 6) = 2;
    // No template is at 9, and all of them are the first provider's.
    let (answer, bytes) = lent.write(300_000);
    let index = Index::read(&bytes).unwrap();
    assert_eq!((answer[0], index.len()), (0, 0));
    assert!(index.unknown2_counts().iter().copied().eq(0..most));

    // All events and templates are the first provider's, and the first template is theirs.
    *lent.word(List::Templates, 0, 1) = 9;
    for table in 1..most {
        *lent.word(List::Tables, table, 6) = 0;
    }
    *lent.word(List::Tables, 1, 0) = 0;
    *lent.word(List::Tables, 1, 6) = most;
    let (answer, bytes) = lent.write(1_200_000);
    assert_eq!(answer[0], 0);
    assert_eq!(lent.write(bytes.len()).0, answer);
    assert_eq!(lent.write(bytes.len() - 1).0[0], 9);
    let index = Index::read(&bytes).unwrap();
    let events = index
        .entries()
        .iter()
        .map(|entry| u32::from(entry.event_id));
    assert!(events.eq(0..most));
}

//! Templates, by an offset and by an event's key: in blocks that were read, and in lent words that
//! no reading leaves so.

mod lent;

use std::ops::Range;

use ducatfeather::{Capacities, Event, Guid, Key, Kind, List, Refusal, raw, read, read_into};

use lent::{Lent, NOT_TOUCHED, cut};

/// A provider of a block: its GUID, its events, and the GUIDs of its templates, told by one byte.
/// An event is an identifier and the number of its template, if it has one.
struct Provider<'a>(u8, &'a [(u32, Option<u32>)], &'a [u8]);

/// A block with these providers, each with an EVNT and a TTBL.
fn block(providers: &[Provider]) -> Vec<u8> {
    let mut b = Block(b"CRIM".to_vec());
    b.words(&[0, 0, providers.len() as u32]);
    let mut at = 16 + 20 * providers.len() as u32;
    for Provider(guid, events, templates) in providers {
        b.0.extend([*guid; 16]);
        b.words(&[at]);
        at += 36 + 16 + 48 * events.len() as u32 + 12 + 40 * templates.len() as u32;
    }
    for Provider(_, events, templates) in providers {
        let [event_count, template_count] = [events.len(), templates.len()].map(|n| n as u32);
        let evnt = b.0.len() as u32 + 36;
        let ttbl = evnt + 16 + 48 * event_count;
        b.0.extend(b"WEVT");
        b.words(&[0, 0, 2, 0, evnt, 0, ttbl, 0]);
        b.0.extend(b"EVNT");
        b.words(&[16 + 48 * event_count, event_count, 0]);
        for (identifier, template) in *events {
            let offset = template.map_or(0, |number| ttbl + 12 + 40 * number);
            b.words(&[*identifier, 0, 0, 0, 0, offset, 0, 0, 0, 0, 0, 0]);
        }
        b.0.extend(b"TTBL");
        b.words(&[12 + 40 * template_count, template_count]);
        for guid in *templates {
            b.0.extend(b"TEMP");
            b.words(&[40, 0, 0, 0, 0]);
            b.0.extend([*guid; 16]);
        }
    }
    let size = (b.0.len() as u32).to_le_bytes();
    b.0[4..8].copy_from_slice(&size);
    b.0
}

struct Block(Vec<u8>);

impl Block {
    fn words(&mut self, values: &[u32]) {
        self.0.extend(values.iter().flat_map(|v| v.to_le_bytes()));
    }
}

/// The key of a provider's event with this identifier and zeros.
fn key(guid: u8, event_id: u16) -> Key {
    Key {
        guid: Guid([guid; 16]),
        event_id,
        version: 0,
        channel: 0,
        level: 0,
        opcode: 0,
        task: 0,
        keywords: 0,
    }
}

/// The GUIDs for a key, by their byte, whatever room the lists were read with.
#[track_caller]
fn given(blob: &[u8], key: &Key) -> Vec<u8> {
    let guids = read(blob).unwrap().templates_for(key).unwrap();
    let mut words = vec![0; Capacities::MOST.words().unwrap()];
    let roomy = read_into(blob, &Capacities::MOST, &mut words).unwrap();
    assert_eq!(roomy.templates_for(key).unwrap(), guids);
    guids.iter().map(|guid| guid.0[0]).collect()
}

#[test]
fn by_key() {
    let events = [(1, Some(2)), (2, None), (3, Some(0)), (2, Some(1))];
    let blob = block(&[Provider(9, &events, &[30, 31, 32])]);
    assert_eq!(given(&blob, &key(9, 1)), [32]);
    assert_eq!(given(&blob, &key(9, 2)), [31]);
    assert_eq!(given(&blob, &key(9, 3)), [30]);
    assert_eq!(given(&blob, &key(9, 4)), []);
    assert_eq!(given(&blob, &key(8, 1)), []);
    let manifest = read(&blob).unwrap();
    let event: Event = manifest.events().next().unwrap();
    assert_eq!(event.key(Guid([9; 16])), key(9, 1));
}

#[test]
fn each_field_of_the_key_counts() {
    let fields = 0x0302_0001;
    let mut blob = block(&[Provider(9, &[(fields, Some(0))], &[30])]);
    let event = blob.windows(4).position(|w| w == [1, 0, 2, 3]).unwrap();
    blob[event + 4..event + 16].copy_from_slice(&[4, 5, 6, 0, 1, 0, 0, 0, 0, 0, 0, 128]);
    let right = Key {
        guid: Guid([9; 16]),
        event_id: 1,
        version: 2,
        channel: 3,
        level: 4,
        opcode: 5,
        task: 6,
        keywords: 1 << 63 | 1,
    };
    assert_eq!(given(&blob, &right), [30]);
    let mut last = right.guid;
    last.0[15] = 8;
    for wrong in [
        Key {
            guid: last,
            ..right
        },
        Key {
            event_id: 257,
            ..right
        },
        Key {
            version: 0,
            ..right
        },
        Key {
            channel: 0,
            ..right
        },
        Key { level: 0, ..right },
        Key { opcode: 0, ..right },
        Key { task: 0, ..right },
        Key {
            keywords: 1,
            ..right
        },
        Key {
            keywords: 1 << 63,
            ..right
        },
    ] {
        assert_eq!(given(&blob, &wrong), [], "{wrong:?}");
    }
}

#[test]
fn each_guid_once_in_first_seen_order() {
    // Templates 1 and 3 have the same GUID; the events name template 2 twice.
    let events = [2, 3, 2, 0, 1].map(|number| (7, Some(number)));
    let blob = block(&[Provider(9, &events, &[30, 31, 32, 31])]);
    assert_eq!(given(&blob, &key(9, 7)), [32, 31, 30]);
}

#[test]
fn many_guids() {
    // Backwards, and more than the first list that is lent has room for.
    for many in [1_u8, 7, 8, 9, 200] {
        let templates: Vec<u8> = (0..many).collect();
        let events: Vec<_> = (0..u32::from(many)).rev().map(|n| (7, Some(n))).collect();
        let blob = block(&[Provider(9, &events, &templates)]);
        let backwards: Vec<u8> = (0..many).rev().collect();
        assert_eq!(given(&blob, &key(9, 7)), backwards);
    }
}

#[test]
fn nothing_to_give() {
    // No template offset; one that leads past the templates; none of either.
    let blob = block(&[Provider(9, &[(1, None), (2, Some(1))], &[30])]);
    assert_eq!(given(&blob, &key(9, 1)), []);
    assert_eq!(given(&blob, &key(9, 2)), []);
    assert_eq!(given(&block(&[Provider(9, &[], &[])]), &key(9, 0)), []);
    assert_eq!(given(&block(&[]), &key(0, 0)), []);
}

#[test]
fn only_the_provider_itself() {
    let first = Provider(8, &[(1, Some(0)), (2, Some(2))], &[30]);
    let second = Provider(9, &[(1, Some(0)), (2, Some(1))], &[31, 32]);
    let blob = block(&[first, second]);
    assert_eq!(given(&blob, &key(8, 1)), [30]);
    assert_eq!(given(&blob, &key(9, 1)), [31]);
    assert_eq!(given(&blob, &key(9, 2)), [32]);
    // Past its own templates there is none.
    assert_eq!(given(&blob, &key(8, 2)), []);
}

#[test]
fn all_providers_with_that_guid() {
    let first = Provider(9, &[(1, Some(0)), (2, None), (4, Some(1))], &[30, 32]);
    let other = Provider(8, &[(1, Some(0)), (3, Some(0))], &[33]);
    let events = [(1, Some(0)), (2, Some(0)), (3, Some(0)), (4, Some(1))];
    let second = Provider(9, &events, &[31, 32]);
    let blob = block(&[Provider(8, &[], &[]), first, other, second]);
    assert_eq!(given(&blob, &key(9, 1)), [30, 31]);
    assert_eq!(given(&blob, &key(9, 2)), [31]);
    assert_eq!(given(&blob, &key(9, 3)), [31]);
    // Both have it, and it is given once.
    assert_eq!(given(&blob, &key(9, 4)), [32]);
    assert_eq!(given(&blob, &key(8, 1)), [33]);
}

#[test]
fn templates_are_not_pooled() {
    let first = Provider(9, &[(1, Some(0))], &[30]);
    let second = Provider(9, &[(1, Some(0))], &[31]);
    let mut blob = block(&[first, second]);
    assert_eq!(given(&blob, &key(9, 1)), [30, 31]);
    // Each event names the other provider's template.
    let temp = |blob: &[u8], nth| {
        let temps = blob.windows(4).enumerate().filter(|(_, w)| w == b"TEMP");
        temps.map(|(at, _)| at as u32).nth(nth).unwrap()
    };
    let events: Vec<usize> = blob
        .windows(4)
        .enumerate()
        .filter(|(_, w)| w == b"EVNT")
        .map(|(at, _)| at + 16)
        .collect();
    let [one, two] = [temp(&blob, 0), temp(&blob, 1)];
    for (event, offset) in events.into_iter().zip([two, one]) {
        blob[event + 20..event + 24].copy_from_slice(&offset.to_le_bytes());
    }
    assert_eq!(given(&blob, &key(9, 1)), []);
}

#[test]
fn many_providers_with_that_guid() {
    // Backwards, each with its own template; and all with one.
    let events: Vec<[(u32, Option<u32>); 2]> = vec![[(7, Some(0)), (8, Some(1))]; 100];
    let templates: Vec<[u8; 2]> = (0..100).rev().map(|guid| [guid, 200]).collect();
    let providers: Vec<Provider> = (0..100)
        .map(|n| Provider(9, &events[n], &templates[n]))
        .collect();
    let blob = block(&providers);
    let backwards: Vec<u8> = (0..100).rev().collect();
    assert_eq!(given(&blob, &key(9, 7)), backwards);
    assert_eq!(given(&blob, &key(9, 8)), [200]);
    assert_eq!(given(&blob, &key(9, 9)), []);
}

#[test]
fn by_offset() {
    let first = Provider(8, &[], &[30, 31]);
    let second = Provider(9, &[(1, Some(2))], &[32, 33, 34]);
    let blob = block(&[first, second]);
    let manifest = read(&blob).unwrap();
    let tables: Vec<Range<usize>> = manifest
        .tables()
        .filter(|table| table.kind == Kind::Ttbl)
        .map(|table| table.entries)
        .collect();
    assert_eq!(tables, [0..2, 2..5]);
    for (number, template) in manifest.templates().enumerate() {
        let own = u32::from(number >= 2);
        assert_eq!(template.provider, own);
        for (table, entries) in (0..).zip(&tables) {
            let expected = (table == own).then_some(number);
            let found = manifest.template_at(own, entries.clone(), template.offset);
            assert_eq!(found, Ok(expected));
        }
        let alone = number..number + 1;
        for range in [0..5, alone] {
            let by = |provider| manifest.template_at(provider, range.clone(), template.offset);
            assert_eq!(by(own), Ok(Some(number)));
            // Another provider has none there; nor has one that isn't there, which is no fault.
            for other in [1 - own, 2, u32::MAX] {
                assert_eq!(by(other), Ok(None));
            }
        }
        let none = number..number;
        assert_eq!(manifest.template_at(own, none, template.offset), Ok(None));
        let beside = template.offset + 1;
        assert_eq!(manifest.template_at(own, 0..5, beside), Ok(None));
    }
    let event = manifest.events().next().unwrap();
    let offset = event.template_offset.unwrap();
    let found = manifest.template_at(1, tables[1].clone(), offset);
    assert_eq!(found, Ok(Some(4)));
}

#[test]
fn ranges_past_the_list() {
    let blob = block(&[Provider(8, &[], &[30, 31])]);
    // There is room for more templates than there are.
    let capacities = Capacities::each(7);
    let mut words = vec![0; capacities.words().unwrap()];
    let manifest = read_into(&blob, &capacities, &mut words).unwrap();
    let offset = manifest.templates().next().unwrap().offset;
    assert_eq!(manifest.template_at(0, 2..2, offset), Ok(None));
    let backwards = Range { start: 2, end: 0 };
    assert_eq!(manifest.template_at(0, backwards, offset), Ok(None));
    for range in [0..3, 1..3, 3..3, 2..usize::MAX, usize::MAX..usize::MAX] {
        let refusal = manifest.template_at(0, range, offset).unwrap_err();
        assert_eq!((refusal, refusal.code()), (Refusal::ListsApart, 10));
    }
    assert_eq!(
        Refusal::ListsApart.to_string(),
        "the lists don't fit together, or the range is past its list"
    );
}

// From here on: lent words as they stand.

impl Lent {
    /// Of provider 0.
    fn at(&self, first: u32, count: u32, offset: u32) -> [u64; 6] {
        self.of(0, first, count, offset)
    }

    fn of(&self, provider: u32, first: u32, count: u32, offset: u32) -> [u64; 6] {
        let mut answer = [99; 6];
        let code = raw::ducat_template_at(
            &self.words,
            self.capacities.in_order(),
            self.counts.in_order(),
            provider,
            first,
            count,
            offset,
            &mut answer,
        );
        assert_eq!(u64::from(code), answer[0]);
        answer
    }

    /// The answer and the GUIDs' last words, for GUID 5 and identifier 1. Whatever isn't given
    /// must be as it was.
    #[track_caller]
    fn guids(&self, lent: usize) -> ([u64; 5], Vec<u32>) {
        let mut answer = [99; 5];
        let mut guids = vec![NOT_TOUCHED; lent];
        let code = raw::ducat_templates_for(
            &self.words,
            self.capacities.in_order(),
            self.counts.in_order(),
            &KEY,
            &mut guids,
            &mut answer,
        );
        assert_eq!(u64::from(code), answer[0]);
        let (given, rest) = guids.split_at(4 * answer[4] as usize);
        assert!(rest.iter().all(|&word| word == NOT_TOUCHED));
        assert!(answer[0] == 0 || given.is_empty());
        let (entries, _) = given.as_chunks();
        let last = entries.iter().map(|&[a, b, c, d]| {
            assert_eq!([a, b, c], [0; 3]);
            d
        });
        (answer, last.collect())
    }
}

const KEY: [u32; 12] = [5, 0, 0, 0, 1, 0, 0, 0, 0, 0, 0, 0];

fn refused(code: u64) -> ([u64; 5], Vec<u32>) {
    ([code, 0, 0, 0, 0], Vec::new())
}

/// Two providers. For GUID 5 and identifier 1 there are the GUIDs 70 and 71. No two of the lists
/// that tables have entries in are equally long.
fn lists() -> Lent {
    let mut lent = Lent::new(6);
    lent.provider(4).provider(5);
    lent.table(0, Kind::Ttbl, 0, 1).table(1, Kind::Evnt, 0, 3);
    lent.table(1, Kind::Ttbl, 1, 3).table(1, Kind::Chan, 0, 0);
    lent.event(1, 200).event(1, 300).event(2, 400);
    lent.template(0, 100, 60).template(1, 200, 70);
    lent.template(1, 300, 71).template(1, 400, 72);
    lent.put(List::Definitions, &[]).put(List::Definitions, &[]);
    lent.put(List::Maps, &[]);
    lent
}

#[test]
fn the_lowest_of_two_at_one_offset() {
    let mut lent = Lent::new(6);
    lent.template(0, 100, 1);
    lent.template(0, 200, 2).template(0, 200, 3);
    assert_eq!(lent.at(0, 3, 200), [0, 0, 0, 0, 1, 1]);
    assert_eq!(lent.at(2, 1, 200), [0, 0, 0, 0, 1, 2]);
    assert_eq!(lent.at(0, 1, 100), [0, 0, 0, 0, 1, 0]);
    assert_eq!(lent.at(1, 2, 100), [0; 6]);
    assert_eq!(lent.at(0, 0, 100), [0; 6]);
    assert_eq!(lent.at(3, 0, 100), [0; 6]);
    // 0 is an offset as any other here.
    assert_eq!(lent.at(0, 3, 0), [0; 6]);
    *lent.word(List::Templates, 2, 1) = 0;
    assert_eq!(lent.at(0, 3, 0), [0, 0, 0, 0, 1, 2]);
    // What stands behind the list's entries doesn't count, nor does a fault of other lists.
    assert_eq!(lent.at(0, 3, NOT_TOUCHED), [0; 6]);
    lent.table(9, Kind::Ttbl, 9, 9);
    assert_eq!(lent.at(0, 3, 200), [0, 0, 0, 0, 1, 1]);

    // By key it is the lowest too.
    let mut lent = Lent::new(6);
    lent.provider(5).event(1, 200);
    lent.table(0, Kind::Evnt, 0, 1).table(0, Kind::Ttbl, 0, 3);
    lent.template(0, 100, 1);
    lent.template(0, 200, 2).template(0, 200, 3);
    assert_eq!(lent.guids(4), ([0, 0, 0, 0, 1], vec![2]));
}

#[test]
fn another_providers_at_the_offset() {
    let mut lent = Lent::new(6);
    lent.template(3, 200, 1).template(0, 100, 2);
    lent.template(7, 200, 3).template(3, 200, 4);
    // It is no match, and the search goes on behind it.
    assert_eq!(lent.of(7, 0, 4, 200), [0, 0, 0, 0, 1, 2]);
    assert_eq!(lent.of(3, 1, 3, 200), [0, 0, 0, 0, 1, 3]);
    assert_eq!(lent.of(3, 0, 4, 200), [0, 0, 0, 0, 1, 0]);
    assert_eq!(lent.of(0, 0, 4, 200), [0; 6]);
    assert_eq!(lent.of(0, 0, 4, 100), [0, 0, 0, 0, 1, 1]);
    // Not one of these providers is there: the number is compared, no more.
    *lent.word(List::Templates, 1, 0) = u32::MAX;
    assert_eq!(lent.of(u32::MAX, 0, 4, 100), [0, 0, 0, 0, 1, 1]);
    assert_eq!(lent.of(0, 0, 4, 100), [0; 6]);
    // Nor is a template's place its provider's number.
    assert_eq!(lent.of(200, 0, 4, 3), [0; 6]);
}

#[test]
fn another_providers_in_a_range() {
    // Word 0 of template 1, which provider 1's first TTBL has.
    let mut lent = lists();
    for other in [0, 2, u32::MAX] {
        *lent.word(List::Templates, 1, 0) = other;
        assert_eq!(lent.guids(8), refused(10));
        // 10 comes before 9, and whatever provider is asked for.
        assert_eq!(lent.guids(0), refused(10));
        *lent.word(List::Providers, 1, 0) = 99;
        assert_eq!(lent.guids(8), refused(10));
        *lent.word(List::Providers, 1, 0) = 5;
        // 8 comes before it.
        let words = lent.words.len();
        lent.words.truncate(words - 2);
        assert_eq!(lent.guids(8), refused(8));
        lent.words.resize(words, NOT_TOUCHED);
    }
    // The first and the last of a range are in it, those beside it are not.
    for (number, code) in [(0, 0), (1, 10), (2, 10), (3, 10)] {
        let mut lent = lists();
        *lent.word(List::Tables, 0, 6) = 0;
        *lent.word(List::Templates, number, 0) = 7;
        assert_eq!(lent.guids(8).0[0], code);
    }
    // A table that isn't used: of another provider, and a provider's second.
    for (provider, first, code) in [(0, 0, 0), (0, 1, 10), (1, 0, 10), (1, 3, 0)] {
        let mut lent = lists();
        lent.table(provider, Kind::Ttbl, first, 1);
        assert_eq!(lent.guids(8).0[0], code);
        // An empty range has none.
        *lent.word(List::Tables, 4, 6) = 0;
        assert_eq!(lent.guids(8).1, [70, 71]);
        // Only a TTBL's is one of templates.
        *lent.word(List::Tables, 4, 1) = Kind::Evnt as u32;
        *lent.word(List::Tables, 4, 5) = 0;
        *lent.word(List::Tables, 4, 6) = 3;
        assert_eq!(lent.guids(8).1, [70, 71]);
    }
    // A template in no table's range.
    let mut lent = lists();
    lent.template(7, 200, 73);
    assert_eq!(lent.guids(8).1, [70, 71]);
    // A range that two tables of one provider have.
    lent.table(1, Kind::Ttbl, 1, 3).table(1, Kind::Ttbl, 2, 2);
    assert_eq!(lent.guids(8).1, [70, 71]);
}

#[test]
fn faults_of_a_range() {
    let lent = lists();
    let refused = [10, 0, 0, 0, 0, 0];
    let most = u32::MAX;
    for (first, count) in [(0, 5), (4, 1), (5, 0), (most, 0), (0, most), (most, most)] {
        assert_eq!(lent.at(first, count, 100), refused);
    }
    assert_eq!(lent.at(1, most, 100), refused, "without wrapping");
}

#[test]
fn counts_over_their_capacities() {
    for list in List::all() {
        let mut lent = lists();
        lent.counts = lent.counts.with(list, 7);
        assert_eq!(lent.at(0, 1, 100), [10, 0, 0, 0, 0, 0]);
        assert_eq!(lent.guids(8), refused(10));
    }
    // The smallest input of docs/DIFFERENCES.md.
    let mut none = Lent::new(0);
    none.words.clear();
    assert_eq!(none.at(0, 0, 0), [0; 6]);
    assert_eq!(none.guids(0), refused(0));
    none.counts = none.counts.with(List::Unknown2, 1);
    assert_eq!(none.at(0, 0, 0), [10, 0, 0, 0, 0, 0]);
    assert_eq!(none.guids(0), refused(10));
}

#[test]
fn lendings_that_are_refused() {
    let mut few = lists();
    few.words.pop();
    assert_eq!(few.at(0, 1, 100), [0, 0, 0, 0, 1, 0]);
    assert_eq!(few.guids(8).1, [70, 71]);
    few.words.pop();
    // 8 comes before 10.
    for wrong in [few.counts, Capacities::each(7)] {
        few.counts = wrong;
        assert_eq!(few.at(0, 1, 100), [8, 0, 0, 0, 0, 0]);
        assert_eq!(few.guids(8), refused(8));
    }
    for list in List::all() {
        let mut much = lists();
        much.capacities = much.capacities.with(list, 65_537);
        much.words.resize(16 * 65_537 + 1_000, 0);
        assert_eq!(much.at(0, 1, 100), [8, 0, 0, 0, 0, 0]);
        assert_eq!(much.guids(8), refused(8));
    }
    let much = 4 * 65_536 + 3;
    assert_eq!(lists().guids(much).1, [70, 71]);
    assert_eq!(lists().guids(much + 1), refused(8));
}

#[test]
fn lengths_of_the_calls() {
    let lent = lists();
    let right = List::all().len();
    let others = [0, right - 1, right + 1];
    let at = |capacities, counts, numbers: usize| {
        let mut answer = [99; 7];
        let code = raw::ducat_template_at(
            &lent.words,
            &cut(&lent.capacities, capacities),
            &cut(&lent.counts, counts),
            0,
            0,
            1,
            100,
            &mut answer[..numbers],
        );
        (code, answer)
    };
    assert_eq!(at(right, right, 6), (0, [0, 0, 0, 0, 1, 0, 99]));
    for other in others {
        assert_eq!(at(other, right, 6), (8, [8, 0, 0, 0, 0, 0, 99]));
        assert_eq!(at(right, other, 6), (8, [8, 0, 0, 0, 0, 0, 99]));
    }
    for other in [0, 5, 7] {
        assert_eq!(at(right, right, other), (8, [99; 7]));
    }

    let long = [KEY.as_slice(), &[0]].concat();
    let by_key = |capacities, counts, key, numbers: usize| {
        let mut answer = [99; 6];
        let mut guids = [NOT_TOUCHED; 8];
        let code = raw::ducat_templates_for(
            &lent.words,
            &cut(&lent.capacities, capacities),
            &cut(&lent.counts, counts),
            &long[..key],
            &mut guids,
            &mut answer[..numbers],
        );
        assert!(code == 0 || guids == [NOT_TOUCHED; 8]);
        (code, answer)
    };
    assert_eq!(by_key(right, right, 12, 5), (0, [0, 0, 0, 0, 2, 99]));
    for other in others {
        assert_eq!(by_key(other, right, 12, 5), (8, [8, 0, 0, 0, 0, 99]));
        assert_eq!(by_key(right, other, 12, 5), (8, [8, 0, 0, 0, 0, 99]));
    }
    for other in [0, 11, 13] {
        assert_eq!(by_key(right, right, other, 5), (8, [8, 0, 0, 0, 0, 99]));
    }
    for other in [0, 4, 6] {
        assert_eq!(by_key(right, right, 12, other), (8, [99; 6]));
    }
}

#[test]
fn room_for_the_guids() {
    let lent = lists();
    for (words, capacity) in [(0, 0), (3, 0), (4, 1), (7, 1)] {
        let short = [9, 0, 11, capacity, 0];
        assert_eq!(lent.guids(words), (short, Vec::new()));
    }
    for words in [8, 9, 40] {
        assert_eq!(lent.guids(words), ([0, 0, 0, 0, 2], vec![70, 71]));
    }
}

#[test]
fn ranges_of_two_providers() {
    // Provider 0 has template 0, provider 2 the others; provider 1 has another GUID.
    let with_events = |tables: [(u32, u32); 2]| {
        let mut lent = Lent::new(6);
        lent.provider(5).provider(6).provider(5);
        lent.table(2, Kind::Ttbl, 1, 3).table(0, Kind::Ttbl, 0, 1);
        lent.table(1, Kind::Evnt, 0, 4);
        for (provider, (first, count)) in [2, 0].into_iter().zip(tables) {
            lent.table(provider, Kind::Evnt, first, count);
        }
        lent.event(1, 50).event(1, 90).event(1, 76).event(1, 60);
        lent.template(0, 50, 5).template(2, 76, 8);
        lent.template(2, 60, 5).template(2, 90, 9);
        lent
    };
    let apart = with_events([(2, 2), (0, 2)]);
    assert_eq!(apart.guids(8), ([0, 0, 0, 0, 2], vec![5, 8]));
    assert_eq!(apart.guids(7), ([9, 0, 11, 1, 0], Vec::new()));
    // One range for both is gone through for each, in its own templates.
    let shared = with_events([(0, 4), (0, 4)]);
    assert_eq!(shared.guids(12), ([0, 0, 0, 0, 3], vec![5, 9, 8]));
    assert_eq!(shared.guids(11), ([9, 0, 11, 2, 0], Vec::new()));
    // The last provider alone; the first alone.
    let last = with_events([(0, 4), (0, 0)]);
    assert_eq!(last.guids(12).1, [9, 8, 5]);
    let first = with_events([(0, 0), (0, 4)]);
    assert_eq!(first.guids(12).1, [5]);
}

#[test]
fn tables_that_do_not_fit() {
    let kinds = [
        (Kind::Chan, List::Definitions),
        (Kind::Evnt, List::Events),
        (Kind::Keyw, List::Definitions),
        (Kind::Levl, List::Definitions),
        (Kind::Maps, List::Maps),
        (Kind::Opco, List::Definitions),
        (Kind::Task, List::Definitions),
        (Kind::Ttbl, List::Templates),
    ];
    for (kind, list) in kinds {
        // The last table, of a provider that isn't asked for, fits its own list exactly. The one
        // before it too, and of the templates it has those of its provider.
        let mut fitting = lists();
        let count = fitting.counts.of(list);
        let own = u32::from(kind == Kind::Ttbl);
        fitting.table(own, kind, own, count - own);
        fitting.table(0, kind, count, 0);
        assert_eq!(fitting.guids(8).1, [70, 71]);
        let faults = [
            (0, 2),
            (5, count + 1),
            (6, 1),
            (1, 0),
            (1, 9),
            (1, u32::MAX),
        ];
        for (word, value) in faults {
            let mut lent = fitting.clone();
            *lent.word(List::Tables, 5, word) = value;
            assert_eq!(lent.guids(8), refused(10), "{kind:?}: word {word}");
            // 10 comes before 9, and whatever provider is asked for.
            assert_eq!(lent.guids(0), refused(10));
            *lent.word(List::Providers, 1, 0) = 99;
            assert_eq!(lent.guids(8), refused(10));
        }
        // Without wrapping.
        let mut lent = fitting.clone();
        *lent.word(List::Tables, 5, 5) = u32::MAX;
        *lent.word(List::Tables, 5, 6) = 1;
        assert_eq!(lent.guids(8), refused(10));
    }
}

#[test]
fn the_first_table_of_a_kind() {
    let mut lent = Lent::new(6);
    lent.provider(5);
    lent.table(0, Kind::Ttbl, 1, 1).table(0, Kind::Evnt, 1, 1);
    lent.table(0, Kind::Evnt, 0, 1).table(0, Kind::Ttbl, 0, 2);
    lent.event(1, 100).event(1, 200);
    lent.template(0, 100, 70).template(0, 200, 71);
    lent.template(1, 100, 72);
    assert_eq!(lent.guids(8).1, [71]);
    // Another provider's tables before them don't matter.
    *lent.word(List::Tables, 0, 0) = 1;
    *lent.word(List::Tables, 0, 5) = 2;
    *lent.word(List::Tables, 1, 0) = 1;
    lent.provider(6);
    assert_eq!(lent.guids(8).1, [70]);
}

#[test]
fn a_provider_without_events_before() {
    let mut lent = lists();
    *lent.word(List::Providers, 0, 0) = 5;
    assert_eq!(lent.guids(8).1, [70, 71]);
    // Nor has the other one any, then.
    *lent.word(List::Tables, 1, 0) = 0;
    *lent.word(List::Tables, 1, 6) = 0;
    assert_eq!(lent.guids(8), refused(0));
    // Its events, in templates of its own.
    *lent.word(List::Tables, 1, 6) = 3;
    assert_eq!(lent.guids(8), refused(0));
    *lent.word(List::Templates, 0, 1) = 200;
    assert_eq!(lent.guids(8).1, [60]);
}

//! The library's lookups, held against what the original finds.

use std::collections::{BTreeMap, BTreeSet};

use answers::Answer;
use answers::joins::{Accepted, Key, Words};
use answers::lists::{
    DEFINITIONS, EVENTS, GUIDS, LISTS, MAPS, PROVIDERS, ROWS, TABLES, TEMPLATES, areas, row_of,
};
use ducatfeather::raw;
use generator::Rng;

/// How many comparisons of entries the keys or offsets of one blob may take, about. All are asked
/// for of blobs with at most 2,000 events, and templates.
const MOST: usize = 16_000_000;

/// The list that has a table's entries, for each kind of table; the kinds are counted from 1.
const OF_KIND: [u32; 8] = [
    DEFINITIONS,
    EVENTS,
    DEFINITIONS,
    DEFINITIONS,
    MAPS,
    DEFINITIONS,
    DEFINITIONS,
    TEMPLATES,
];

#[derive(Default)]
pub struct Totals {
    /// Blobs that an event has a template in.
    pub blobs: u64,
    /// Keys that were asked for, those with templates, and those with several.
    pub keys: u64,
    pub given: u64,
    pub several: u64,
    /// Those with templates in blobs where two providers have the same GUID; those that get them
    /// from several providers; those that get a GUID from several; and those that get none from
    /// the first provider with their GUID.
    pub repeated: u64,
    pub shared: u64,
    pub twice: u64,
    pub later: u64,
    /// Offsets that were asked for, those of a template, and those of one that stands behind
    /// another provider's at the same offset.
    pub offsets: u64,
    pub found: u64,
    pub behind: u64,
    /// All lookups.
    pub by_code: [u64; 11],
}

impl Totals {
    pub fn add(&mut self, other: &Totals) {
        self.blobs += other.blobs;
        self.keys += other.keys;
        self.given += other.given;
        self.several += other.several;
        self.repeated += other.repeated;
        self.shared += other.shared;
        self.twice += other.twice;
        self.later += other.later;
        self.offsets += other.offsets;
        self.found += other.found;
        self.behind += other.behind;
        for (mine, theirs) in self.by_code.iter_mut().zip(other.by_code) {
            *mine += theirs;
        }
    }

    /// A key with so many templates, by what each provider alone gives.
    fn add_repeated(
        &mut self,
        accepted: &Accepted,
        apart: &[BTreeMap<Key, Vec<Words>>],
        key: &Key,
        given: usize,
    ) {
        let each: Vec<usize> = apart
            .iter()
            .filter_map(|index| index.get(key).map(Vec::len))
            .collect();
        let first = accepted.first_with(&key[..4]);
        let from_first = first.is_some_and(|first| apart[first].contains_key(key));
        self.repeated += 1;
        self.shared += u64::from(each.len() > 1);
        self.twice += u64::from(each.iter().sum::<usize>() > given);
        self.later += u64::from(!from_first);
    }

    /// What never came.
    pub fn missing(&self) -> Vec<String> {
        let sorts = [
            (self.shared, "a key with templates of several providers"),
            (self.twice, "a key with a GUID from several providers"),
            (self.later, "a key with templates of a later provider alone"),
            (
                self.behind,
                "a template behind another provider's at its offset",
            ),
        ];
        let none = sorts.into_iter().filter(|(times, _)| *times == 0);
        none.map(|(_, sort)| sort.to_string()).collect()
    }
}

/// What a reading was lent, and left.
pub struct Lists<'a> {
    pub words: &'a [u32],
    pub capacities: [u32; LISTS],
    pub counts: [u32; LISTS],
}

impl Lists<'_> {
    /// Where a list's area starts.
    pub fn area(&self, list: u32) -> usize {
        areas(&self.capacities[..row_of(list)])
    }

    /// How many entries a list has.
    pub fn count(&self, list: u32) -> u32 {
        self.counts[row_of(list)]
    }
}

/// Looks up with the library. Keeps its memory from one lookup to the next.
#[derive(Default)]
pub struct Joiner {
    guids: Vec<u32>,
    salt: u32,
    pub totals: Totals,
}

impl Joiner {
    /// Looks up in the lists of an accepted blob, and says how the library differs.
    pub fn join(
        &mut self,
        lists: &Lists,
        blob: &[u8],
        found: &Answer,
        rng: &mut Rng,
    ) -> Result<(), String> {
        let accepted = Accepted::new(blob);
        let index = accepted.index();
        let apart = if accepted.repeats_a_guid() {
            accepted.apart()
        } else {
            Vec::new()
        };
        self.totals.blobs += u64::from(!index.is_empty());
        for key in keys(found, &index, rng) {
            let guids = index.get(&key).map_or(&[][..], Vec::as_slice);
            self.by_key(lists, &key, guids, rng)?;
            self.totals.keys += 1;
            self.totals.given += u64::from(!guids.is_empty());
            self.totals.several += u64::from(guids.len() > 1);
            if !apart.is_empty() && !guids.is_empty() {
                self.totals
                    .add_repeated(&accepted, &apart, &key, guids.len());
            }
        }
        self.by_offsets(lists, found, &accepted, rng)?;
        self.refusals(lists, found, rng)
    }

    /// With just the room that is needed, with more, and with too little.
    fn by_key(
        &mut self,
        lists: &Lists,
        key: &Key,
        guids: &[Words],
        rng: &mut Rng,
    ) -> Result<(), String> {
        let given = [0, 0, 0, 0, guids.len() as u64];
        self.look_up(lists, key, 4 * guids.len(), given, guids)?;
        let more = rng.between(1, 13);
        self.look_up(lists, key, 4 * guids.len() + more, given, guids)?;
        if !guids.is_empty() {
            let room = rng.below(guids.len());
            let short = [9, 0, GUIDS.into(), room as u64, 0];
            self.look_up(lists, key, 4 * room + rng.below(4), short, &[])?;
        }
        Ok(())
    }

    /// Lends so many words; the answer and all of them must come out so.
    fn look_up(
        &mut self,
        lists: &Lists,
        key: &[u32],
        lent: usize,
        expected: [u64; raw::GUIDS_NUMBERS],
        guids: &[Words],
    ) -> Result<(), String> {
        self.totals.by_code[expected[0] as usize] += 1;
        self.salt = self.salt.wrapping_add(0x9e37_79b9);
        let salt = self.salt;
        let pattern = move |i: usize| (i as u32).wrapping_mul(0x85eb_ca6b) ^ salt;
        self.guids.clear();
        self.guids.extend((0..lent).map(pattern));
        let mut answer = [u64::from(salt); raw::GUIDS_NUMBERS];
        let code = raw::ducat_templates_for(
            lists.words,
            &lists.capacities,
            &lists.counts,
            key,
            &mut self.guids,
            &mut answer,
        );
        let written = guids.iter().flatten().copied();
        let kept = (4 * guids.len()..lent).map(pattern);
        if answer != expected
            || u64::from(code) != expected[0]
            || !written.chain(kept).eq(self.guids.iter().copied())
        {
            return Err(format!(
                "for the key {key:?}, with {lent} words lent, the library gives {code}, answers \
                 {answer:?} instead of {expected:?}, and leaves {:?} where {guids:?} are right",
                self.guids
            ));
        }
        Ok(())
    }

    /// The templates of each provider's TTBL: at their own offsets, at those that its events name,
    /// and a little beside them. In the TTBL's range, and in all of them, where other providers'
    /// may stand before them; and by another provider's number, or one that none has.
    fn by_offsets(
        &mut self,
        lists: &Lists,
        found: &Answer,
        accepted: &Accepted,
        rng: &mut Rng,
    ) -> Result<(), String> {
        for table in found.entries(TABLES).filter(|table| table[1] == 8) {
            let [provider, first, count] = [table[0], table[5], table[6]];
            let mut offsets = vec![0, rng.word()];
            offsets.extend(part(found, TEMPLATES, first, count).map(|template| template[1]));
            let tables = found.entries(TABLES);
            for events in tables.filter(|t| t[0] == provider && t[1] == 2) {
                offsets.extend(part(found, EVENTS, events[5], events[6]).map(|event| event[9]));
            }
            some(&mut offsets, count, rng);
            let beside = rng.pick(&offsets).wrapping_add(rng.pick(&[1, u32::MAX]));
            offsets.push(beside);
            let all = lists.count(TEMPLATES);
            let none = [0; raw::TEMPLATE_NUMBERS];
            for offset in offsets {
                let expected = match accepted.template_at(provider as usize, offset) {
                    Some(at) => [0, 0, 0, 0, 1, u64::from(first) + at as u64],
                    None => none,
                };
                self.look_at(lists, [provider, first, count, offset], expected)?;
                self.look_at(lists, [provider, 0, all, offset], expected)?;
                let other = other_than(provider, lists.count(PROVIDERS), rng);
                self.look_at(lists, [other, first, count, offset], none)?;
                self.totals.offsets += 1;
                self.totals.found += expected[4];
                let mut before = part(found, TEMPLATES, 0, first);
                let passed = expected[4] == 1 && before.any(|template| template[1] == offset);
                self.totals.behind += u64::from(passed);
            }
        }
        Ok(())
    }

    /// Looks a provider's template up in a range of `TEMPLATES`; the answer must come out so.
    fn look_at(
        &mut self,
        lists: &Lists,
        [provider, first, count, offset]: [u32; 4],
        expected: [u64; raw::TEMPLATE_NUMBERS],
    ) -> Result<(), String> {
        self.totals.by_code[expected[0] as usize] += 1;
        let mut answer = [u64::MAX; raw::TEMPLATE_NUMBERS];
        let code = raw::ducat_template_at(
            lists.words,
            &lists.capacities,
            &lists.counts,
            provider,
            first,
            count,
            offset,
            &mut answer,
        );
        if answer != expected || u64::from(code) != expected[0] {
            return Err(format!(
                "of provider {provider} at the offset {offset}, in {count} entries from {first} on, \
                 the library gives {code} and answers {answer:?} instead of {expected:?}"
            ));
        }
        Ok(())
    }

    /// Lookups that must be refused, whatever is looked for.
    fn refusals(&mut self, lists: &Lists, found: &Answer, rng: &mut Rng) -> Result<(), String> {
        // A count over its capacity; with a word too few as well, 8 comes first.
        let mut counts = lists.counts;
        let list = rng.below(LISTS);
        counts[list] = over(lists.capacities[list], rng);
        let mut apart = Lists { counts, ..*lists };
        self.refused(&apart, found, 10, rng)?;
        self.look_at(&apart, [0; 4], [10, 0, 0, 0, 0, 0])?;
        let needed = areas(&lists.capacities);
        if needed > 0 {
            apart.words = &lists.words[..needed - 1];
            self.refused(&apart, found, 8, rng)?;
            self.look_at(&apart, [0; 4], [8, 0, 0, 0, 0, 0])?;
        }

        // A range past the templates.
        let templates = lists.count(TEMPLATES);
        let first = rng.below(templates as usize + 2) as u32;
        let count = match templates.checked_sub(first) {
            Some(left) => over(left, rng),
            None => rng.word(),
        };
        let past = [rng.below(3) as u32, first, count, rng.word()];
        self.look_at(lists, past, [10, 0, 0, 0, 0, 0])?;

        // A table that names a provider, a kind or entries that are not there. The words are copied.
        let tables = lists.count(TABLES) as usize;
        if tables > 0 && lists.words.len() < 100_000 {
            let mut words = lists.words.to_vec();
            let length = ROWS[row_of(TABLES)].words;
            let start = lists.area(TABLES) + length * rng.below(tables);
            let table = &mut words[start..start + length];
            let entries = lists.count(OF_KIND[table[1] as usize - 1]);
            match rng.below(4) {
                0 => table[0] = over(lists.count(PROVIDERS) - 1, rng),
                1 => table[1] = rng.pick(&[0, 9, u32::MAX]),
                2 => table[5] = over(entries - table[6], rng),
                _ => table[6] = over(entries - table[5], rng),
            }
            let words = &words;
            self.refused(&Lists { words, ..*lists }, found, 10, rng)?;
        }

        // A template with another provider's number: each is in a TTBL's range.
        if templates > 0 && lists.words.len() < 100_000 {
            let mut words = lists.words.to_vec();
            let number = rng.below(templates as usize);
            let provider =
                &mut words[lists.area(TEMPLATES) + ROWS[row_of(TEMPLATES)].words * number];
            *provider = other_than(*provider, lists.count(PROVIDERS), rng);
            let words = &words;
            self.refused(&Lists { words, ..*lists }, found, 10, rng)?;
        }
        Ok(())
    }

    /// By key: one of an event, if there is any, and of the first provider.
    fn refused(
        &mut self,
        lists: &Lists,
        found: &Answer,
        code: u64,
        rng: &mut Rng,
    ) -> Result<(), String> {
        let first = |list| found.entries(list).next();
        let key = match (first(PROVIDERS), first(EVENTS)) {
            (Some(provider), Some(event)) => key_of(provider, event),
            _ => std::array::from_fn(|_| rng.word()),
        };
        self.look_up(lists, &key, rng.below(9), [code, 0, 0, 0, 0], &[])
    }
}

/// Another number than a provider's, where there are so many: another provider's, or any.
fn other_than(provider: u32, providers: u32, rng: &mut Rng) -> u32 {
    if providers > 1 && rng.chance(50) {
        let more = rng.between(1, providers as usize - 1) as u32;
        return (provider + more) % providers;
    }
    provider.wrapping_add(rng.word().max(1))
}

/// A number over this one.
fn over(number: u32, rng: &mut Rng) -> u32 {
    let more = if rng.chance(50) { 0 } else { rng.word() };
    (number + 1).saturating_add(more)
}

/// The keys to ask for: those of the original's index, those of all events, and of each one nearby.
fn keys(found: &Answer, index: &BTreeMap<Key, Vec<Words>>, rng: &mut Rng) -> Vec<Key> {
    let providers: Vec<&[u32]> = found.entries(PROVIDERS).collect();
    let mut all: BTreeSet<Key> = index.keys().copied().collect();
    for table in found.entries(TABLES).filter(|table| table[1] == 2) {
        let provider = providers[table[0] as usize];
        let events = part(found, EVENTS, table[5], table[6]);
        all.extend(events.map(|event| key_of(provider, event)));
    }
    let mut keys: Vec<Key> = all.into_iter().collect();
    some(&mut keys, found.counts()[row_of(EVENTS)] as u32, rng);
    for i in 0..keys.len() {
        let mut near = keys[i];
        match rng.below(4) {
            0 => near[..4].copy_from_slice(&rng.pick(&providers)[..4]),
            1 => near[4 + rng.below(8)] ^= 1 << rng.below(8),
            _ => near[rng.below(12)] ^= 1 << rng.below(32),
        }
        keys.push(near);
    }
    keys
}

fn key_of(provider: &[u32], event: &[u32]) -> Key {
    std::array::from_fn(|i| if i < 4 { provider[i] } else { event[i - 4] })
}

/// All of them, or some if looking each up among so many entries takes too long.
fn some<T>(items: &mut Vec<T>, entries: u32, rng: &mut Rng) {
    let most = MOST / (entries as usize + 1);
    if items.len() > most {
        rng.shuffle(items);
        items.truncate(most);
    }
}

/// So many of a list's entries, from one on.
pub fn part(found: &Answer, list: u32, first: u32, count: u32) -> impl Iterator<Item = &[u32]> {
    let entries = found.entries(list);
    entries.skip(first as usize).take(count as usize)
}

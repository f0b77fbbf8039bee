//! What the original finds when it joins events to templates.

use std::collections::{BTreeMap, BTreeSet, HashMap};

use ::amended::wevt_templates::manifest::CrimManifest;

use crate::amended::convert::guid;

/// A provider's GUID (4 words), identifier, version, channel, level, opcode, task, keywords low,
/// high.
pub type Key = [u32; 12];

/// A GUID's words.
pub type Words = [u32; 4];

/// A blob that the original accepts.
pub struct Accepted<'a> {
    manifest: CrimManifest<'a>,
}

impl<'a> Accepted<'a> {
    /// The blob must be one of code 0.
    pub fn new(blob: &'a [u8]) -> Accepted<'a> {
        let manifest = CrimManifest::parse(blob).expect("an accepted blob");
        Accepted { manifest }
    }

    /// Whether two providers have the same GUID.
    pub fn repeats_a_guid(&self) -> bool {
        let providers = &self.manifest.providers;
        let different: BTreeSet<Words> = providers.iter().map(|p| guid(p.guid)).collect();
        different.len() < providers.len()
    }

    /// The original's index.
    pub fn index(&self) -> BTreeMap<Key, Vec<Words>> {
        index(&self.manifest)
    }

    /// What it would be with one provider alone, for each provider.
    pub fn apart(&self) -> Vec<BTreeMap<Key, Vec<Words>>> {
        let mut alone = self.manifest.clone();
        let providers = self.manifest.providers.iter();
        let each = providers.map(|provider| {
            alone.providers = vec![provider.clone()];
            index(&alone)
        });
        each.collect()
    }

    /// The first provider with a GUID.
    pub fn first_with(&self, words: &[u32]) -> Option<usize> {
        let mut providers = self.manifest.providers.iter();
        providers.position(|p| guid(p.guid) == words)
    }

    /// Which of a provider's templates the original finds at an offset, counted from its first.
    pub fn template_at(&self, provider: usize, offset: u32) -> Option<usize> {
        let provider = &self.manifest.providers[provider];
        let found = provider.template_by_offset(offset)?;
        let templates = &provider.wevt.elements.templates.as_ref()?.templates;
        templates.iter().position(|t| std::ptr::addr_eq(t, found))
    }
}

fn index(manifest: &CrimManifest) -> BTreeMap<Key, Vec<Words>> {
    // The original has a provider's GUID as text in its keys.
    let providers = manifest.providers.iter();
    let by_text: HashMap<String, Words> = providers
        .map(|p| (p.guid.to_string(), guid(p.guid)))
        .collect();
    let index = manifest.build_index();
    let by_key = index.event_to_template_guids.into_iter();
    by_key
        .map(|(key, guids)| {
            let [a, b, c, d] = by_text[&key.provider_guid];
            let words = [
                a,
                b,
                c,
                d,
                key.event_id.into(),
                key.version.into(),
                key.channel.into(),
                key.level.into(),
                key.opcode.into(),
                key.task.into(),
                key.keywords as u32,
                (key.keywords >> 32) as u32,
            ];
            (words, guids.into_iter().map(guid).collect())
        })
        .collect()
}

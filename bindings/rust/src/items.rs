//! The items of a template.

use std::fmt;

use crate::entries::Entries;
use crate::entry::{Item, Template};
use crate::list::List;
use crate::parts::{Name, Part};
use crate::words::Source;

/// What a template finds its items by. They are compared and shown as if they stood in it.
#[derive(Clone, Copy)]
pub(crate) struct ItemsOf<'a> {
    /// The template's number.
    pub template: u32,
    /// How many items it has.
    pub count: usize,
    pub source: Source<'a>,
}

impl<'a> ItemsOf<'a> {
    fn find(&self) -> Entries<'a, Item<'a>> {
        let all = self.source.items;
        // The items stand by their templates' numbers, which are their first words.
        let (entries, _) = all.as_chunks::<{ List::Items.words() }>();
        let first = entries.partition_point(|entry| entry[0] < self.template);
        Entries::new(all, self.source).part(first..first + self.count)
    }
}

impl PartialEq for ItemsOf<'_> {
    fn eq(&self, other: &Self) -> bool {
        self.find().eq(other.find())
    }
}

impl Eq for ItemsOf<'_> {}

impl fmt::Debug for ItemsOf<'_> {
    fn fmt(&self, f: &mut fmt::Formatter<'_>) -> fmt::Result {
        f.debug_list().entries(self.find()).finish()
    }
}

impl Item<'_> {
    /// Its name, out of the block itself: as the field of this name has it, but for as long as the
    /// block is lent, not only as long as what was read of it. Nothing if it has none.
    ///
    /// ```
    /// # let blob = std::fs::read("../../samples/drive.crim")?;
    /// let names: Vec<_> = {
    ///     let manifest = ducatfeather::read(&blob)?;
    ///     manifest.items().filter_map(|item| item.name(&blob)).collect()
    /// };
    /// assert!(names.iter().any(|name| *name == "Metres"));
    /// # Ok::<(), Box<dyn std::error::Error>>(())
    /// ```
    ///
    /// These bytes are meant to be the block that was read. Of others it is what stands at the
    /// name's place, and nothing if they end before; whether it ended is told of the block that
    /// was read.
    pub fn name<'b>(&self, blob: &'b [u8]) -> Option<Name<'b>> {
        let Name { part, ended } = self.name?;
        let Part { start, bytes } = part;
        let bytes = blob.get(start as usize..)?.get(..bytes.len())?;
        Some(Name {
            part: Part { start, bytes },
            ended,
        })
    }
}

impl<'a> Template<'a> {
    /// Its items, in the order of the block.
    pub fn items(&self) -> Entries<'a, Item<'a>> {
        self.items.find()
    }

    /// Its item of this name; the first one, if there are several. Upper and lower case are not
    /// the same. Names go by their text, whether they ended or ran out: [`Name::ended`] tells
    /// which, and one that ran out may be the start of another name.
    ///
    /// ```
    /// # let blob = std::fs::read("../../samples/drive.crim")?;
    /// # let manifest = ducatfeather::read(&blob)?;
    /// # let template = manifest.templates().nth(3).ok_or("no such template")?;
    /// let metres = template.item_named("Metres").ok_or("no metres")?;
    /// // Which of the template's items it is, counted from 0.
    /// let place = template.items().position(|item| item == metres);
    /// # assert_eq!(place, Some(2));
    /// # Ok::<(), Box<dyn std::error::Error>>(())
    /// ```
    pub fn item_named(&self, name: &str) -> Option<Item<'a>> {
        self.items()
            .find(|item| item.name.is_some_and(|own| own == name))
    }
}

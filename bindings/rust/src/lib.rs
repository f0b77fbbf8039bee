//! Reads CRIM blocks: what a block holds, entry by entry, or why it is refused. Finds templates in
//! what was read, and keeps an index of its events.
//!
//! ```
//! # let blob = std::fs::read("../../samples/drive.crim").unwrap();
//! match ducatfeather::read(&blob) {
//!     Ok(manifest) => {
//!         for template in manifest.templates() {
//!             println!("{} at {}", template.guid, template.offset);
//!         }
//!     }
//!     Err(refusal) => println!("{refusal}"),
//! }
//! ```
//!
//! An event in a log is joined to its template by its key. More than one provider of a block may
//! have the event's GUID: all of them are gone through.
//!
//! ```
//! # let blob = std::fs::read("../../samples/drive.crim")?;
//! let manifest = ducatfeather::read(&blob)?;
//! # let guid = manifest.providers().next().unwrap().guid;
//! let key = ducatfeather::Key {
//!     guid, // of the event's provider
//!     event_id: 100,
//!     version: 0,
//!     channel: 16,
//!     level: 4,
//!     opcode: 1,
//!     task: 1,
//!     keywords: 1,
//! };
//! let guids = manifest.templates_for(&key)?;
//! # let [first, .., again, _, _] = &manifest.templates().map(|t| t.guid).collect::<Vec<_>>()[..] else { panic!() };
//! # assert_eq!(guids, [*first, *again]);
//! # Ok::<(), Box<dyn std::error::Error>>(())
//! ```
//!
//! A template's items name the values that its events carry. The metres, say, are found by their
//! name:
//!
//! ```
//! # let blob = std::fs::read("../../samples/drive.crim")?;
//! # let manifest = ducatfeather::read(&blob)?;
//! for template in manifest.templates() {
//!     if let Some(metres) = template.item_named("Metres") {
//!         println!("{}: metres, of type {}", template.guid, metres.input_type);
//!     }
//! }
//! # let having = manifest.templates().filter(|t| t.item_named("Metres").is_some());
//! # assert_eq!(having.count(), 3);
//! # Ok::<(), Box<dyn std::error::Error>>(())
//! ```
//!
//! Logs of one block that are joined day by day need not join it each time: [`Index`] has its
//! events with a template. It knows their providers by number, and has no GUID.
//!
//! Reading and finding are done by the library that this crate is linked with; here its words are
//! only given names and types. docs/FORMAT.md says what each of them means.
//!
//! Lists, fields of entries and codes of refusals may be added. The structs and enums that gain by
//! it can't be made elsewhere, and are matched with a `..` or a `_`.

#![deny(missing_docs)]

mod capacities;
mod entries;
mod entry;
mod fields;
mod index;
mod items;
mod key;
mod list;
mod manifest;
mod parts;
pub mod raw;
mod read;
mod refusal;
mod words;

pub use capacities::Capacities;
pub use entries::{Entries, Entry};
pub use entry::{
    Definition, Descriptor, Event, Item, Kind, Map, MapEntry, MapKind, Provider, Table, Template,
    UnknownElement,
};
pub use fields::Field;
pub use index::{Index, IndexEntry};
pub use key::Key;
pub use list::List;
pub use manifest::Manifest;
pub use parts::{Guid, Name, Part, Signature};
pub use read::{needs, read, read_into};
pub use refusal::Refusal;

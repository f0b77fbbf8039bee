//! The library's own functions over slices, with nothing added: for those who lend the words
//! themselves and read them as they stand.

use crate::list::LISTS;

/// How many numbers an answer of `ducat_read` and of `ducat_needs` has: code, field, place, first,
/// second, and a count for each list, so that it rises with the lists.
pub const NUMBERS: usize = 5 + LISTS;

/// The same of `ducat_template_at`: code, place, first, second, whether a template is found (0 or
/// 1), its number.
pub const TEMPLATE_NUMBERS: usize = 6;

/// The same of `ducat_templates_for`: code, place, first, second, how many GUIDs are given.
pub const GUIDS_NUMBERS: usize = 5;

/// The same of `ducat_index_write` and `ducat_index_read`: code, place, first, second, how many bytes
/// or words are given.
pub const INDEX_NUMBERS: usize = 5;

/// The words of a key: GUID (4), event id, version, channel, level, opcode, task, keywords low,
/// high.
pub const KEY_WORDS: usize = 12;

/// The words of a GUID.
pub const GUID_WORDS: usize = 4;

/// The words of an index entry: provider number, event id, version, channel, level, opcode, task,
/// keywords low, high, template offset.
pub const INDEX_ENTRY_WORDS: usize = 10;

mod c {
    unsafe extern "C" {
        // include/ducatfeather.h says the same.
        pub fn ducat_read(
            blob: *const u8,
            blob_len: usize,
            words: *mut u32,
            words_len: usize,
            capacities: *const u32,
            capacities_len: usize,
            answer: *mut u64,
            answer_len: usize,
        ) -> u32;

        pub fn ducat_needs(
            bytes: *const u8,
            bytes_len: usize,
            answer: *mut u64,
            answer_len: usize,
        ) -> u32;

        pub fn ducat_template_at(
            words: *const u32,
            words_len: usize,
            capacities: *const u32,
            capacities_len: usize,
            counts: *const u32,
            counts_len: usize,
            provider: u32,
            first: u32,
            count: u32,
            offset: u32,
            answer: *mut u64,
            answer_len: usize,
        ) -> u32;

        pub fn ducat_templates_for(
            words: *const u32,
            words_len: usize,
            capacities: *const u32,
            capacities_len: usize,
            counts: *const u32,
            counts_len: usize,
            key: *const u32,
            key_len: usize,
            guids: *mut u32,
            guids_len: usize,
            answer: *mut u64,
            answer_len: usize,
        ) -> u32;

        pub fn ducat_index_write(
            words: *const u32,
            words_len: usize,
            capacities: *const u32,
            capacities_len: usize,
            counts: *const u32,
            counts_len: usize,
            bytes: *mut u8,
            bytes_len: usize,
            answer: *mut u64,
            answer_len: usize,
        ) -> u32;

        pub fn ducat_index_read(
            bytes: *const u8,
            bytes_len: usize,
            numbers: *mut u32,
            numbers_len: usize,
            answer: *mut u64,
            answer_len: usize,
        ) -> u32;
    }
}

/// Reads a block into the lent words; gives the code. A capacity for each list and [`NUMBERS`]
/// numbers are expected: any other length of either is code 8, but 7 comes first.
pub fn ducat_read(blob: &[u8], words: &mut [u32], capacities: &[u32], answer: &mut [u64]) -> u32 {
    // SAFETY: each pointer and length are those of a slice, and slices that may be written to
    // overlap with no other. The function is total: it asks for nothing else.
    unsafe {
        c::ducat_read(
            blob.as_ptr(),
            blob.len(),
            words.as_mut_ptr(),
            words.len(),
            capacities.as_ptr(),
            capacities.len(),
            answer.as_mut_ptr(),
            answer.len(),
        )
    }
}

/// Tells what each list of a block needs, as the counts of the answer; gives the code. A number
/// stops rising at 65,537. [`NUMBERS`] numbers are expected: any other length is code 8, but 7
/// comes first.
pub fn ducat_needs(blob: &[u8], answer: &mut [u64]) -> u32 {
    // SAFETY: as above.
    unsafe { c::ducat_needs(blob.as_ptr(), blob.len(), answer.as_mut_ptr(), answer.len()) }
}

/// Finds a provider's lowest template at an offset among the entries of list 9 from `first` on,
/// `count` of them; gives the code. The provider's number is compared with the entries', no more.
/// A capacity and a count for each list and [`TEMPLATE_NUMBERS`] numbers are expected: any other
/// length is code 8.
pub fn ducat_template_at(
    words: &[u32],
    capacities: &[u32],
    counts: &[u32],
    provider: u32,
    first: u32,
    count: u32,
    offset: u32,
    answer: &mut [u64],
) -> u32 {
    // SAFETY: as above.
    unsafe {
        c::ducat_template_at(
            words.as_ptr(),
            words.len(),
            capacities.as_ptr(),
            capacities.len(),
            counts.as_ptr(),
            counts.len(),
            provider,
            first,
            count,
            offset,
            answer.as_mut_ptr(),
            answer.len(),
        )
    }
}

/// Writes the GUIDs of the templates of the events with a key, each once, to the lent list; gives
/// the code. A capacity and a count for each list, [`KEY_WORDS`] words of the key and
/// [`GUIDS_NUMBERS`] numbers are expected: any other length is code 8. About 70 KB of stack are
/// used.
pub fn ducat_templates_for(
    words: &[u32],
    capacities: &[u32],
    counts: &[u32],
    key: &[u32],
    guids: &mut [u32],
    answer: &mut [u64],
) -> u32 {
    // SAFETY: as above.
    unsafe {
        c::ducat_templates_for(
            words.as_ptr(),
            words.len(),
            capacities.as_ptr(),
            capacities.len(),
            counts.as_ptr(),
            counts.len(),
            key.as_ptr(),
            key.len(),
            guids.as_mut_ptr(),
            guids.len(),
            answer.as_mut_ptr(),
            answer.len(),
        )
    }
}

/// Writes the index of every event with a found template to the lent bytes; gives the code. A
/// capacity and a count for each list and [`INDEX_NUMBERS`] numbers are expected: any other length
/// is code 8. Code 9 names list 15 and how many bytes are lent. About 330 KB of stack are used.
pub fn ducat_index_write(
    words: &[u32],
    capacities: &[u32],
    counts: &[u32],
    bytes: &mut [u8],
    answer: &mut [u64],
) -> u32 {
    // SAFETY: as above.
    unsafe {
        c::ducat_index_write(
            words.as_ptr(),
            words.len(),
            capacities.as_ptr(),
            capacities.len(),
            counts.as_ptr(),
            counts.len(),
            bytes.as_mut_ptr(),
            bytes.len(),
            answer.as_mut_ptr(),
            answer.len(),
        )
    }
}

/// Reads an index into the lent words: how many providers, the unknown2 count of each, how many
/// entries, and [`INDEX_ENTRY_WORDS`] words for each of them; gives the code. [`INDEX_NUMBERS`]
/// numbers are expected: any other length is code 8. Code 9 names list 15 and how many words are
/// lent.
pub fn ducat_index_read(bytes: &[u8], numbers: &mut [u32], answer: &mut [u64]) -> u32 {
    // SAFETY: as above.
    unsafe {
        c::ducat_index_read(
            bytes.as_ptr(),
            bytes.len(),
            numbers.as_mut_ptr(),
            numbers.len(),
            answer.as_mut_ptr(),
            answer.len(),
        )
    }
}

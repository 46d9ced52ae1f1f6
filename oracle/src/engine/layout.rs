//! 01, "Memories and numbers": what stands where.

/// "Send RAM 1,024 words of 32 bits".
pub const SEND_WORDS: usize = 1024;
/// "descriptors 0 to 3 in words 0 to 63, 16 words each".
pub const DESCRIPTORS: usize = 4;
pub const DESCRIPTOR_WORDS: usize = 16;
/// "DIO from byte 0x100".
pub const DIO_FROM: u32 = 0x100;
pub const DIO_END: u32 = 0x1000;

/// "Receive RAM 2,048 words".
pub const RECEIVE_WORDS: usize = 2048;
/// "64 slots of 16 words".
pub const SLOTS: u32 = 64;
pub const SLOT_WORDS: usize = 16;
/// "from 1024 64 lists of 2 words (head, token)".
pub const LISTS_FROM: usize = 1024;
pub const LISTS: u32 = 64;
/// "from 1152 NQR, AQR and NBQR, 256 each".
pub const NQR_FROM: usize = 1152;
pub const AQR_FROM: usize = 1408;
pub const NBQR_FROM: usize = 1664;
pub const QUEUE_ENTRIES: u32 = 256;
/// "from 1920 a reader's place per list (H)".
pub const PLACES_FROM: usize = 1920;
/// "the rest zero".
pub const REST_FROM: usize = 1984;

/// "Data memory 0 to 32,768 bytes."
pub const DATA_BYTES_MOST: usize = 32_768;
/// "Notice memory 8 to 2,048 words, a multiple of 8".
pub const NOTICE_WORDS_LEAST: usize = 8;
pub const NOTICE_WORDS_MOST: usize = 2048;
/// "a block is 8 words".
pub const BLOCK_WORDS: usize = 8;
/// "Fault [...] next": word 3 of every kind of notice.
pub const NEXT: usize = 3;

/// The largest number of 24 bits, the bound of sizes, offsets and bytes_to_go.
pub const LARGEST_24: u32 = 16_777_215;

/// "slot at or above the count": a slot of the table, so below 64.
#[derive(Clone, Copy, Debug, PartialEq, Eq)]
pub struct SlotIndex(u32);

impl SlotIndex {
    pub fn new(number: u32) -> Option<SlotIndex> {
        (number < SLOTS).then_some(SlotIndex(number))
    }

    pub fn number(self) -> u32 {
        self.0
    }

    /// The first of the slot's words in Receive RAM.
    pub fn first_word(self) -> usize {
        self.0 as usize * SLOT_WORDS
    }
}

/// "lists by note_index": a list of the table, so below 64.
#[derive(Clone, Copy, Debug, PartialEq, Eq)]
pub struct ListIndex(u32);

impl ListIndex {
    /// "Fault, on list 0".
    pub const FAULTS: ListIndex = ListIndex(0);

    pub fn new(number: u32) -> Option<ListIndex> {
        (number < LISTS).then_some(ListIndex(number))
    }

    pub fn number(self) -> u32 {
        self.0
    }

    pub fn head_word(self) -> usize {
        LISTS_FROM + 2 * self.0 as usize
    }

    pub fn token_word(self) -> usize {
        self.head_word() + 1
    }

    pub fn place_word(self) -> usize {
        PLACES_FROM + self.0 as usize
    }

    pub fn all() -> impl Iterator<Item = ListIndex> {
        (0..LISTS).map(ListIndex)
    }
}

/// "blocks by address": an address of a block wholly inside the notice memory.
#[derive(Clone, Copy, Debug, PartialEq, Eq)]
pub struct BlockAddress(u32);

impl BlockAddress {
    /// "its address a multiple of 32, at least 32, wholly inside".
    pub fn new(address: u32, notice_words: usize) -> Option<BlockAddress> {
        let inside = u64::from(address) + 32 <= 4 * notice_words as u64;
        let is_block = address % 32 == 0 && address >= 32 && inside;
        is_block.then_some(BlockAddress(address))
    }

    pub fn address(self) -> u32 {
        self.0
    }

    /// The notice memory word that holds word `word` of this block.
    pub fn word(self, word: usize) -> usize {
        self.0 as usize / 4 + word
    }
}

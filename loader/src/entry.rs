//! Page table entries, tables of them, levels, and compatibility masks: each operation is the proved library's.

use crate::{ffi, Error};
use core::fmt;
use core::ops::{Index, IndexMut};

/// What a fresh entry is to be, with its address.
#[derive(Debug, Clone, Copy, PartialEq, Eq, Hash)]
pub enum PageTableEntryType {
    /// A leaf that maps 1 GiB.
    Leaf1GbPage(u64),
    /// A leaf that maps 2 MiB.
    Leaf2MbPage(u64),
    /// A leaf that maps 4 KiB.
    Leaf4kPage(u64),
    /// A pointer to a table.
    Pde(u64),
}

/// One page table entry.
///
/// ```
/// use archwend::{Error, PageTableEntry, PageTableEntryType};
///
/// let mut entry = PageTableEntry::default();
/// assert_eq!(entry.gpa(), None);
/// entry.set_entry(PageTableEntryType::Leaf2MbPage(0x200000)).unwrap();
/// assert_eq!(u64::from(entry), 0x2000e3);
/// entry.set_addr(0x400000).unwrap();
/// assert_eq!((entry.gpa(), entry.is_large_page()), (Some(0x400000), true));
/// // What is refused leaves the entry as it was.
/// assert_eq!(entry.set_addr(1).unwrap_err().number, Error::ENTRY);
/// assert_eq!(entry, PageTableEntry::from(0x4000e3));
/// ```
#[derive(Clone, Copy, PartialEq, Eq, Hash, Default)]
#[repr(transparent)]
pub struct PageTableEntry {
    entry: u64,
}

// Safety, of each call here: a pointer is that of a local or of a lent word, and the proved code requires nothing of the numbers.
impl PageTableEntry {
    /// Makes the entry a fresh one: present, writable, accessed, a leaf also dirty, one above 4 KiB also large. The address is a
    /// multiple of what the entry maps, of 4096 for a pointer, and below 2^52; else it is refused with 20.
    pub fn set_entry(&mut self, entry_type: PageTableEntryType) -> Result<(), Error> {
        // The kinds of include/archwend.h.
        let (kind, address) = match entry_type {
            PageTableEntryType::Leaf4kPage(a) => (0, a),
            PageTableEntryType::Leaf2MbPage(a) => (1, a),
            PageTableEntryType::Leaf1GbPage(a) => (2, a),
            PageTableEntryType::Pde(a) => (3, a),
        };
        Error::unless_ok(unsafe { ffi::archwend_set_entry(&mut self.entry, kind, address) })
    }

    /// Sets a table entry's address, bits 51 to 12. One with any other bit is refused with 20. A leaf's is set by
    /// [`PageTableEntry::set_leaf_addr`].
    pub fn set_addr(&mut self, addr: u64) -> Result<(), Error> {
        Error::unless_ok(unsafe { ffi::archwend_set_addr(&mut self.entry, addr) })
    }

    /// The address of a present table entry, bits 51 to 12. A leaf's is read by [`PageTableEntry::leaf_gpa`].
    pub fn gpa(&self) -> Option<u64> {
        let mut gpa = 0;
        let present = unsafe { ffi::archwend_gpa(self.entry, &mut gpa) };
        (present != 0).then_some(gpa)
    }

    /// Sets the address of a leaf of a level: bits 51 to 12, to 21 or to 30, at level 0, 1 or 2. The bits below stay, among them
    /// bit 12 of a large leaf, which is of the memory type (PAT). A level above 2, or an address with any other bit, is refused
    /// with 20.
    ///
    /// ```
    /// use archwend::PageTableEntry;
    ///
    /// let mut leaf = PageTableEntry::from(0x2010e3);
    /// leaf.set_leaf_addr(1, 0x400000)?;
    /// assert_eq!((leaf, leaf.leaf_gpa(1)?), (PageTableEntry::from(0x4010e3), Some(0x400000)));
    /// # Ok::<(), archwend::Error>(())
    /// ```
    pub fn set_leaf_addr(&mut self, level: u64, addr: u64) -> Result<(), Error> {
        Error::unless_ok(unsafe { ffi::archwend_set_leaf_addr(&mut self.entry, level, addr) })
    }

    /// The address of a present leaf of a level. A level above 2 is refused with 20, also where the entry is absent.
    pub fn leaf_gpa(&self, level: u64) -> Result<Option<u64>, Error> {
        let mut gpa = 0;
        match unsafe { ffi::archwend_leaf_gpa(self.entry, level, &mut gpa) } {
            0 => Ok(None),
            1 => Ok(Some(gpa)),
            number => Error::unless_ok(number).map(|()| None),
        }
    }

    /// Whether bit 0 is set.
    pub fn is_present(&self) -> bool {
        unsafe { ffi::archwend_is_present(self.entry) != 0 }
    }

    /// Whether bit 7 is set.
    pub fn is_large_page(&self) -> bool {
        unsafe { ffi::archwend_is_large_page(self.entry) != 0 }
    }

    /// Makes all bits 0.
    pub fn clear(&mut self) {
        unsafe { ffi::archwend_clear(&mut self.entry) }
    }
}

impl From<u64> for PageTableEntry {
    fn from(entry: u64) -> Self {
        PageTableEntry { entry }
    }
}

impl From<PageTableEntry> for u64 {
    fn from(entry: PageTableEntry) -> Self {
        entry.entry
    }
}

impl fmt::Debug for PageTableEntry {
    fn fmt(&self, f: &mut fmt::Formatter<'_>) -> fmt::Result {
        f.debug_struct("PageTableEntry")
            .field("entry", &self.entry)
            .field("is_present", &self.is_present())
            .field("is_large_page", &self.is_large_page())
            .field("gpa", &self.gpa())
            .finish()
    }
}

/// A table: 512 entries.
///
/// ```
/// use archwend::{PageTable, PageTableEntryType};
///
/// let mut table = PageTable::default();
/// table.entry(0x200000, 1)?.set_entry(PageTableEntryType::Leaf2MbPage(0x200000))?;
/// assert_eq!(u64::from(table[1]), 0x2000e3);
/// assert_eq!(table.to_bytes()[8..16], 0x2000e3u64.to_le_bytes());
/// assert_eq!(PageTable::from_bytes(&table.to_bytes()), table);
/// # Ok::<(), archwend::Error>(())
/// ```
#[derive(Debug, Clone, Copy, PartialEq, Eq, Hash)]
#[repr(C)]
pub struct PageTable {
    entries: [PageTableEntry; 512],
}

impl PageTable {
    /// The table in these bytes.
    pub fn from_bytes(bytes: &[u8; 4096]) -> Self {
        let mut table = PageTable::default();
        for (entry, word) in table.iter_mut().zip(bytes.chunks_exact(8)) {
            entry.entry = word.iter().rev().fold(0, |w, b| w << 8 | u64::from(*b));
        }
        table
    }

    /// The bytes of the table: each entry with its lowest byte first.
    pub fn to_bytes(&self) -> [u8; 4096] {
        let mut bytes = [0; 4096];
        for (word, entry) in bytes.chunks_exact_mut(8).zip(self.iter()) {
            word.copy_from_slice(&entry.entry.to_le_bytes());
        }
        bytes
    }

    /// The entries in order.
    pub fn iter(&self) -> impl ExactSizeIterator<Item = &PageTableEntry> {
        self.entries.iter()
    }

    /// The entries in order, to be changed.
    pub fn iter_mut(&mut self) -> impl ExactSizeIterator<Item = &mut PageTableEntry> {
        self.entries.iter_mut()
    }

    /// The entry that maps an address where this is a table of that level. A level above 4 is refused with 20.
    pub fn entry(&mut self, gva: u64, level: u8) -> Result<&mut PageTableEntry, Error> {
        let index = get_amd64_pte_index(gva, level.into())?;
        // It is below 512: that is proved.
        Ok(&mut self.entries[index as usize])
    }
}

impl Default for PageTable {
    fn default() -> Self {
        PageTable { entries: [PageTableEntry::default(); 512] }
    }
}

impl Index<usize> for PageTable {
    type Output = PageTableEntry;

    fn index(&self, index: usize) -> &PageTableEntry {
        &self.entries[index]
    }
}

impl IndexMut<usize> for PageTable {
    fn index_mut(&mut self, index: usize) -> &mut PageTableEntry {
        &mut self.entries[index]
    }
}

/// The bytes that one entry of a level maps. A level above 4 is refused with 20.
pub fn mapping_size(level: u64) -> Result<u64, Error> {
    let mut size = 0;
    Error::unless_ok(unsafe { ffi::archwend_mapping_size(level, &mut size) })?;
    Ok(size)
}

/// Which entry of a level's table maps an address. A level above 4 is refused with 20.
pub fn get_amd64_pte_index(gva: u64, page_map_level: u64) -> Result<u64, Error> {
    let mut index = 0;
    Error::unless_ok(unsafe { ffi::archwend_get_amd64_pte_index(gva, page_map_level, &mut index) })?;
    Ok(index)
}

/// The single bits of a compatibility mask, lowest first.
///
/// ```
/// assert!(archwend::extract_individual_masks(0x11000).eq([0x1000, 0x10000]));
/// ```
pub fn extract_individual_masks(compatibility_mask: u32) -> impl ExactSizeIterator<Item = u32> {
    let mut masks = [0; 32];
    let count = unsafe { ffi::archwend_extract_individual_masks(compatibility_mask, &mut masks) };
    masks.into_iter().take(count as usize)
}

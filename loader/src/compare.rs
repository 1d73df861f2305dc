//! Two images held against each other: what a build changed.

#[cfg(feature = "alloc")]
use crate::memory::{bounded, reserved, zeros};
use crate::{ffi, Error};
#[cfg(feature = "alloc")]
use alloc::vec::Vec;

/// An entry that differs between two images.
#[derive(Debug, Clone, Copy, PartialEq, Eq, Hash)]
pub struct Change {
    /// The number of its table: 0 is the image's first page.
    pub table: u64,
    /// Its number in the table, 0 to 511.
    pub entry: u64,
    /// Its value in the older image.
    pub before: u64,
    /// Its value in the newer image.
    pub after: u64,
}

/// What [`compare_in`] found: it borrows the words that were listed, and a page of the newer image.
#[derive(Debug, Clone, Copy, PartialEq, Eq, Hash)]
pub struct Compared<'l, 'n> {
    words: &'l [u64],
    page: &'n [u8],
}

impl<'l, 'n> Compared<'l, 'n> {
    /// The entries that differ, each once, by table and then entry. Its `len()` is how many.
    pub fn changes(&self) -> impl ExactSizeIterator<Item = Change> + 'l {
        self.words.chunks_exact(4).map(|w| Change { table: w[0], entry: w[1], before: w[2], after: w[3] })
    }

    /// The first page that differs, as it is in the newer image: 4096 bytes, or none where nothing differs.
    pub fn page(&self) -> &'n [u8] {
        self.page
    }
}

/// Holds two images against each other, entry by entry, and lists in lent memory what differs; allocates nothing.
///
/// The images are equally long, whole pages, at most [`MAX_REGION`](crate::MAX_REGION) bytes, or it is refused with 34. The list
/// takes four words an entry that differs; one too short is refused with 15. Its other words are left zero; after a refusal all
/// are.
///
/// ```
/// use archwend::{compare_in, Change};
///
/// let older = [0; 0x3000];
/// let mut newer = older;
/// newer[0x1008..0x1010].copy_from_slice(&0x2000e3u64.to_le_bytes());
/// let mut list = [7; 6];
/// let compared = compare_in(&older, &newer, &mut list).unwrap();
/// assert!(compared.changes().eq([Change { table: 1, entry: 1, before: 0, after: 0x2000e3 }]));
/// assert_eq!(compared.page(), &newer[0x1000..0x2000]);
/// assert_eq!(list, [1, 1, 0, 0x2000e3, 0, 0]);
/// assert_eq!(compare_in(&older, &newer, &mut list[..3]).unwrap_err().number, 15);
/// assert_eq!(compare_in(&older, &newer[..0x2000], &mut list).unwrap_err().number, 34);
/// assert_eq!(list, [0; 6]);
/// assert!(compare_in(&newer, &newer, &mut []).unwrap().page().is_empty());
/// ```
pub fn compare_in<'l, 'n>(older: &[u8], newer: &'n [u8], list: &'l mut [u64]) -> Result<Compared<'l, 'n>, Error> {
    let mut answer = [0u64; 4];
    // Safety: as in build_in.
    unsafe {
        ffi::archwend_compare(
            older.as_ptr(),
            older.len(),
            newer.as_ptr(),
            newer.len(),
            list.as_mut_ptr(),
            list.len(),
            &mut answer,
        );
    }
    let [number, count, start, size] = answer;
    if number != 0 {
        return Err(Error::plain(number));
    }
    // What is listed lies in the list, and the page in the image: that is proved.
    let page = start as usize..(start + size) as usize;
    Ok(Compared { words: &list[..4 * count as usize], page: &newer[page] })
}

/// What differs between two images, by table and then entry: after a build, what it changed.
///
/// The images are equally long, whole pages, at most [`MAX_REGION`](crate::MAX_REGION) bytes, or it is refused with 34. A build
/// that made tables gives more bytes than its image has; zeros after the image stand for the tables that were free.
///
/// ```
/// use archwend::{compare, Change, CpuPagingState, PageTableRelocationBuilder};
///
/// # fn main() -> Result<(), archwend::Error> {
/// // Three tables at 0x100000 map the 2 MiB page at 0x200000, which the loader moved up by 2 MiB.
/// let mut image = [0; 0x3000];
/// for (at, entry) in [(0, 0x101023u64), (0x1000, 0x102023), (0x2008, 0x2000e3)] {
///     image[at..at + 8].copy_from_slice(&entry.to_le_bytes());
/// }
/// let mut tables = PageTableRelocationBuilder::new(0x100000, 0x8000, 0x3000)?;
/// for (i, page) in image.chunks(4096).enumerate() {
///     tables.set_page_data(0x100000 + 4096 * i as u64, page)?;
/// }
/// let cpu = CpuPagingState { cr3: 0x100000, cr4: 0 };
/// let rebuilt = tables.build(0, &[(0x200000..=0x3fffff, 0x200000)], cpu)?;
/// let left = Change { table: 2, entry: 1, before: 0x2000e3, after: 0 };
/// let arrived = Change { table: 2, entry: 2, before: 0, after: 0x4000e3 };
/// assert_eq!(compare(&image, &rebuilt)?, [left, arrived]);
/// # Ok(())
/// # }
/// ```
#[cfg(feature = "alloc")]
pub fn compare(older: &[u8], newer: &[u8]) -> Result<Vec<Change>, Error> {
    // Room for every entry, so that 15 is never given.
    let mut list = zeros(bounded(newer.len() as u64) / 8 * 4)?;
    let found = compare_in(older, newer, &mut list)?.changes();
    let mut changes = reserved(found.len())?;
    changes.extend(found);
    Ok(changes)
}

//! A builder that owns its image, with the names of igvm's.

use crate::memory::{bounded, reserved, zeros};
use crate::{build_in, set_page_data_in, CpuPagingState, Error, Region, Report, X64_CR4_LA57};
use alloc::vec::Vec;
use core::ops::RangeInclusive;

/// A builder that rebuilds the page tables of one region.
///
/// Only [`build`](Self::build) is told cr4. Until then the region has [the bound](crate#the-bound) of five levels; one that ends
/// past 2^48 is taken by [`new`](Self::new), and refused with 1 by a build of four levels.
#[derive(Debug, Clone, PartialEq, Eq, Hash)]
pub struct PageTableRelocationBuilder {
    /// Base gpa for the page table region.
    pub gpa: u64,
    /// Size in bytes of the page table region.
    pub size: u64,
    /// Used bytes in this page table region.
    pub used_size: u64,
    page_data: Vec<u8>,
}

impl PageTableRelocationBuilder {
    /// A region whose used part is all zeros. Refused with 1 where the region is no good.
    pub fn new(gpa: u64, size: u64, used_size: u64) -> Result<Self, Error> {
        let mut b = PageTableRelocationBuilder { gpa, size, used_size, page_data: zeros(bounded(used_size))? };
        // An empty load checks the region and changes nothing.
        b.set_page_data(gpa, &[])?;
        Ok(b)
    }

    fn region(&self) -> Region {
        Region { gpa: self.gpa, size: self.size, used: self.used_size }
    }

    /// Sets one page of the tables, 4096 bytes; `gpa` is where it was before the move. Empty data changes nothing.
    pub fn set_page_data(&mut self, gpa: u64, data: &[u8]) -> Result<(), Error> {
        let region = self.region();
        // The wider bound: what is refused by it is refused by every build.
        set_page_data_in(&mut self.page_data, region, gpa, data, X64_CR4_LA57)
    }

    /// Whether the address is in the region.
    pub fn contains(&self, gpa: u64) -> bool {
        self.region().calculate_page_table_index(gpa).is_some()
    }

    /// The moved tables. The ranges, in any order, leave the region out; it joins by itself where `table_reloc_offset` is not 0.
    pub fn build(
        self,
        table_reloc_offset: i64,
        relocation_offsets: &[(RangeInclusive<u64>, i64)],
        paging_state: CpuPagingState,
    ) -> Result<Vec<u8>, Error> {
        self.build_and_report(table_reloc_offset, relocation_offsets, paging_state).map(|(tables, _)| tables)
    }

    /// As [`build`](Self::build), with the counts.
    pub fn build_and_report(
        self,
        table_reloc_offset: i64,
        relocation_offsets: &[(RangeInclusive<u64>, i64)],
        paging_state: CpuPagingState,
    ) -> Result<(Vec<u8>, Report), Error> {
        let words = sorted_words(relocation_offsets)?;
        let mut output = zeros(bounded(self.size))?;
        // Room for every entry of the image, so that 15 is never given.
        let mut scratch = zeros(self.page_data.len() / 8 * 3)?;
        let region = self.region();
        let report = build_in(&self.page_data, &mut output, &mut scratch, &words, region, table_reloc_offset, paging_state)?;
        output.truncate(report.used as usize);
        Ok((output, report))
    }
}

/// The ranges as words in threes, by their first address; those with the same stay in their order.
fn sorted_words(ranges: &[(RangeInclusive<u64>, i64)]) -> Result<Vec<u64>, Error> {
    let mut order = reserved(ranges.len())?;
    order.extend(0..ranges.len());
    // A stable sort would take memory, and end the program where there is none.
    order.sort_unstable_by_key(|i| (*ranges[*i].0.start(), *i));
    let mut words = reserved(ranges.len().saturating_mul(3))?;
    for (range, offset) in order.iter().map(|i| &ranges[*i]) {
        words.extend([*range.start(), *range.end(), *offset as u64]);
    }
    Ok(words)
}

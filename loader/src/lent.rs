//! A region, loads and builds in lent memory.

use crate::{ffi, rules, Error, Place};

/// Cpu state related to paging.
#[derive(Debug, Clone, Copy, PartialEq, Eq, Hash, Default)]
pub struct CpuPagingState {
    /// The root table's address; the low 12 bits are ignored.
    pub cr3: u64,
    /// With [`X64_CR4_LA57`](crate::X64_CR4_LA57) the tables have five levels, else four.
    pub cr4: u64,
}

/// The memory that holds the tables: whole pages, at most 512, below [the bound](crate#the-bound).
#[derive(Debug, Clone, Copy, PartialEq, Eq, Hash, Default)]
pub struct Region {
    /// Where it starts.
    pub gpa: u64,
    /// Its bytes.
    pub size: u64,
    /// The bytes at its start that hold tables; the rest is free for new ones.
    pub used: u64,
}

impl Region {
    /// The number of the table that holds the address, be it used or free; none where the region does not. No rule of regions is
    /// asked.
    pub fn calculate_page_table_index(&self, page_table_gpa: u64) -> Option<usize> {
        let mut index = 0;
        // Safety: the pointer is that of a local, and the proved code requires nothing of the numbers.
        let inside =
            unsafe { ffi::archwend_calculate_page_table_index(self.gpa, self.size, self.used, page_table_gpa, &mut index) };
        (inside != 0).then_some(index as usize)
    }
}

/// What an accepted build did.
#[non_exhaustive]
#[derive(Debug, Clone, Copy, PartialEq, Eq, Hash, Default)]
pub struct Report {
    /// The bytes of tables in the output.
    pub used: u64,
    /// Leaves that moved, the merged ones included.
    pub moved: u64,
    /// Leaves that came to stand on an identical one.
    pub merged: u64,
    /// Tables that the walk reached, the root included.
    pub reached: u64,
}

/// Builds the moved tables in lent memory; allocates nothing.
///
/// The image is exactly `region.used` bytes, the output at least `region.size`. The ranges are words in threes: first, last
/// (included) and offset in two's complement, ascending. The scratch holds one moved leaf per three words. After acceptance the
/// output has the tables and then zeros; after a refusal it is zero. The scratch is left zero.
///
/// ```
/// use archwend::{build_in, set_page_data_in, CpuPagingState, Region};
///
/// let region = Region { gpa: 0x100000, size: 0x2000, used: 0x1000 };
/// let (mut image, mut output, mut scratch) = ([0u8; 0x1000], [0u8; 0x2000], [0u64; 3]);
/// let cpu = CpuPagingState { cr3: 0x100000, cr4: 0 };
/// set_page_data_in(&mut image, region, 0x100000, &[0; 4096], cpu.cr4).unwrap();
/// let report = build_in(&image, &mut output, &mut scratch, &[], region, 0, cpu).unwrap();
/// assert_eq!((report.used, report.reached), (0x1000, 1));
/// let refused = build_in(&image, &mut output[..5], &mut scratch, &[], region, 0, cpu).unwrap_err();
/// assert_eq!(refused.number, 4);
/// ```
pub fn build_in(
    image: &[u8],
    output: &mut [u8],
    scratch: &mut [u64],
    ranges: &[u64],
    region: Region,
    table_reloc_offset: i64,
    paging_state: CpuPagingState,
) -> Result<Report, Error> {
    let mut report = [0u64; 8];
    // Safety: pointers and lengths are those of live slices, and the borrows keep the written ones apart from the others. The
    // proved code reads and writes inside them only, and requires nothing of the numbers.
    unsafe {
        ffi::archwend_build(
            image.as_ptr(),
            image.len(),
            output.as_mut_ptr(),
            output.len(),
            scratch.as_mut_ptr(),
            scratch.len(),
            ranges.as_ptr(),
            ranges.len(),
            region.gpa,
            region.size,
            region.used,
            paging_state.cr3,
            paging_state.cr4,
            table_reloc_offset as u64,
            &mut report,
        );
    }
    let [number, used, moved, merged, reached, address, level, offset] = report;
    if number == 0 {
        return Ok(Report { used, moved, merged, reached });
    }
    let rule = match number {
        Error::REGION => rules::of_region(region, paging_state.cr4),
        Error::RANGES => rules::of_ranges(ranges, region, paging_state.cr4),
        _ => None,
    };
    let place = Error::is_placed(number).then_some(Place { address, level, offset: offset as i64 });
    Err(Error { number, place, rule })
}

/// Loads one page of tables into a lent image of `region.used` bytes. Empty data changes nothing; a refusal neither. `cr4`
/// decides [the bound](crate#the-bound) of the region, as in a build.
pub fn set_page_data_in(image: &mut [u8], region: Region, gpa: u64, data: &[u8], cr4: u64) -> Result<(), Error> {
    // Safety: as in build_in.
    let number = unsafe {
        ffi::archwend_set_page_data(
            image.as_mut_ptr(),
            image.len(),
            region.gpa,
            region.size,
            region.used,
            gpa,
            data.as_ptr(),
            data.len(),
            cr4,
        )
    };
    let rule = if number == Error::REGION { rules::of_region(region, cr4) } else { None };
    Error::unless_ok(number).map_err(|e| Error { rule, ..e })
}

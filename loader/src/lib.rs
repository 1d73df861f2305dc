//! Moves the page tables of a guest whose memory was moved: a safe wrapper over proved code.
//!
//! The names are those of igvm's `page_table` module; [`compare_in`], which shows what a build changed, is not in it. Every
//! check, every refusal and every byte of the answer comes from the proved library; this crate only lends it memory. No call
//! panics, whatever its arguments, but an index of a [`PageTable`] past 511.
//!
//! Without the feature `std` the crate needs no std, without `alloc` no allocator; then there are no builder and no `compare`.
//!
//! ```
//! # #[cfg(feature = "alloc")] {
//! use archwend::{CpuPagingState, PageTableRelocationBuilder};
//!
//! fn page(entries: &[(usize, u64)]) -> Vec<u8> {
//!     let mut words = vec![0u64; 512];
//!     for (i, e) in entries {
//!         words[*i] = *e;
//!     }
//!     words.iter().flat_map(|w| w.to_le_bytes()).collect()
//! }
//!
//! # fn run() -> Result<(), archwend::Error> {
//! // Three tables at 0x100000 map the 2 MiB page at 0x200000, which the loader moved up by 2 MiB.
//! let mut tables = PageTableRelocationBuilder::new(0x100000, 0x8000, 0x3000)?;
//! tables.set_page_data(0x100000, &page(&[(0, 0x101023)]))?;
//! tables.set_page_data(0x101000, &page(&[(0, 0x102023)]))?;
//! tables.set_page_data(0x102000, &page(&[(1, 0x2000e3)]))?;
//! let cpu = CpuPagingState { cr3: 0x100000, cr4: 0 };
//! let rebuilt = tables.build(0, &[(0x200000..=0x3fffff, 0x200000)], cpu)?;
//! assert_eq!(rebuilt.len(), 0x3000);
//! assert_eq!(rebuilt[0x2000..], page(&[(2, 0x4000e3)]));
//! # Ok(())
//! # }
//! # run().unwrap();
//! # }
//! ```
//!
//! # The bound
//!
//! The region, the moved region, the ranges and the new places of leaves lie below the bound. It is 2^48; with five levels, which
//! cr4 asks for by [`X64_CR4_LA57`], it is 2^52.

#![no_std]
#![deny(missing_docs)]

#[cfg(feature = "alloc")]
extern crate alloc;
#[cfg(feature = "std")]
extern crate std;

// Where the library can't be linked the build script writes here why. Documentation is made without it.
#[cfg(not(doc))]
include!(concat!(env!("OUT_DIR"), "/linked.rs"));

#[cfg(feature = "alloc")]
mod builder;
mod compare;
mod entry;
mod ffi;
mod lent;
#[cfg(feature = "alloc")]
mod memory;
mod refusals;
mod rules;

#[cfg(feature = "alloc")]
pub use builder::PageTableRelocationBuilder;
#[cfg(feature = "alloc")]
pub use compare::compare;
pub use compare::{compare_in, Change, Compared};
pub use entry::{extract_individual_masks, get_amd64_pte_index, mapping_size, PageTable, PageTableEntry, PageTableEntryType};
pub use lent::{build_in, set_page_data_in, CpuPagingState, Region, Report};
pub use refusals::{Error, Place};
pub use rules::Rule;

/// The version of the library's interface that this crate is for. An archive of another does not link with it.
pub const INTERFACE: u64 = 2;

/// Number of bytes in a page.
pub const X64_PAGE_SIZE: u64 = 4096;

/// Number of bytes in a large page.
pub const X64_LARGE_PAGE_SIZE: u64 = 0x200000;

/// Number of bytes in a 1 GiB page.
pub const X64_1GB_PAGE_SIZE: u64 = 0x40000000;

/// The bit of cr4 that asks for five levels. No other bit of cr4 counts.
pub const X64_CR4_LA57: u64 = 0x1000;

/// The largest region: 512 tables.
pub const MAX_REGION: u64 = 512 * X64_PAGE_SIZE;

#[cfg(test)]
mod tests {
    #[test]
    fn the_archive_has_the_interface() {
        assert_eq!(crate::ffi::interface(), crate::INTERFACE);
    }
}

//! What the static library exports, as include/archwend.h declares it. Each call here calls the symbol of the interface's version
//! too, so that no archive of another interface links with any of them.

macro_rules! exports {
    ($($name:ident($($argument:ident: $type:ty),*) $(-> $answer:ty)?;)*) => {
        mod linked {
            extern "C" {
                // The number is `INTERFACE`.
                #[link_name = "archwend_interface_2"]
                pub fn interface() -> u64;
                $(pub fn $name($($argument: $type),*) $(-> $answer)?;)*
            }
        }

        $(
            #[inline]
            #[allow(clippy::too_many_arguments)]
            pub unsafe fn $name($($argument: $type),*) $(-> $answer)? {
                linked::interface();
                linked::$name($($argument),*)
            }
        )*
    };
}

exports! {
    archwend_build(
        image: *const u8,
        image_len: usize,
        output: *mut u8,
        output_len: usize,
        scratch: *mut u64,
        scratch_len: usize,
        ranges: *const u64,
        ranges_len: usize,
        gpa: u64,
        size: u64,
        used: u64,
        cr3: u64,
        cr4: u64,
        table_offset: u64,
        report: *mut [u64; 8]
    );
    archwend_set_page_data(
        image: *mut u8,
        image_len: usize,
        gpa: u64,
        size: u64,
        used: u64,
        page_gpa: u64,
        data: *const u8,
        data_len: usize,
        cr4: u64
    ) -> u64;
    archwend_compare(
        older: *const u8,
        older_len: usize,
        newer: *const u8,
        newer_len: usize,
        list: *mut u64,
        list_len: usize,
        answer: *mut [u64; 4]
    );
    archwend_set_entry(entry: *mut u64, kind: u64, addr: u64) -> u64;
    archwend_set_addr(entry: *mut u64, addr: u64) -> u64;
    archwend_gpa(entry: u64, gpa: *mut u64) -> u64;
    archwend_set_leaf_addr(entry: *mut u64, level: u64, addr: u64) -> u64;
    archwend_leaf_gpa(entry: u64, level: u64, gpa: *mut u64) -> u64;
    archwend_is_present(entry: u64) -> u64;
    archwend_is_large_page(entry: u64) -> u64;
    archwend_clear(entry: *mut u64);
    archwend_mapping_size(level: u64, size: *mut u64) -> u64;
    archwend_get_amd64_pte_index(gva: u64, level: u64, index: *mut u64) -> u64;
    archwend_calculate_page_table_index(gpa: u64, size: u64, used: u64, address: u64, index: *mut u64) -> u64;
    archwend_extract_individual_masks(mask: u32, masks: *mut [u32; 32]) -> u64;
}

/// The interface that the archive says it has.
#[cfg(test)]
pub fn interface() -> u64 {
    // Safety: it takes nothing.
    unsafe { linked::interface() }
}

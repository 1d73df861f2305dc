//! Builds the specification's base example with nothing below it but Linux's two calls to write and to end. Its exit status is 0
//! where all was as expected.
#![no_std]
#![no_main]

use archwend::*;
use core::arch::{asm, global_asm};
use core::fmt::Write;

// What the library needs of a C library: memset, and what the compiler may call. Nothing unwinds, but some linkers want the name that
// would be called for it.
global_asm!(
    ".globl _start, memset, memcpy, memcmp, rust_eh_personality",
    "_start: xor %ebp, %ebp; and $-16, %rsp; call run",
    "memset: mov %rdi, %r8; mov %esi, %eax; mov %rdx, %rcx; rep stosb; mov %r8, %rax; ret",
    "memcpy: mov %rdi, %rax; mov %rdx, %rcx; rep movsb; ret",
    "memcmp: xor %eax, %eax; mov %rdx, %rcx; test %rcx, %rcx; repe cmpsb; je 1f",
    "movzbl -1(%rdi), %eax; movzbl -1(%rsi), %ecx; sub %ecx, %eax",
    "1: ret",
    "rust_eh_personality: ud2",
    options(att_syntax)
);

fn call(number: u64, first: u64, second: u64, third: u64) {
    // Safety: Linux's write and exit; a write reads the slice that its caller lends.
    unsafe {
        asm!("syscall", inout("rax") number => _, in("rdi") first, in("rsi") second, in("rdx") third, out("rcx") _, out("r11") _);
    }
}

fn end(status: u64) -> ! {
    loop {
        call(60, status, 0, 0);
    }
}

#[panic_handler]
fn panicked(_: &core::panic::PanicInfo) -> ! {
    end(1)
}

struct Out;

impl Write for Out {
    fn write_str(&mut self, text: &str) -> core::fmt::Result {
        call(1, 1, text.as_ptr() as u64, text.len() as u64);
        Ok(())
    }
}

const GPA: u64 = 0x100000;

fn entries() -> Result<[PageTable; 3], Error> {
    let mut tables = [PageTable::default(); 3];
    tables[0].entry(0x200000, 3)?.set_entry(PageTableEntryType::Pde(GPA + 0x1000))?;
    tables[1].entry(0x200000, 2)?.set_entry(PageTableEntryType::Pde(GPA + 0x2000))?;
    tables[2].entry(0x200000, 1)?.set_entry(PageTableEntryType::Leaf2MbPage(0x200000))?;
    Ok(tables)
}

fn moved(offset: u64) -> Result<(), Error> {
    let region = Region { gpa: GPA, size: 0x4000, used: 0x3000 };
    let cpu = CpuPagingState { cr3: GPA, cr4: 0 };
    let (mut image, mut output, mut scratch, mut list) = ([0; 0x3000], [0; 0x4000], [0; 3], [0; 8]);
    for (i, table) in entries()?.iter().enumerate() {
        set_page_data_in(&mut image, region, GPA + 0x1000 * i as u64, &table.to_bytes(), cpu.cr4)?;
    }
    let report = build_in(&image, &mut output, &mut scratch, &[0x200000, 0x3fffff, offset], region, 0, cpu)?;
    let compared = compare_in(&image, &output[..report.used as usize], &mut list)?;
    for c in compared.changes() {
        let _ = writeln!(Out, "table {} entry {}: {:#x}, now {:#x}", c.table, c.entry, c.before, c.after);
    }
    assert_eq!(PageTableEntry::from(list[7]).gpa(), Some(0x400000));
    Ok(())
}

#[no_mangle]
extern "C" fn run() -> ! {
    assert!(moved(0x200000).is_ok());
    if let Err(e) = moved(0x201000) {
        let _ = writeln!(Out, "{e}");
    }
    assert!(extract_individual_masks(0x11000).eq([0x1000, 0x10000]));
    end(0)
}

//! Three tables at 0x100000 map the 2 MiB page at 0x200000, which the loader moved: by 2 MiB, and by an offset that is refused.

use archwend::{compare, CpuPagingState, Error, PageTable, PageTableEntryType, PageTableRelocationBuilder};

const GPA: u64 = 0x100000;

fn tables() -> Result<[PageTable; 3], Error> {
    let mut tables = [PageTable::default(); 3];
    tables[0].entry(0x200000, 3)?.set_entry(PageTableEntryType::Pde(GPA + 0x1000))?;
    tables[1].entry(0x200000, 2)?.set_entry(PageTableEntryType::Pde(GPA + 0x2000))?;
    tables[2].entry(0x200000, 1)?.set_entry(PageTableEntryType::Leaf2MbPage(0x200000))?;
    Ok(tables)
}

fn relocate(offset: i64) -> Result<(), Error> {
    let (mut builder, mut image) = (PageTableRelocationBuilder::new(GPA, 0x8000, 0x3000)?, Vec::new());
    for (i, table) in tables()?.iter().enumerate() {
        builder.set_page_data(GPA + 0x1000 * i as u64, &table.to_bytes())?;
        image.extend(table.to_bytes());
    }
    let cpu = CpuPagingState { cr3: GPA, cr4: 0 };
    let (rebuilt, report) = builder.build_and_report(0, &[(0x200000..=0x3fffff, offset)], cpu)?;
    println!("used {:#x}, moved {}, merged {}, reached {}", report.used, report.moved, report.merged, report.reached);
    // Zeros stand for the tables that were free.
    image.resize(rebuilt.len(), 0);
    for c in compare(&image, &rebuilt)? {
        println!("table {} entry {}: {:#x}, now {:#x}", c.table, c.entry, c.before, c.after);
    }
    Ok(())
}

fn main() {
    for offset in [0x200000, 0x201000] {
        if let Err(e) = relocate(offset) {
            println!("{e}");
        }
    }
}

// The function of the static library, as safe Rust. It refuses bad input itself, so there is nothing to test here.
#[link(name = "exports", kind = "static")]
unsafe extern "C" {
    fn vabrjoth_fill_tables(tables: *mut u32, tables_len: usize, pieces: u32, bidders: u32, rows: *const u32, rows_len: usize) -> i64;
}

pub fn fill_tables(tables: &mut [u32], pieces: u32, bidders: u32, rows: &[u32]) -> i64 {
    unsafe { vabrjoth_fill_tables(tables.as_mut_ptr(), tables.len(), pieces, bidders, rows.as_ptr(), rows.len()) }
}

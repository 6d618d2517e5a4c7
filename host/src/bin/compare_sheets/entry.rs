//! The library's sheet entry, as it is linked and as the safe function calls it.

use fernijster::Refusal;

/// An entry: a sheet, a column and the output go in, the result word comes out.
pub type Entry = fn(&[u8], u64, &mut [u8]) -> u64;

/// The entries that are compared, each with its name.
pub const ENTRIES: &[(&str, Entry)] = &[("fernijster_column", entry), ("fernijster::column", safe_entry)];

extern "C" {
    fn fernijster_column(sheet: *const u8, sheet_len: usize, column: u64, out: *mut u8, out_len: usize) -> u64;
}

/// Both lists go in with their own lengths and are borrowed until the function returns.
fn entry(sheet: &[u8], column: u64, out: &mut [u8]) -> u64 {
    unsafe { fernijster_column(sheet.as_ptr(), sheet.len(), column, out.as_mut_ptr(), out.len()) }
}

/// The word that the safe function's answer stands for.
fn safe_entry(sheet: &[u8], column: u64, out: &mut [u8]) -> u64 {
    match fernijster::column(sheet, column, out) {
        Ok(written) => (written as u64) << 8,
        Err(Refusal::Sheet { line }) => line << 8 | 9,
        Err(Refusal::Symbol { line }) => line << 8 | 10,
        Err(Refusal::TreeText { line }) => line << 8 | 11,
        Err(refusal) => refusal.number(),
    }
}

//! The call of the static library `runs_export`, for the benchmarks that link it.

/// The place of a one in a seed, as the library has it.
#[repr(C)]
#[derive(Clone, Copy)]
pub struct Place {
    pub row: u16,
    pub column: u16,
}

unsafe extern "C" {
    fn runs_of_product(
        rows: u16,
        columns: u16,
        ones: *const Place,
        ones_count: usize,
        lost: *const u16,
        lost_count: usize,
        odd: *const u16,
        odd_count: usize,
        switches: u16,
        times: u16,
    ) -> u16;
}

/// Decodes a report on the product code of a seed, this many times on one table, and answers what was chosen.
pub fn runs(rows: u16, columns: u16, ones: &[Place], lost: &[u16], odd: &[u16], switches: u16, times: u16) -> u16 {
    unsafe { runs_of_product(rows, columns, ones.as_ptr(), ones.len(), lost.as_ptr(), lost.len(), odd.as_ptr(), odd.len(), switches, times) }
}

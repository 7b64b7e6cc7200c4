//! The calls of `libwhitherhaul_csv.a`.

use super::UNWRITTEN;

extern "C" {
    fn whitherhaul_csv_export(
        run: *const u8,
        run_length: usize,
        area: *mut u8,
        area_length: usize,
        bytes: *mut u64,
    ) -> u8;
    fn whitherhaul_csv_import(
        file: *const u8,
        file_length: usize,
        area: *mut u8,
        area_length: usize,
        answers: *mut [u64; 5],
    ) -> u8;
}

/// The table of a run of entries, 32 bytes each. The number (0, 9, or 2 where an entry is outside
/// its rules or cut short), and how many bytes stand in the area.
pub fn csv_export(run: &[u8], area: &mut [u8]) -> (u8, usize) {
    let mut bytes = UNWRITTEN;
    // Safety: each pointer comes with the length of its own slice, or is a place of its own.
    let number = unsafe {
        whitherhaul_csv_export(
            run.as_ptr(),
            run.len(),
            area.as_mut_ptr(),
            area.len(),
            &mut bytes,
        )
    };
    (number, bytes as usize)
}

/// A table's entries into the area, 32 bytes each. The number (0, 9 or 13), then how many entries
/// there are, and with 13 the first bad row, the header being 1, its first bad field by the number
/// of its [`Column`](crate::csv::Column), the number of its
/// [`FieldFault`](crate::csv::FieldFault), and where in the file that field begins.
pub fn csv_import(file: &[u8], area: &mut [u8]) -> (u8, [u64; 5]) {
    let mut answers = [UNWRITTEN; 5];
    // Safety: as in `csv_export`.
    let number = unsafe {
        whitherhaul_csv_import(
            file.as_ptr(),
            file.len(),
            area.as_mut_ptr(),
            area.len(),
            &mut answers,
        )
    };
    (number, answers)
}

//! The calls of `libwhitherhaul_journal.a`.

use super::UNWRITTEN;

extern "C" {
    fn whitherhaul_journal_write(
        members: u32,
        run: *const u8,
        run_length: usize,
        area: *mut u8,
        area_length: usize,
        bytes: *mut u64,
    ) -> u8;
    fn whitherhaul_journal_append(
        from: u32,
        to: u32,
        log: *const u8,
        log_length: usize,
        results: *const u8,
        results_length: usize,
        area: *mut u8,
        area_length: usize,
        bytes: *mut u64,
    ) -> u8;
    fn whitherhaul_journal_read(
        members: u32,
        file: *const u8,
        file_length: usize,
        area: *mut u8,
        area_length: usize,
        totals: *mut u8,
        totals_length: usize,
        answers: *mut [u64; 3],
    ) -> u8;
    fn whitherhaul_journal_frame(
        file: *const u8,
        file_length: usize,
        i: u64,
        answers: *mut [u64; 7],
    ) -> u8;
    fn whitherhaul_journal_takings(
        members: u32,
        totals: *const u8,
        totals_length: usize,
        cents: *mut u64,
    ) -> u8;
}

/// The journal of a run of entries, 32 bytes each, with what the fee rules give from totals of 0.
/// The number (0, 1, 2, 4 or 9), and how many bytes stand in the area.
pub fn journal_write(members: u32, run: &[u8], area: &mut [u8]) -> (u8, usize) {
    let mut bytes = UNWRITTEN;
    // Safety: each pointer comes with the length of its own slice, or is a place of its own.
    let number = unsafe {
        whitherhaul_journal_write(
            members,
            run.as_ptr(),
            run.len(),
            area.as_mut_ptr(),
            area.len(),
            &mut bytes,
        )
    };
    (number, bytes as usize)
}

/// The frames of ops `from` + 1 to `to` out of a replica's log and results, as they stand there.
/// The number (0, 9, or 1 where log and results don't have these ops), and how many bytes stand in
/// the area.
pub fn journal_append(
    from: u32,
    to: u32,
    log: &[u8],
    results: &[u8],
    area: &mut [u8],
) -> (u8, usize) {
    let mut bytes = UNWRITTEN;
    // Safety: as in `journal_write`.
    let number = unsafe {
        whitherhaul_journal_append(
            from,
            to,
            log.as_ptr(),
            log.len(),
            results.as_ptr(),
            results.len(),
            area.as_mut_ptr(),
            area.len(),
            &mut bytes,
        )
    };
    (number, bytes as usize)
}

/// A file read back: its entries into the area, 32 bytes each, and the members' totals, a run of
/// 8 bytes a member. The number (0, 1, 9 or 12), then how many entries there are, and with 12 the
/// offset of the first bad frame and the number of its [`Fault`](crate::Fault).
pub fn journal_read(
    members: u32,
    file: &[u8],
    area: &mut [u8],
    totals: &mut [u8],
) -> (u8, [u64; 3]) {
    let mut answers = [UNWRITTEN; 3];
    // Safety: as in `journal_write`.
    let number = unsafe {
        whitherhaul_journal_read(
            members,
            file.as_ptr(),
            file.len(),
            area.as_mut_ptr(),
            area.len(),
            totals.as_mut_ptr(),
            totals.len(),
            &mut answers,
        )
    };
    (number, answers)
}

/// Frame number `i` + 1 of a file as it stands, whatever the fee rules say of it. The number of the
/// [`Fault`](crate::Fault) of its form, or 0; then client, request, operation, member, cents,
/// outcome and total, all 0 where there is a fault.
pub fn journal_frame(file: &[u8], i: u64) -> (u8, [u64; 7]) {
    let mut answers = [UNWRITTEN; 7];
    // Safety: as in `journal_write`.
    let fault = unsafe { whitherhaul_journal_frame(file.as_ptr(), file.len(), i, &mut answers) };
    (fault, answers)
}

/// All totals of a run added up. The number (0, or 1 where the run hasn't 8 bytes a member or a
/// total is above 1,000,000,000), and the sum.
pub fn journal_takings(members: u32, totals: &[u8]) -> (u8, u64) {
    let mut cents = UNWRITTEN;
    // Safety: as in `journal_write`.
    let number =
        unsafe { whitherhaul_journal_takings(members, totals.as_ptr(), totals.len(), &mut cents) };
    (number, cents)
}

//! The C functions of include/slots.h, each behind a function that takes slices. A
//! slice that is `None` is lent as NULL, with the length 0.

extern "C" {
    fn slots_open(
        file: *const u8,
        file_length: usize,
        report: *mut u8,
        report_length: usize,
    ) -> u64;

    fn slots_decide(
        file: *const u8,
        file_length: usize,
        demand: u64,
        supply: u64,
        demand_state: u64,
        supply_state: u64,
        mode: u64,
        standing: u16,
        marks: *mut u8,
        marks_length: usize,
        report: *mut u8,
        report_length: usize,
    ) -> u64;

    fn slots_run(
        file: *const u8,
        file_length: usize,
        demand: u64,
        supply: u64,
        demand_state: u64,
        supply_state: u64,
        mode: u64,
        standing: u16,
        marks: *mut u8,
        marks_length: usize,
        steps: *mut u8,
        steps_length: usize,
        report: *mut u8,
        report_length: usize,
    ) -> u64;
}

/// What `slots_decide` and `slots_run` take beside slices.
pub struct Numbers {
    pub demand: u64,
    pub supply: u64,
    pub demand_state: u64,
    pub supply_state: u64,
    pub mode: u64,
    pub standing: u16,
}

// The functions ask of their caller only that slices are there and lie apart, which
// references do.

pub fn open(file: Option<&[u8]>, report: Option<&mut [u8]>) -> u64 {
    let (file, file_length) = read(file);
    let (report, report_length) = written(report);
    unsafe { slots_open(file, file_length, report, report_length) }
}

pub fn decide(
    file: Option<&[u8]>,
    numbers: &Numbers,
    marks: Option<&mut [u8]>,
    report: Option<&mut [u8]>,
) -> u64 {
    let (file, file_length) = read(file);
    let (marks, marks_length) = written(marks);
    let (report, report_length) = written(report);
    unsafe {
        slots_decide(
            file,
            file_length,
            numbers.demand,
            numbers.supply,
            numbers.demand_state,
            numbers.supply_state,
            numbers.mode,
            numbers.standing,
            marks,
            marks_length,
            report,
            report_length,
        )
    }
}

pub fn run(
    file: Option<&[u8]>,
    numbers: &Numbers,
    marks: Option<&mut [u8]>,
    steps: Option<&mut [u8]>,
    report: Option<&mut [u8]>,
) -> u64 {
    let (file, file_length) = read(file);
    let (marks, marks_length) = written(marks);
    let (steps, steps_length) = written(steps);
    let (report, report_length) = written(report);
    unsafe {
        slots_run(
            file,
            file_length,
            numbers.demand,
            numbers.supply,
            numbers.demand_state,
            numbers.supply_state,
            numbers.mode,
            numbers.standing,
            marks,
            marks_length,
            steps,
            steps_length,
            report,
            report_length,
        )
    }
}

/// The pointer and the length of a slice that is read.
fn read(slice: Option<&[u8]>) -> (*const u8, usize) {
    slice.map_or((std::ptr::null(), 0), |slice| (slice.as_ptr(), slice.len()))
}

/// The pointer and the length of a slice that is written.
fn written(slice: Option<&mut [u8]>) -> (*mut u8, usize) {
    slice.map_or((std::ptr::null_mut(), 0), |slice| (slice.as_mut_ptr(), slice.len()))
}

//! `hnho_write` behind a safe function, and what the second implementation says of its forms.

use second::form::{checker, WriteCase, REPORT_BYTES};

extern "C" {
    fn hnho_write(
        job: *const u8,
        job_bytes: usize,
        form: *mut u8,
        form_bytes: usize,
        report: *mut u8,
        report_bytes: usize,
    ) -> u64;
}

/// Bytes that are enough for every form: the header's HNHO_MOST_JOB_BYTES.
pub const MOST_FORM_BYTES: usize = 16_572;

/// What a call gives: its result, and the output and report buffers after it.
pub type Written = (u64, Vec<u8>, Vec<u8>);

/// Calls the kernel with buffers of the caller's; the result as the header says.
pub fn call(job: &[u8], form: &mut [u8], report: &mut [u8]) -> u64 {
    // Each pointer is good for its length, and the borrows keep the buffers apart.
    unsafe {
        hnho_write(
            job.as_ptr(),
            job.len(),
            form.as_mut_ptr(),
            form.len(),
            report.as_mut_ptr(),
            report.len(),
        )
    }
}

/// The kernel's answer to a case.
pub fn write(case: &WriteCase) -> Written {
    let (mut form, mut report) = (case.form.clone(), case.report.clone());
    let result = call(&case.job, &mut form, &mut report);
    (result, form, report)
}

/// The kernel's answer to a case, where all of it is right; else what is wrong first.
pub fn judged(case: &WriteCase) -> Result<Written, String> {
    let (result, form, report) = write(case);
    checker::check(case, &form, &report, result)?;
    Ok((result, form, report))
}

/// The form that the kernel writes for a job, of the length that its report gives; the result where it refuses.
pub fn form_of(job: &[u8]) -> Result<Vec<u8>, u64> {
    let (result, mut form, report) = write(&WriteCase {
        job: job.to_vec(),
        form: vec![0xa5; MOST_FORM_BYTES],
        report: vec![0xa5; REPORT_BYTES],
    });
    let length: [u8; REPORT_BYTES] = report.try_into().expect("the report's length");
    form.truncate(u64::from_le_bytes(length) as usize);
    match result {
        0 => Ok(form),
        _ => Err(result),
    }
}

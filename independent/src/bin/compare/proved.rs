//! The call of the proved library, through its C form.

/// What the library answers: status 0 and the report's length, 1 and the denial, or 2 for no memory.
#[repr(C)]
#[derive(Clone, Copy, Debug, PartialEq, Eq)]
pub struct Answer {
    pub status: u32,
    pub number: u32,
    pub place: u32,
    pub length: usize,
}

#[cfg(proved_library)]
extern "C" {
    fn potlimay_report(file: *const u8, length: usize, out: *mut u8, out_length: usize) -> Answer;
}

/// The report of `file` in `out`; nothing where no library was linked.
#[cfg(proved_library)]
pub fn report(file: &[u8], out: &mut [u8]) -> Option<Answer> {
    // SAFETY: both pointers are good for as many bytes as the length beside them says, and the
    // library keeps neither after the call.
    let answer = unsafe { potlimay_report(file.as_ptr(), file.len(), out.as_mut_ptr(), out.len()) };
    Some(answer)
}

#[cfg(not(proved_library))]
pub fn report(_file: &[u8], _out: &mut [u8]) -> Option<Answer> {
    None
}

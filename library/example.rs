use std::io::{stdin, stdout, Read, Write};

#[repr(C)]
struct Answer { status: u32, number: u32, place: u32, length: usize }
extern "C" { fn potlimay_report(file: *const u8, length: usize, out: *mut u8, room: usize) -> Answer; }

fn main() -> std::io::Result<()> {
    let (mut file, mut out) = (Vec::new(), [0; 4096]);
    stdin().take(8192).read_to_end(&mut file)?;
    // SAFETY: each pointer is good for the length beside it, and the two do not overlap.
    let answer = unsafe { potlimay_report(file.as_ptr(), file.len(), out.as_mut_ptr(), out.len()) };
    stdout().write_all(&out[..answer.length])
}

//! Rehearses a program: `rustc embed.rs -L LIBDIR -l static=fleet && ./embed PROGRAM`.

unsafe extern "C" {
    fn fleet_rehearse(
        program: *const u8, program_length: usize, holds: *const u8, holds_length: usize,
        out: *mut u8, room: usize, length: &mut usize, fault: &mut [u64; 8],
    ) -> u32;
}

fn main() {
    let program = std::fs::read(std::env::args().nth(1).expect("PROGRAM")).expect("a file that can be read");
    let (mut text, mut length, mut fault) = (vec![0; 1 << 20], 0, [0; 8]);
    // SAFETY: each pointer goes with the length of its slice, and `fault` has the size and the alignment of the
    // header's.
    let status = unsafe {
        fleet_rehearse(program.as_ptr(), program.len(), [].as_ptr(), 0, text.as_mut_ptr(), text.len(), &mut length, &mut fault)
    };
    // A text that has no room is not written, and `length` says how long it is.
    print!("{}", String::from_utf8_lossy(text.get(..length).unwrap_or_default()));
    std::process::exit(status as i32);
}

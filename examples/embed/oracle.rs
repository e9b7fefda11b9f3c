// What a server must do with octets, as `explain --brief` says it. Built and run by examples/embed/run.sh.
use std::os::raw::c_char;

#[repr(C)]
#[derive(Default)]
struct End {
    fault: u8,
    status: u8,
    printed: usize,
    sentence: usize,
}

extern "C" {
    fn h2_bench_run(
        words: *const c_char, words_length: usize, name: *const c_char, name_length: usize, file: *const c_char, file_length: usize,
        input: *const u8, input_length: usize, out: *mut u8, room: usize, end: *mut End,
    ) -> usize;
}

/// What a command prints, its status, and the sentence where something was refused; the number of a fault where nothing is given.
fn run(words: &[&str], input: &[u8]) -> Result<(String, u8, String), u8> {
    let (words, mut out) = (["h2_bench"].iter().chain(words).copied().collect::<Vec<_>>().join("\n"), vec![0u8; 65536]);
    loop {
        let mut end = End::default();
        // SAFETY: each pointer is that of as many octets as its length says, and none is null.
        let count = unsafe {
            h2_bench_run(words.as_ptr().cast(), words.len(), "".as_ptr().cast(), 0, "".as_ptr().cast(), 0, input.as_ptr(), input.len(), out.as_mut_ptr(), out.len(), &mut end)
        };
        match end.fault {
            0 => return Ok((String::from_utf8_lossy(&out[..end.printed]).into(), end.status, String::from_utf8_lossy(&out[end.printed..count]).into())),
            2 => out.resize(end.printed + end.sentence, 0),
            fault => return Err(fault),
        }
    }
}

fn main() {
    let (hex, _, _) = run(&["asm"], b"PREFACE\nSETTINGS 00 0 -\nWINDOW_UPDATE 00 0 w0\n").expect("memory");
    let (text, status, _) = run(&["explain", "--brief", "--strict", "--", "GET|/|200|6869"], hex.as_bytes()).expect("memory");
    print!("{text}status {status}\n");
    let (text, status, why) = run(&["play", "--frame=5"], hex.as_bytes()).expect("memory");
    print!("{text}status {status}: {why}");
}

//! Converts the AIGER file at standard input to ASCII. From the top of the repository:
//!
//!     gzip -dc release/libaigtools.a.gz > libaigtools.a
//!     rustc --edition 2021 -L . -l static=aigtools examples/c/aigconvert.rs
//!     ./aigconvert < half_adder.aig
use std::io::{Read, Write};

const ASCII: u32 = 1;
const LARGEST: u32 = 2147483647;
const DONE: u32 = 0;
const TOO_SHORT: u32 = 1;

/// `aigtools_outcome` of aigtools.h.
#[repr(C)]
#[derive(Debug, Default)]
struct Outcome {
    status: u32,
    kind: u32,
    place: u32,
    subject: u32,
    number: u64,
    length: u64,
}

unsafe extern "C" {
    #[rustfmt::skip]
    fn aigtools_convert(options: u32, max_var: u32, input: *const u8, input_length: usize,
                     output: *mut u8, output_length: usize, outcome: &mut Outcome) -> u32;
}

/// The ASCII text of an AIGER file, or why there is none.
fn to_ascii(input: &[u8]) -> Result<Vec<u8>, Outcome> {
    let mut output = vec![0; 4 * input.len()];
    loop {
        let mut outcome = Outcome::default();
        // What is passed lives through the call, and the output overlaps nothing.
        let status = unsafe {
            aigtools_convert(ASCII, LARGEST, input.as_ptr(), input.len(), output.as_mut_ptr(), output.len(), &mut outcome)
        };
        output.resize(outcome.length as usize, 0);
        match status {
            DONE => return Ok(output),
            TOO_SHORT => {}
            _ => return Err(outcome),
        }
    }
}

fn main() {
    let mut input = Vec::new();
    std::io::stdin().read_to_end(&mut input).expect("the input can be read");
    match to_ascii(&input) {
        Ok(text) => std::io::stdout().write_all(&text).expect("the output can be written"),
        Err(outcome) => {
            eprintln!("{outcome:?}");
            std::process::exit(1);
        }
    }
}

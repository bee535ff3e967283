//! Counts the gates of an AIGER file by level, as levels.c does. From the top of the repository:
//!
//!     gzip -dc release/libaigtools.a.gz > libaigtools.a
//!     rustc --edition 2021 -L . -l static=aigtools examples/c/levels.rs
//!     ./levels examples/half_adder.aag
use std::process::ExitCode;

const ORDERED: u32 = 128;
const LARGEST: u32 = 2147483647;
const DONE: u32 = 0;
const TOO_SHORT: u32 = 1;

/// `aigtools_counts` of aigtools.h.
#[repr(C)]
#[derive(Default)]
struct Counts {
    max_var: u32,
    inputs: u32,
    latches: u32,
    outputs: u32,
    bad: u32,
    constraints: u32,
    justice: u32,
    justice_literals: u32,
    fairness: u32,
    gates: u32,
    symbols: u32,
    has_comment: u32,
    name_bytes: u64,
    comment_bytes: u64,
}

impl Counts {
    /// Where the gates begin among the words.
    fn before_gates(&self) -> usize {
        let single = [self.inputs, self.outputs, self.bad, self.constraints, self.fairness];
        let justice = [self.justice, self.justice_literals];
        let count: u64 = single.iter().chain(&justice).map(|&count| u64::from(count)).sum();
        count as usize + 3 * self.latches as usize
    }
}

/// `aigtools_outcome` of aigtools.h.
#[repr(C)]
#[derive(Default)]
struct Outcome {
    status: u32,
    kind: u32,
    place: u32,
    subject: u32,
    number: u64,
    length: u64,
}

#[rustfmt::skip]
unsafe extern "C" {
    fn aigtools_read(options: u32, max_var: u32, input: *const u8, input_length: usize,
                     words: *mut u32, words_length: usize, bytes: *mut u8, bytes_length: usize,
                     counts: &mut Counts, outcome: &mut Outcome) -> u32;
    fn aigtools_message(outcome: &Outcome, output: *mut u8, output_length: usize) -> usize;
}

/// The counts and the words of a circuit in order, or why there are none.
fn read(input: &[u8]) -> Result<(Counts, Vec<u32>), String> {
    let (mut words, mut bytes) = (Vec::new(), Vec::new());
    let (mut counts, mut outcome) = (Counts::default(), Outcome::default());
    loop {
        // What is passed lives through the call, and nothing that it writes to overlaps anything.
        #[rustfmt::skip]
        let status = unsafe {
            aigtools_read(ORDERED, LARGEST, input.as_ptr(), input.len(), words.as_mut_ptr(), words.len(),
                          bytes.as_mut_ptr(), bytes.len(), &mut counts, &mut outcome)
        };
        match status {
            DONE => return Ok((counts, words)),
            TOO_SHORT => {
                words.resize(outcome.length as usize, 0);
                bytes.resize((counts.name_bytes + counts.comment_bytes) as usize, 0);
            }
            _ => return Err(message(&outcome)),
        }
    }
}

/// The words for an outcome.
fn message(outcome: &Outcome) -> String {
    let mut room = [0; 80];
    let length = unsafe { aigtools_message(outcome, room.as_mut_ptr(), room.len()) };
    String::from_utf8_lossy(&room[..length]).into_owned()
}

/// How many gates each level has, from 1 on.
fn levels(counts: &Counts, words: &[u32]) -> Vec<u32> {
    let gates = &words[counts.before_gates()..][..3 * counts.gates as usize];
    let mut level_of = vec![0; counts.max_var as usize + 1];
    let mut gates_at = Vec::new();
    // each gate stands behind its operands
    for gate in gates.chunks_exact(3) {
        let below = level_of[gate[1] as usize / 2].max(level_of[gate[2] as usize / 2]);
        level_of[gate[0] as usize / 2] = below + 1;
        if below == gates_at.len() {
            gates_at.push(0);
        }
        gates_at[below] += 1;
    }
    gates_at
}

fn main() -> ExitCode {
    let Some(file) = std::env::args_os().nth(1) else {
        eprintln!("usage: levels FILE");
        return ExitCode::from(2);
    };
    let input = std::fs::read(&file).map_err(|why| why.to_string());
    match input.and_then(|input| read(&input)) {
        Ok((counts, words)) => {
            for (below, gates) in levels(&counts, &words).into_iter().enumerate() {
                println!("{} {gates}", below + 1);
            }
            ExitCode::SUCCESS
        }
        Err(why) => {
            eprintln!("levels: {}: {why}", file.display());
            ExitCode::FAILURE
        }
    }
}

//! How much stack each call takes: it is run on a stack of its own that is filled with a pattern, and what it wrote
//! over is looked at afterwards. Stack that a call sets aside and never writes is not seen; the library clears all
//! that it sets aside.

use crate::calls::{Job, Program, Words, CALLS, LIBRARY, TUNED};
use crate::nets::{self, Input};
use std::arch::asm;

const WORDS: usize = 1 << 17;

pub fn print() {
    println!(
        "Stack of each call in bytes, from the arguments that are handed over on the stack, not counted, down to the"
    );
    println!(
        "lowest byte written, the return address included: the most on the nine nets, a full one and the checks'."
    );
    let mut inputs = nets::nine();
    inputs.push(nets::random(1_024, 11));
    inputs.extend(nets::checks());
    println!();
    println!("| call | ours | tuned |");
    println!("|---|---|---|");
    for call in CALLS {
        if call.only_reads() {
            continue;
        }
        let most = |program: &Program| {
            let used = |input: &Input| Some(used(&Job::new(program, call, input)?.words()));
            inputs.iter().filter_map(used).max().map_or("-".into(), |n| n.to_string())
        };
        println!("| {} | {} | {} |", call.name(), most(&LIBRARY), most(&TUNED));
    }
}

/// The bytes that the call writes below its arguments, by two patterns: a byte may be written with the pattern's own.
fn used(words: &Words) -> usize {
    [0x5A5A_5A5A_5A5A_5A5A, 0xC3C3_C3C3_C3C3_C3C3].map(|pattern| used_of(words, pattern)).into_iter().max().unwrap()
}

fn used_of(words: &Words, pattern: u64) -> usize {
    let mut stack = vec![pattern; WORDS];
    // Room for the arguments behind the sixth; the top is a multiple of 16.
    let mut top = WORDS - 16;
    if stack[top..].as_ptr() as usize % 16 != 0 {
        top -= 1;
    }
    let mut first = [0; 6];
    for (i, &argument) in words.arguments.iter().enumerate() {
        match first.get_mut(i) {
            Some(register) => *register = argument,
            None => stack[top + i - 6] = argument,
        }
    }
    // SAFETY: the arguments are those of the function; it returns, and takes far less than the stack.
    unsafe {
        asm!(
            "xchg rsp, r12",
            "call r13",
            "mov rsp, r12",
            inout("r12") stack.as_mut_ptr().add(top) => _,
            in("r13") words.function,
            inout("rdi") first[0] => _,
            inout("rsi") first[1] => _,
            inout("rdx") first[2] => _,
            inout("rcx") first[3] => _,
            inout("r8") first[4] => _,
            inout("r9") first[5] => _,
            clobber_abi("C"),
        );
    }
    let bytes = stack[..top].iter().flat_map(|word| word.to_le_bytes());
    let untouched = bytes.zip(pattern.to_le_bytes().into_iter().cycle()).take_while(|(a, b)| a == b).count();
    8 * top - untouched
}

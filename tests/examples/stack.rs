//! Prints the least stack, in KiB, with which the program answers the longest input there can be.

use tests::{
    kit::{fed, kit_within},
    matches::Match,
    reference,
};

fn main() {
    let input = Match::longest().bytes();
    let due = reference::program(&input);
    let answers = |stack: usize| {
        let output = fed(&mut kit_within(stack), &input, &[input.len()]);
        output.status.success() && output.stdout == due.as_bytes()
    };
    // too little, and enough
    let (mut less, mut enough) = (0, 8192);
    assert!(answers(enough), "the program does not answer with {enough} KiB");
    while less + 1 < enough {
        let middle = (less + enough) / 2;
        *(if answers(middle) { &mut enough } else { &mut less }) = middle;
    }
    println!("the program answers with {enough} KiB of stack, and not with {less}");
}

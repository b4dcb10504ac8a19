//! What the tests share: the matcher's C interface, an implementation of document 01 to hold it to, inputs for both,
//! what can be wrong with an input, random numbers, a reader of machine code, and a check of what a text cites.

pub mod c;
pub mod calls;
pub mod citations;
pub mod declarations;
pub mod faults;
pub mod input;
pub mod interface;
pub mod kit;
pub mod machine_code;
pub mod map;
pub mod matches;
pub mod random;
pub mod reference;
pub mod samples;

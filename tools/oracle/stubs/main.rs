//! Crate root of the oracle: the unmodified files of `ricevm-limbo`, with
//! `codegen.rs` carrying `driver.rs` as a child module (see build).
#![allow(dead_code, unused)]

mod ast;
mod codegen;
mod symtab;
mod token;

fn main() {
    codegen::driver::main();
}

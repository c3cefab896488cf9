//! Stand-in for the root of the `ricevm_core` crate, which is not among the files that 01 names.
//! Only the re-exports that `codegen.rs` names; the three modules below other
//! than `opcode` are the unmodified files.

pub mod instruction;
pub mod module;
pub mod opcode;
pub mod types;

pub use instruction::{AddressMode, Instruction, MiddleMode, MiddleOperand, Operand};
pub use module::{
    DataItem, ExportEntry, Handler, Header, ImportEntry, ImportModule, Module, RuntimeFlags, XMAGIC,
};
pub use opcode::Opcode;
pub use types::{PointerMap, TypeDescriptor};

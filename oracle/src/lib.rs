//! The XM-23 examination machine in plain Rust, written from the papers alone: 01, the house rules, 02, the
//! change requests, and 003, the ISA paper. It shares no text with the proved crates. Simple comes before fast.

pub mod alu;
pub mod assemble;
pub mod assemble_compare;
pub mod assemble_inputs;
pub mod case;
pub mod compare;
pub mod corners;
pub mod coverage;
pub mod inputs;
pub mod isa;
pub mod journal;
pub mod journal_compare;
pub mod judge;
pub mod listing;
pub mod machine;
pub mod nests;
pub mod number;
pub mod operation;
pub mod places;
pub mod programs;
pub mod random;
pub mod refusals;
pub mod resume;
pub mod screens;
pub mod source_case;
pub mod srec;
pub mod srec_compare;
pub mod srec_inputs;
pub mod stack;
pub mod text_compare;
pub mod trace;
pub mod trace_compare;
pub mod walk;

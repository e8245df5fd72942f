//! An independent second implementation of the shed, written from the documents in `docs/` alone
//! (GLOSSARY, RULES, FRAMES, CALLS, GUARANTEE, RECOUNT, SCHEDULE, DECISIONS). It is a test peer:
//! no part of the product and no part of its proof.

pub mod asking;
pub mod calls;
pub mod frames;
pub mod making;
pub mod recount;
pub mod rules;
pub mod schedule;
pub mod shed;
pub mod tally;

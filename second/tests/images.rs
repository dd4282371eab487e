//! The image: its bytes, its soundness clause by clause, the refusal of what isn't sound, changes that break or keep
//! soundness, and files of cases (01, The table; IMAGE.md).

#[path = "images/file.rs"]
mod file;
#[path = "images/sample.rs"]
mod sample;

#[path = "images/boundaries.rs"]
mod boundaries;
#[path = "images/cases.rs"]
mod cases;
#[path = "images/damages.rs"]
mod damages;
#[path = "images/layout.rs"]
mod layout;
#[path = "images/refusals.rs"]
mod refusals;

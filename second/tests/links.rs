//! The image with links: its bytes by hand, its soundness clause by clause, damages, and files of cases (IMAGE.md, the
//! image with links).

#[path = "images/file.rs"]
mod file;
#[path = "images/sample.rs"]
mod sample;

#[path = "links/boundaries.rs"]
mod boundaries;
#[path = "links/cases.rs"]
mod cases;
#[path = "links/damages.rs"]
mod damages;
#[path = "links/layout.rs"]
mod layout;
#[path = "links/refusals.rs"]
mod refusals;

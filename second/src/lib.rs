//! A plain and literal kernel table after document 01, and the tools around it: the replay program, a generator of
//! replay files, and the table as an image of bytes. It is written to be compared with another kernel, so each part
//! is as near to the document's sentences as Rust allows, and nothing is saved that can be worked out.

pub mod calls;
pub mod jump;
pub mod replay;
pub mod table;
pub mod tick;

pub mod coverage;
pub mod generate;
pub mod random;

pub mod cases;
pub mod damage;
pub mod image;
pub mod links;
pub mod sound;

//! The table as bytes with links (IMAGE.md, the image with links): writing, reading, and a whole call on an image. As
//! with rows, an image of another length or one that isn't sound is answer 1 and stays as it is, byte for byte.

pub mod cases;
pub mod damage;
pub mod layout;
pub mod rows;
pub mod sound;

use crate::calls;
use crate::image::{self, REFUSED};
use crate::table::{ListName, Report, Request, Table};
use layout::{lay, LINKS};

pub const LENGTH: usize = layout::LENGTH;

pub fn call(image: &mut [u8], request: &Request) -> Report {
    match read(image) {
        None => REFUSED,
        Some(mut table) => {
            let report = calls::call(&mut table, request);
            image.copy_from_slice(&write(&table));
            report
        }
    }
}

/// The table in an image; None where the image is refused.
pub fn read(image: &[u8]) -> Option<Table> {
    if sound::is_sound(image) {
        image::read(&rows::rows_of(image))
    } else {
        None
    }
}

/// Head and records stand as in the image with rows.
pub fn write(table: &Table) -> [u8; LENGTH] {
    let mut image = [0; LENGTH];
    image[..LINKS].copy_from_slice(&image::write(table)[..LINKS]);
    for (list, name) in ListName::all().enumerate() {
        lay(&mut image, list, table.list(name));
    }
    image
}

//! The same table in both layouts: an image with links as the image with rows of ids, and back.

use super::layout::{ids, lay, LENGTH, LINKS};
use super::sound::links_are_right;
use crate::image;
use crate::image::layout::ids as ids_of_row;
use crate::image::write_list;
use crate::table::{ListName, THREADS};

/// The image with rows of the table that is read off an image with links, which has the right length. The links may
/// be wrong: the rows then hold the lists as they are read.
pub fn rows_of(image: &[u8]) -> Vec<u8> {
    let mut written = vec![0; image::LENGTH];
    written[..LINKS].copy_from_slice(&image[..LINKS]);
    for (list, name) in ListName::all().enumerate() {
        write_list(&mut written, name, &ids(image, list));
    }
    written
}

/// The image with links of an image with rows; None where links can't tell what the rows do, as with an id that is no
/// thread's or a thread that stands in two places.
pub fn with_links(written: &[u8]) -> Option<Vec<u8>> {
    if written.len() != image::LENGTH {
        return None;
    }
    let mut image = vec![0; LENGTH];
    image[..LINKS].copy_from_slice(&written[..LINKS]);
    for (list, name) in ListName::all().enumerate() {
        let ids: Vec<usize> = ids_of_row(written, name).iter().map(|id| usize::from(*id)).collect();
        if ids.iter().any(|id| *id >= THREADS) {
            return None;
        }
        lay(&mut image, list, &ids);
    }
    if links_are_right(&image) && rows_of(&image) == written {
        Some(image)
    } else {
        None
    }
}

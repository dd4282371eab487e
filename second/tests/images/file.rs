//! Files of cases taken apart and put together, for the tests of both layouts.

use second::cases::{NUMBER_BYTES, REQUEST_BYTES};

/// The answers that leave the table as it was.
pub const REFUSALS: std::ops::RangeInclusive<u32> = 1..=9;

pub fn numbers(numbers: &[u32]) -> Vec<u8> {
    numbers.iter().flat_map(|number| number.to_le_bytes()).collect()
}

/// The length before an image.
pub fn length(image: &[u8]) -> Vec<u8> {
    numbers(&[image.len() as u32])
}

/// A case of a file: the image and the request's numbers.
pub fn split(mut file: &[u8]) -> Vec<(&[u8], Vec<u32>)> {
    let mut split = Vec::new();
    while !file.is_empty() {
        let length = u32::from_le_bytes([file[0], file[1], file[2], file[3]]) as usize;
        let (image, rest) = file[NUMBER_BYTES..].split_at(length);
        let request = rest[..REQUEST_BYTES]
            .chunks(NUMBER_BYTES)
            .map(|four| u32::from_le_bytes([four[0], four[1], four[2], four[3]]));
        split.push((image, request.collect()));
        file = &rest[REQUEST_BYTES..];
    }
    split
}

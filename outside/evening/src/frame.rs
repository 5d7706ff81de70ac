//! The frame around an image: its length, the image, the checksum of both; lowest byte first.

use crate::checksum;

const LENGTH_BYTES: usize = 8;
const CHECKSUM_BYTES: usize = 4;

/// The bytes of a file that holds the image.
pub fn framed(image: &[u8]) -> Vec<u8> {
    let mut bytes = (image.len() as u64).to_le_bytes().to_vec();
    bytes.extend(image);
    bytes.extend(checksum(&bytes).to_le_bytes());
    bytes
}

/// The image that a file's bytes hold, if they are whole and undamaged.
pub fn image_in(bytes: &[u8]) -> Option<&[u8]> {
    let (front, sum) = bytes.split_last_chunk::<CHECKSUM_BYTES>()?;
    let (length, image) = front.split_first_chunk::<LENGTH_BYTES>()?;
    let whole = u64::from_le_bytes(*length) == image.len() as u64;
    (whole && u32::from_le_bytes(*sum) == checksum(front)).then_some(image)
}

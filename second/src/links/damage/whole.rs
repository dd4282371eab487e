//! Damage to the image as a whole.

use crate::damage::draft::Draft;
use crate::links::rows::rows_of;

/// The same table with rows: sound there, and no image here.
pub fn other_layout(draft: &mut Draft) -> Option<()> {
    draft.image = rows_of(&draft.image);
    Some(())
}

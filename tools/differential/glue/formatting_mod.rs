//! What the sources expect of `utils/formatting/mod.rs`.

pub mod borders;
pub mod content_format;
pub mod content_split;

use super::ColumnDisplayInfo;

/// The field is private to `utils`, and this module is the only glue that stands inside it.
pub fn is_hidden(info: &ColumnDisplayInfo) -> bool {
    info.is_hidden
}

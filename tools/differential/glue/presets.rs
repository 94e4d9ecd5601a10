//! The one preset that `table.rs` names. Every compared table replaces it.

use super::TableStyle;

pub const ASCII_FULL: TableStyle = TableStyle::new();

//! Crate root for the unchanged comfy-table sources, built without features.

mod cell;
mod column;
pub mod inside;
mod row;
mod style;
mod table;
mod utils;

pub use cell::Cell;
pub use column::Column;
pub use row::Row;
pub use style::{
    CellAlignment, ColumnConstraint, ContentArrangement, ContentLineStyle, LineStyle, TableStyle,
    Width,
};
pub use table::Table;

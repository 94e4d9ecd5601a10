//! What the sources expect of `style/mod.rs`, without terminal styling.

mod cell;
mod column;
pub mod presets;
mod table;
mod table_style;

pub use cell::CellAlignment;
pub use column::{ColumnConstraint, Width};
pub use table::ContentArrangement;
pub use table_style::{ContentLineStyle, LineStyle, TableStyle};

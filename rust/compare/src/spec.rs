//! Descriptions of files and sheets, from which their bytes are built.

mod aimed;
mod boxes;
mod classification;
mod fields;
mod file;
mod geokeys;
mod record;
mod sheet;
mod text;

pub use aimed::value_from_to;
pub use boxes::{BoxSpec, Stored, TELLING, place_of, put_place};
pub use classification::{
    CLASSIFICATION, HIGHEST_CLASS, KEY_POINT, SYNTHETIC, WITHHELD, class_of, is_withheld,
    random_classification,
};
pub use fields::{as_decoded, random_fields};
pub use file::{
    FileSpec, LAYOUTS, POINT_SIZES, random_offset, random_point, random_point_of, random_scale,
};
pub use geokeys::{directory, keys_of, projection, random_geokeys};
pub use record::{RECORD_IDS, RecordSpec};
pub use sheet::{ByBoxes, LineSpec, MOST_LINES, SheetSpec};
pub use text::{USER_IDS, cut, padded, random_text, with_tail};

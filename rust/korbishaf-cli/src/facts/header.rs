//! The fields of a header, each with its names in text and in JSON.

use crate::json::Json;
use crate::layout::POINT_SIZES;
use crate::shown;
use korbishaf::{Guid, Header};

/// The fields that every point format has.
const SHARED: [&str; 14] = [
    "X",
    "Y",
    "Z",
    "intensity",
    "return number",
    "number of returns",
    "scan direction",
    "edge of flight line",
    "class",
    "synthetic",
    "key-point",
    "scan angle rank",
    "user data",
    "point source ID",
];

/// What a release has of a record that goes out.
pub const RECORD_FIELDS: [&str; 4] = ["user ID", "record ID", "description", "payload"];

/// A field of the header.
#[derive(Debug)]
pub struct Field<'a> {
    /// Its name.
    pub name: &'static str,
    /// Its name in JSON.
    pub member: &'static str,
    /// Its value.
    pub value: Value<'a>,
    /// What a release has of it.
    pub published: Published,
}

/// What a release has of a field.
#[derive(Clone, Copy, Debug, PartialEq, Eq)]
pub enum Published {
    /// Its value, whatever the sheet says.
    Always,
    /// A value of its own.
    Anew,
}

/// A field's value.
#[derive(Debug)]
pub enum Value<'a> {
    /// A number.
    Number(u64),
    /// Bytes of a text.
    Text(&'a [u8]),
    /// The project GUID.
    Guid(Guid),
    /// Words for what a number means.
    Words(String),
    /// Values for X, Y and Z.
    Doubles([f64; 3]),
}

impl Value<'_> {
    /// The value as text.
    pub fn text(&self) -> String {
        match self {
            Value::Number(number) => number.to_string(),
            Value::Text(bytes) => format!("\"{}\"", shown::text(bytes)),
            Value::Guid(guid) => guid.to_string(),
            Value::Words(words) => words.clone(),
            Value::Doubles([x, y, z]) => format!("{x:?}, {y:?}, {z:?}"),
        }
    }

    /// The value as JSON.
    pub fn json(&self) -> Json {
        match self {
            Value::Number(number) => Json::number(*number),
            Value::Text(bytes) => Json::text(shown::text(bytes)),
            Value::Guid(guid) => Json::text(guid.to_string()),
            Value::Words(words) => Json::text(words),
            Value::Doubles(doubles) => Json::list(*doubles, Json::Double),
        }
    }
}

/// The fields, in the order of the header; without what it states of the points' returns and bounds.
pub fn fields<'a>(header: &Header<'a>) -> Vec<Field<'a>> {
    use Published::{Always, Anew};
    use Value::{Doubles, Number, Text, Words};
    let (major, minor) = header.version;
    let field = |name, member, published, value| Field {
        name,
        member,
        value,
        published,
    };
    let number =
        |name, member, published, number: u64| field(name, member, published, Number(number));
    #[rustfmt::skip]
    let fields = vec![
        number("file source ID", "file_source_id", Always, header.file_source_id.into()),
        number("global encoding", "global_encoding", Always, header.global_encoding.into()),
        field("project GUID", "project_guid", Always, Value::Guid(header.guid)),
        field("version", "version", Anew, Words(format!("{major}.{minor}"))),
        field("system identifier", "system_identifier", Always, Text(header.system_identifier)),
        field("generating software", "generating_software", Always, Text(header.generating_software)),
        number("creation day", "creation_day", Always, header.creation_day.into()),
        number("creation year", "creation_year", Always, header.creation_year.into()),
        number("header size", "header_size", Anew, header.header_size.into()),
        number("point offset", "point_offset", Anew, header.point_offset.into()),
        number("number of records", "number_of_records", Anew, header.record_count.into()),
        number("point format", "point_format", Always, header.point_format.into()),
        number("record length", "record_length", Always, header.record_length.into()),
        number("extra bytes per point", "extra_bytes_per_point", Always, extra_bytes(header).into()),
        number("number of points", "number_of_points", Anew, header.point_count.into()),
        field("X, Y, Z scales", "scales", Always, Doubles(header.scale)),
        field("X, Y, Z offsets", "offsets", Always, Doubles(header.offset)),
    ];
    fields
}

/// How many bytes each point has beyond those of its format.
fn extra_bytes(header: &Header<'_>) -> u16 {
    let size = POINT_SIZES.get(usize::from(header.point_format));
    size.map_or(0, |&size| header.record_length.saturating_sub(size))
}

/// What each point of the file's format has.
pub fn point_fields(header: &Header<'_>) -> Vec<&'static str> {
    let mut names = SHARED.to_vec();
    if matches!(header.point_format, 1 | 3) {
        names.push("GPS time");
    }
    if matches!(header.point_format, 2 | 3) {
        names.extend(["red", "green", "blue"]);
    }
    if extra_bytes(header) > 0 {
        names.push("extra bytes");
    }
    names
}

//! Files with a GeoKey directory, made entry by entry.

/// The record ID of the directory.
pub const DIRECTORY: u16 = 34735;
/// The record ID of the doubles, and the location that means them.
pub const DOUBLES: u16 = 34736;
/// The record ID of the texts, and the location that means them.
pub const TEXTS: u16 = 34737;

/// A record of the GeoKeys' user ID: its record ID and its payload.
pub type Projection = (u16, Vec<u8>);

/// A directory of these entries: key, location, count, value offset.
pub fn directory(entries: &[[u16; 4]]) -> Projection {
    let head = [1, 1, 0, entries.len() as u16];
    let numbers = head.iter().chain(entries.as_flattened());
    let payload = numbers.flat_map(|number| number.to_le_bytes());
    (DIRECTORY, payload.collect())
}

/// A file of format 0 with these records and no points.
pub fn file(records: &[Projection]) -> Vec<u8> {
    let mut file = vec![0; 227];
    file[..4].copy_from_slice(b"LASF");
    file[24..26].copy_from_slice(&[1, 2]);
    file[94] = 227;
    file[100..104].copy_from_slice(&(records.len() as u32).to_le_bytes());
    file[105] = 20;
    for scale in [131, 139, 147] {
        file[scale..scale + 8].copy_from_slice(&0.5f64.to_le_bytes());
    }
    for (record_id, payload) in records {
        let mut header = [0; 54];
        header[2..17].copy_from_slice(b"LASF_Projection");
        header[18..20].copy_from_slice(&record_id.to_le_bytes());
        header[20..22].copy_from_slice(&(payload.len() as u16).to_le_bytes());
        file.extend(header);
        file.extend(payload);
    }
    let offset = file.len() as u32;
    file[96..100].copy_from_slice(&offset.to_le_bytes());
    file
}

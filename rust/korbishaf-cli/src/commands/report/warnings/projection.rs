//! A GeoKey directory that goes out without what its keys point to.

use super::super::plan::Plan;
use super::super::warning::Warning;
use crate::facts::geokeys;
use crate::facts::records::{DIRECTORY, DOUBLES, PROJECTION, TEXTS};
use crate::json::Json;
use korbishaf::record_kept;

/// The warnings.
pub fn of(plan: &Plan<'_>) -> Vec<Warning> {
    if !record_kept(&plan.sheet, PROJECTION, DIRECTORY) {
        return Vec::new();
    }
    let parameters = [DOUBLES, TEXTS].into_iter();
    parameters
        .filter_map(|record_id| Some((record_id, plan.facts.geokeys.first_at(record_id)?)))
        .filter_map(|(record_id, key)| missing(plan, record_id, key))
        .collect()
}

/// The warning for a parameter record that a key points to, unless it goes out too.
fn missing(plan: &Plan<'_>, record_id: u16, key: u16) -> Option<Warning> {
    let name = geokeys::name(key).map_or(String::new(), |name| format!(" {name}"));
    let points_to =
        format!("the GeoKey directory goes out, and its key {key}{name} points to the record");
    let about = vec![
        ("record_id", Json::number(record_id)),
        ("key", Json::number(key)),
    ];
    let mut records = plan.facts.records();
    if !records.any(|record| (record.user_id, record.record_id) == (PROJECTION, record_id)) {
        let words =
            format!("{points_to} LASF_Projection {record_id}, which this file does not have");
        Some(Warning::new("parameters_absent", words, about))
    } else if !record_kept(&plan.sheet, PROJECTION, record_id) {
        let words = format!(
            "{points_to} LASF_Projection {record_id}, which stays; \
             the line 'record LASF_Projection {record_id}' would keep it"
        );
        Some(Warning::new("parameters_not_kept", words, about))
    } else {
        None
    }
}

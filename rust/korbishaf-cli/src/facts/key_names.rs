//! The names of GeoKeys, and of some of their values, in the GeoTIFF specification, which LAS 1.2 refers to for them.

/// The name of a key.
pub fn name(key: u16) -> Option<&'static str> {
    let place = NAMES.binary_search_by_key(&key, |&(named, _)| named).ok()?;
    NAMES.get(place).map(|&(_, name)| name)
}

/// The key of a name, in any case.
pub fn key_named(word: &str) -> Option<u16> {
    let found = NAMES
        .iter()
        .find(|(_, name)| name.eq_ignore_ascii_case(word));
    found.map(|&(key, _)| key)
}

/// The one name that has these letters somewhere, in any case; none where several have them.
pub fn name_with(letters: &str) -> Option<&'static str> {
    let letters = letters.to_ascii_lowercase();
    let names = NAMES.iter().map(|&(_, name)| name);
    let mut found = names.filter(|name| name.to_ascii_lowercase().contains(&letters));
    found.next().filter(|_| found.next().is_none())
}

/// What a key's short means, where that is a short list.
pub fn meaning(key: u16, value: u16) -> Option<&'static str> {
    let values = match key {
        1024 => &MODEL_TYPES[..],
        1025 => &RASTER_TYPES,
        2052 | 3076 | 4099 => &LINEAR_UNITS,
        2054 | 2060 => &ANGULAR_UNITS,
        _ => return None,
    };
    let found = values.iter().find(|&&(known, _)| known == value);
    found.map(|&(_, meaning)| meaning)
}

const MODEL_TYPES: [(u16, &str); 3] = [(1, "projected"), (2, "geographic"), (3, "geocentric")];

const RASTER_TYPES: [(u16, &str); 2] = [(1, "pixel is area"), (2, "pixel is point")];

const LINEAR_UNITS: [(u16, &str); 15] = [
    (9001, "metre"),
    (9002, "foot"),
    (9003, "US survey foot"),
    (9004, "modified American foot"),
    (9005, "Clarke foot"),
    (9006, "Indian foot"),
    (9007, "link"),
    (9008, "Benoit link"),
    (9009, "Sears link"),
    (9010, "Benoit chain"),
    (9011, "Sears chain"),
    (9012, "Sears yard"),
    (9013, "Indian yard"),
    (9014, "fathom"),
    (9015, "international nautical mile"),
];

const ANGULAR_UNITS: [(u16, &str); 8] = [
    (9101, "radian"),
    (9102, "degree"),
    (9103, "arc-minute"),
    (9104, "arc-second"),
    (9105, "grad"),
    (9106, "gon"),
    (9107, "degree, minute, second"),
    (9108, "degree, minute, second, hemisphere"),
];

/// In the order of the keys.
const NAMES: [(u16, &str); 45] = [
    (1024, "GTModelTypeGeoKey"),
    (1025, "GTRasterTypeGeoKey"),
    (1026, "GTCitationGeoKey"),
    (2048, "GeographicTypeGeoKey"),
    (2049, "GeogCitationGeoKey"),
    (2050, "GeogGeodeticDatumGeoKey"),
    (2051, "GeogPrimeMeridianGeoKey"),
    (2052, "GeogLinearUnitsGeoKey"),
    (2053, "GeogLinearUnitSizeGeoKey"),
    (2054, "GeogAngularUnitsGeoKey"),
    (2055, "GeogAngularUnitSizeGeoKey"),
    (2056, "GeogEllipsoidGeoKey"),
    (2057, "GeogSemiMajorAxisGeoKey"),
    (2058, "GeogSemiMinorAxisGeoKey"),
    (2059, "GeogInvFlatteningGeoKey"),
    (2060, "GeogAzimuthUnitsGeoKey"),
    (2061, "GeogPrimeMeridianLongGeoKey"),
    (3072, "ProjectedCSTypeGeoKey"),
    (3073, "PCSCitationGeoKey"),
    (3074, "ProjectionGeoKey"),
    (3075, "ProjCoordTransGeoKey"),
    (3076, "ProjLinearUnitsGeoKey"),
    (3077, "ProjLinearUnitSizeGeoKey"),
    (3078, "ProjStdParallel1GeoKey"),
    (3079, "ProjStdParallel2GeoKey"),
    (3080, "ProjNatOriginLongGeoKey"),
    (3081, "ProjNatOriginLatGeoKey"),
    (3082, "ProjFalseEastingGeoKey"),
    (3083, "ProjFalseNorthingGeoKey"),
    (3084, "ProjFalseOriginLongGeoKey"),
    (3085, "ProjFalseOriginLatGeoKey"),
    (3086, "ProjFalseOriginEastingGeoKey"),
    (3087, "ProjFalseOriginNorthingGeoKey"),
    (3088, "ProjCenterLongGeoKey"),
    (3089, "ProjCenterLatGeoKey"),
    (3090, "ProjCenterEastingGeoKey"),
    (3091, "ProjCenterNorthingGeoKey"),
    (3092, "ProjScaleAtNatOriginGeoKey"),
    (3093, "ProjScaleAtCenterGeoKey"),
    (3094, "ProjAzimuthAngleGeoKey"),
    (3095, "ProjStraightVertPoleLongGeoKey"),
    (4096, "VerticalCSTypeGeoKey"),
    (4097, "VerticalCitationGeoKey"),
    (4098, "VerticalDatumGeoKey"),
    (4099, "VerticalUnitsGeoKey"),
];

#[cfg(test)]
mod tests {
    use super::*;

    #[test]
    fn names_are_found() {
        assert!(NAMES.is_sorted_by(|(before, _), (key, _)| before < key));
        for (key, wanted) in NAMES {
            assert_eq!(name(key), Some(wanted));
        }
        for key in [0, 1023, 1027, 2062, 4100, 65535] {
            assert_eq!(name(key), None, "{key}");
        }
    }

    #[test]
    fn keys_are_found_by_their_names() {
        for (key, name) in NAMES {
            assert_eq!(key_named(name), Some(key));
            assert_eq!(key_named(&name.to_uppercase()), Some(key));
        }
        for word in ["", "GTModelType", "GTModelTypeGeoKey ", "1024"] {
            assert_eq!(key_named(word), None, "{word}");
        }
    }

    #[test]
    fn a_part_of_one_name_stands_for_it() {
        assert_eq!(name_with("gtmodeltype"), Some("GTModelTypeGeoKey"));
        assert_eq!(
            name_with("VerticalDatumGeoKey"),
            Some("VerticalDatumGeoKey")
        );
        for letters in ["", "Citation", "GTModelTypes", "1024"] {
            assert_eq!(name_with(letters), None, "{letters}");
        }
    }

    #[test]
    fn values_mean_something_for_their_keys_alone() {
        assert_eq!(meaning(1024, 2), Some("geographic"));
        assert_eq!(meaning(1025, 2), Some("pixel is point"));
        assert_eq!(meaning(4099, 9003), Some("US survey foot"));
        assert_eq!(meaning(2054, 9102), Some("degree"));
        assert_eq!(meaning(1024, 9001), None);
        assert_eq!(meaning(3072, 9001), None);
    }
}

//! Builds of the proved library, called on slices. All of the program's unsafe code is here, in [`lister`] and in
//! [`loading`].

mod lister;
mod loading;

pub use lister::Lister;

use korbishaf::sys::{
    self, las_class_line, las_geokey, las_geokey_read, las_mended, las_point, las_released,
};

type Release = unsafe extern "C" fn(*const u8, u64, *const u8, u64, *mut u8, u64) -> las_released;
type CheckFile = unsafe extern "C" fn(*const u8, u64) -> u64;
type Decode = unsafe extern "C" fn(u8, u16, *const u8, u64) -> las_point;
type Encode = unsafe extern "C" fn(u8, u16, las_point, *mut u8, u64) -> u64;
type GeoKeyFind = unsafe extern "C" fn(*const u8, u64, u16) -> las_geokey;
type GeoKeyHalve = unsafe extern "C" fn(*const u8, u64, u16) -> las_geokey_read;
type Mend = unsafe extern "C" fn(*mut u8, u64) -> las_mended;
type ClassTest = unsafe extern "C" fn(*const u8, u64, u8) -> las_class_line;

/// One build, by those of its functions that are timed. Every build is called through pointers, so that none is called
/// in a faster way.
pub struct Library {
    release: Release,
    check_file: CheckFile,
    decode: Decode,
    encode: Encode,
    geokey_find: GeoKeyFind,
    mender: Option<Mender>,
    tester: Option<Tester>,
    lister: Option<Lister>,
    halver: Option<Halver>,
}

/// What mends files in a build.
#[derive(Clone, Copy)]
pub struct Mender(Mend);

/// What looks for the line of a sheet that holds a class in a build.
#[derive(Clone, Copy)]
pub struct Tester(ClassTest);

/// What looks GeoKeys up by halving in a build.
#[derive(Clone, Copy)]
pub struct Halver(GeoKeyHalve);

impl Library {
    /// The build that is linked into the program.
    pub fn linked() -> Self {
        Self {
            release: sys::las_release,
            check_file: sys::las_check_file,
            decode: sys::las_decode,
            encode: sys::las_encode,
            geokey_find: sys::las_geokey_find,
            mender: Some(Mender(sys::las_mend)),
            tester: Some(Tester(sys::las_class_test)),
            lister: Some(Lister {
                cutting_list: sys::las_cutting_list,
                release_by_list: sys::las_release_by_list,
            }),
            halver: Some(Halver(sys::las_geokey_halve)),
        }
    }

    pub fn release(&self, file: &[u8], sheet: &[u8], out: &mut [u8]) -> las_released {
        // SAFETY: each pointer comes with its slice's length, and the borrows keep the output apart from the rest.
        unsafe {
            (self.release)(
                file.as_ptr(),
                file.len() as u64,
                sheet.as_ptr(),
                sheet.len() as u64,
                out.as_mut_ptr(),
                out.len() as u64,
            )
        }
    }

    pub fn check_file(&self, file: &[u8]) -> u64 {
        // SAFETY: as above.
        unsafe { (self.check_file)(file.as_ptr(), file.len() as u64) }
    }

    pub fn decode(&self, format: u8, bytes: &[u8]) -> las_point {
        let length = bytes.len();
        // SAFETY: as above.
        unsafe { (self.decode)(format, length as u16, bytes.as_ptr(), length as u64) }
    }

    pub fn encode(&self, format: u8, point: las_point, room: &mut [u8]) -> u64 {
        let length = room.len();
        let to = room.as_mut_ptr();
        // SAFETY: as above.
        unsafe { (self.encode)(format, length as u16, point, to, length as u64) }
    }

    pub fn geokey_find(&self, file: &[u8], key: u16) -> las_geokey {
        // SAFETY: as above.
        unsafe { (self.geokey_find)(file.as_ptr(), file.len() as u64, key) }
    }

    /// What mends files, but in a build that is older than mending.
    pub fn mender(&self) -> Option<Mender> {
        self.mender
    }

    /// What tests classes, but in a build that is older than the class test.
    pub fn tester(&self) -> Option<Tester> {
        self.tester
    }

    /// What makes cutting lists and releases by them, but in a build that is older than these.
    pub fn lister(&self) -> Option<Lister> {
        self.lister
    }

    /// What looks GeoKeys up by halving, but in a build that is older than that.
    pub fn halver(&self) -> Option<Halver> {
        self.halver
    }
}

impl Mender {
    pub fn mend(self, file: &mut [u8]) -> las_mended {
        // SAFETY: as above.
        unsafe { (self.0)(file.as_mut_ptr(), file.len() as u64) }
    }
}

impl Tester {
    pub fn class_test(self, sheet: &[u8], class: u8) -> las_class_line {
        // SAFETY: as above.
        unsafe { (self.0)(sheet.as_ptr(), sheet.len() as u64, class) }
    }
}

impl Halver {
    pub fn geokey_halve(self, file: &[u8], key: u16) -> las_geokey_read {
        // SAFETY: as above.
        unsafe { (self.0)(file.as_ptr(), file.len() as u64, key) }
    }
}

//! Builds that are loaded while the program runs: two builds have the same names, so only one of them can be linked.

use std::ffi::{CStr, CString, c_char, c_int, c_void};
use std::mem::transmute;
use std::path::Path;

use super::lister::{CuttingList, Lister, ReleaseByList};
use super::{
    CheckFile, ClassTest, Decode, Encode, GeoKeyFind, GeoKeyHalve, Halver, Library, Mend, Mender,
    Release, Tester,
};

unsafe extern "C" {
    fn dlopen(path: *const c_char, mode: c_int) -> *mut c_void;
    fn dlsym(object: *mut c_void, name: *const c_char) -> *mut c_void;
    fn dlerror() -> *const c_char;
}

const RTLD_NOW: c_int = 2;

impl Library {
    /// The build in the shared object at `path`. It stays loaded as long as the program runs.
    pub fn load(path: &Path) -> Result<Self, String> {
        let object = open(path).map_err(|why| format!("{}: {why}", path.display()))?;
        let find = |name| function(object, name);
        let mend = find(c"las_mend").ok();
        let class_test = find(c"las_class_test").ok();
        let lists =
            find(c"las_cutting_list").and_then(|list| Ok((list, find(c"las_release_by_list")?)));
        let halve = find(c"las_geokey_halve").ok();
        // SAFETY: the header of every build declares functions of these names with these types, if it has them.
        unsafe {
            Ok(Self {
                release: transmute::<*mut c_void, Release>(find(c"las_release")?),
                check_file: transmute::<*mut c_void, CheckFile>(find(c"las_check_file")?),
                decode: transmute::<*mut c_void, Decode>(find(c"las_decode")?),
                encode: transmute::<*mut c_void, Encode>(find(c"las_encode")?),
                geokey_find: transmute::<*mut c_void, GeoKeyFind>(find(c"las_geokey_find")?),
                mender: mend.map(|mend| Mender(transmute::<*mut c_void, Mend>(mend))),
                tester: class_test.map(|test| Tester(transmute::<*mut c_void, ClassTest>(test))),
                lister: lists.ok().map(|(list, release)| Lister {
                    cutting_list: transmute::<*mut c_void, CuttingList>(list),
                    release_by_list: transmute::<*mut c_void, ReleaseByList>(release),
                }),
                halver: halve.map(|halve| Halver(transmute::<*mut c_void, GeoKeyHalve>(halve))),
            })
        }
    }
}

fn open(path: &Path) -> Result<*mut c_void, String> {
    // A whole path, since a bare name would be looked for among the system's libraries.
    let whole = path.canonicalize().map_err(|error| error.to_string())?;
    let name = CString::new(whole.into_os_string().into_encoded_bytes())
        .map_err(|error| error.to_string())?;
    // SAFETY: the name ends with a zero byte; that the object is a build of the library is up to who names it.
    let object = unsafe { dlopen(name.as_ptr(), RTLD_NOW) };
    if object.is_null() {
        Err(last_error())
    } else {
        Ok(object)
    }
}

fn function(object: *mut c_void, name: &CStr) -> Result<*mut c_void, String> {
    // SAFETY: the object was opened and is never closed, and the name ends with a zero byte.
    let found = unsafe { dlsym(object, name.as_ptr()) };
    if found.is_null() {
        Err(last_error())
    } else {
        Ok(found)
    }
}

fn last_error() -> String {
    // SAFETY: after a failure this is a text that ends with a zero byte, or null.
    unsafe {
        let text = dlerror();
        if text.is_null() {
            return "not loaded".to_string();
        }
        CStr::from_ptr(text).to_string_lossy().into_owned()
    }
}

//! Shared objects that are loaded while the program runs.

use std::ffi::{c_char, c_int, c_void, CStr};

extern "C" {
    fn dlopen(name: *const c_char, mode: c_int) -> *mut c_void;
    fn dlsym(object: *mut c_void, name: *const c_char) -> *mut c_void;
}

const RTLD_LOCAL: c_int = 0;
const RTLD_NOW: c_int = 2;

/// A shared object. It stays loaded to the program's end, so that its functions may be called at any time.
pub struct Shared(*mut c_void);

impl Shared {
    /// The object of this name or path, if it can be loaded. No other object sees its names, so that two versions of
    /// the library with the same names do not mix.
    pub fn load(name: &CStr) -> Option<Shared> {
        // SAFETY: the name ends in 0; what is loaded here (zlib, the library) does nothing when it is loaded.
        let object = unsafe { dlopen(name.as_ptr(), RTLD_NOW | RTLD_LOCAL) };
        (!object.is_null()).then_some(Shared(object))
    }

    /// The address of a function, or null.
    pub fn address(&self, name: &CStr) -> *mut c_void {
        // SAFETY: the object is loaded, and the name ends in 0.
        unsafe { dlsym(self.0, name.as_ptr()) }
    }
}

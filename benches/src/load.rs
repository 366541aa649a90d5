//! Functions of shared libraries, found while the program runs.

use std::ffi::{c_char, c_int, c_void, CString};
use std::mem::{size_of, transmute_copy};

extern "C" {
    fn dlopen(path: *const c_char, flags: c_int) -> *mut c_void;
    fn dlsym(library: *mut c_void, name: *const c_char) -> *mut c_void;
}

const RTLD_NOW: c_int = 2;

/// A shared library, which stays loaded to the end of the program.
pub struct Library(*mut c_void);

impl Library {
    pub fn open(path: &str) -> Option<Library> {
        let path = CString::new(path).ok()?;
        // SAFETY: the path is a C string. What runs when the library is loaded is the caller's choice of library.
        let library = unsafe { dlopen(path.as_ptr(), RTLD_NOW) };
        (!library.is_null()).then_some(Library(library))
    }

    /// The function of this name.
    ///
    /// # Safety
    ///
    /// `F` is a function pointer, of the type that the function has in the library.
    pub unsafe fn function<F: Copy>(&self, name: &str) -> F {
        assert_eq!(size_of::<F>(), size_of::<*mut c_void>());
        let text = CString::new(name).expect("a name of a function");
        let found = dlsym(self.0, text.as_ptr());
        assert!(!found.is_null(), "the library has no {name}");
        transmute_copy(&found)
    }
}

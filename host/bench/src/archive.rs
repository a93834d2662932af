//! An archive of the engine, made a shared object and loaded while the program
//! runs. All that is unsafe in the benchmark is in this module.
//!
//! It is sound for a shared object that has the calls below as this checkout's
//! `include/pension.h` has them: the types are those of the header, and the
//! structs are those of [`engine`], which a test compares with it. An archive of
//! another checkout keeps that checkout's header, which may differ. So
//! `make compare` first compiles `calls.c`, which states the same calls and
//! structs in C, with the headers of both checkouts, and ends if it can't. That
//! an archive was made from its checkout as it stands is left to the caller.
//! Objects are never unloaded, so that the addresses of their calls stay good.

use std::ffi::{c_char, c_int, c_void, CStr, CString};
use std::io;
use std::mem;
use std::os::unix::ffi::OsStrExt;
use std::path::{self, Path};

use engine::{Checked, Found, FoundMember, Quote};

use crate::implementations::{Implementation, FIRST_NUMBER};

extern "C" {
    fn dlopen(path: *const c_char, flags: c_int) -> *mut c_void;
    fn dlsym(object: *mut c_void, name: *const c_char) -> *mut c_void;
    fn dlerror() -> *const c_char;
}

/// The values of Linux.
const RTLD_NOW: c_int = 2;
const RTLD_LOCAL: c_int = 0;

type QuoteCall = unsafe extern "C" fn(*const u8, usize) -> Quote;
type CheckCall = unsafe extern "C" fn(*const u8, usize, usize) -> Checked;
type FileAllCall =
    unsafe extern "C" fn(*mut u8, usize, u32, *const u8, usize, *mut u8, usize) -> usize;
type FindNumberCall = unsafe extern "C" fn(*const u8, usize, usize, u32) -> Found;
type FindMemberCall = unsafe extern "C" fn(*const u8, usize, usize, u32) -> FoundMember;

/// The calls of a loaded archive.
pub struct Archive {
    quote: QuoteCall,
    check: CheckCall,
    file_all: FileAllCall,
    find_number: FindNumberCall,
    find_member: FindMemberCall,
}

impl Archive {
    /// Loads a shared object made of an archive.
    pub fn load(path: &Path) -> io::Result<Archive> {
        // A name with no slash would be looked for among the system's libraries.
        let path = path::absolute(path)?;
        let name = CString::new(path.as_os_str().as_bytes())?;
        // SAFETY: the name ends with a zero byte. The archive has no code that
        // runs when it is loaded.
        let object = unsafe { dlopen(name.as_ptr(), RTLD_NOW | RTLD_LOCAL) };
        if object.is_null() {
            return Err(loading_error());
        }
        // SAFETY: the object is loaded, and each type is that of the header
        // for the name.
        unsafe {
            Ok(Archive {
                quote: call(object, c"pension_quote")?,
                check: call(object, c"pension_check")?,
                file_all: call(object, c"pension_file_all")?,
                find_number: call(object, c"pension_find_number")?,
                find_member: call(object, c"pension_find_member")?,
            })
        }
    }
}

/// A call of a loaded object.
///
/// # Safety
///
/// The object must be loaded, and `F` must be a function pointer of the type
/// that the call has in C.
unsafe fn call<F>(object: *mut c_void, name: &CStr) -> io::Result<F> {
    assert_eq!(mem::size_of::<F>(), mem::size_of::<*mut c_void>());
    // SAFETY: the object is loaded, and the name ends with a zero byte.
    let address = unsafe { dlsym(object, name.as_ptr()) };
    if address.is_null() {
        return Err(loading_error());
    }
    // SAFETY: the address is that of a function of type `F`, and not null.
    Ok(unsafe { mem::transmute_copy(&address) })
}

/// What went wrong in the last call of the loader.
fn loading_error() -> io::Error {
    // SAFETY: the loader gives null or a text that ends with a zero byte and
    // stays until its next call; this program has no other thread.
    let text = unsafe {
        let text = dlerror();
        (!text.is_null()).then(|| CStr::from_ptr(text).to_string_lossy().into_owned())
    };
    io::Error::other(text.unwrap_or_else(|| "the loader names no error".to_string()))
}

// SAFETY of every call: pointers and lengths are those of live slices, of which
// those written overlap no other.
impl Implementation for Archive {
    fn quote(&self, line: &[u8]) -> Quote {
        unsafe { (self.quote)(line.as_ptr(), line.len()) }
    }

    fn file_all(&self, register: &mut [u8], text: &[u8], refusals: &mut [u8]) -> usize {
        let (register, register_length) = (register.as_mut_ptr(), register.len());
        let (refusals, refusals_length) = (refusals.as_mut_ptr(), refusals.len());
        let (text, text_length) = (text.as_ptr(), text.len());
        unsafe {
            (self.file_all)(
                register,
                register_length,
                FIRST_NUMBER,
                text,
                text_length,
                refusals,
                refusals_length,
            )
        }
    }

    fn check(&self, register: &[u8]) -> Checked {
        unsafe { (self.check)(register.as_ptr(), register.len(), register.len()) }
    }

    fn find_number(&self, register: &[u8], number: u32) -> Found {
        unsafe { (self.find_number)(register.as_ptr(), register.len(), register.len(), number) }
    }

    fn find_member(&self, register: &[u8], member: u32) -> FoundMember {
        unsafe { (self.find_member)(register.as_ptr(), register.len(), register.len(), member) }
    }
}

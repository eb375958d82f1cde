//! Libraries that are loaded at run time, where they are there, so that nothing needs them to build: zlib and libdeflate for
//! their sums, and this library as it was before a change. Benchmarks only.

use crate::interface::{Answer, FIELDS};
use crate::ours::unpack;
use std::env;
use std::ffi::{c_char, c_int, c_uint, c_ulong, c_void, CStr, CString};
use std::mem;

type ZlibCrc = unsafe extern "C" fn(c_ulong, *const u8, c_uint) -> c_ulong;
type LibdeflateCrc = unsafe extern "C" fn(u32, *const u8, usize) -> u32;
type Crc = unsafe extern "C" fn(*const u8, usize) -> u32;
type Read = unsafe extern "C" fn(*const u8, usize, *mut u64) -> u64;
type Check = unsafe extern "C" fn(*const u8, usize) -> u64;
type Find = unsafe extern "C" fn(*const u8, usize, u16, u32) -> u64;
type Compare = unsafe extern "C" fn(*const u8, usize, usize, *const u8, usize, *mut u32, usize) -> u64;

extern "C" {
    fn dlopen(name: *const c_char, mode: c_int) -> *mut c_void;
    fn dlsym(library: *mut c_void, name: *const c_char) -> *mut c_void;
}

const RESOLVE_NOW: c_int = 2;

/// A library that is loaded, and never unloaded.
struct Library(*mut c_void);

impl Library {
    /// The first of these names that there is.
    fn find(names: &[&CStr]) -> Option<Library> {
        // SAFETY: the names are C strings, and loading one of these libraries runs nothing that could harm us.
        let mut found = names.iter().map(|name| unsafe { dlopen(name.as_ptr(), RESOLVE_NOW) });
        found.find(|library| !library.is_null()).map(Library)
    }

    fn symbol(&self, name: &CStr) -> Option<*mut c_void> {
        // SAFETY: the library is loaded, and the name is a C string.
        let symbol = unsafe { dlsym(self.0, name.as_ptr()) };
        (!symbol.is_null()).then_some(symbol)
    }
}

/// The sum of another library.
#[derive(Clone, Copy)]
pub enum OtherSum {
    Zlib(ZlibCrc),
    Libdeflate(LibdeflateCrc),
}

impl OtherSum {
    pub fn zlib() -> Option<OtherSum> {
        let symbol = Library::find(&[c"libz.so.1", c"libz.so"])?.symbol(c"crc32")?;
        // SAFETY: zlib declares crc32 with this signature.
        Some(OtherSum::Zlib(unsafe { mem::transmute::<*mut c_void, ZlibCrc>(symbol) }))
    }

    /// It sums by the processor's own instructions.
    pub fn libdeflate() -> Option<OtherSum> {
        let symbol = Library::find(&[c"libdeflate.so.0", c"libdeflate.so"])?.symbol(c"libdeflate_crc32")?;
        // SAFETY: libdeflate declares libdeflate_crc32 with this signature.
        Some(OtherSum::Libdeflate(unsafe { mem::transmute::<*mut c_void, LibdeflateCrc>(symbol) }))
    }

    pub fn crc(self, bytes: &[u8]) -> u32 {
        match self {
            OtherSum::Zlib(crc) => {
                let length = c_uint::try_from(bytes.len()).expect("benchmarks sum short buffers");
                // SAFETY: the pointer and the length are of one slice.
                unsafe { crc(0, bytes.as_ptr(), length) as u32 }
            }
            // SAFETY: the pointer and the length are of one slice.
            OtherSum::Libdeflate(crc) => unsafe { crc(0, bytes.as_ptr(), bytes.len()) },
        }
    }
}

/// This library before a change: the shared library that MORLEWEN_BEFORE names.
#[derive(Clone, Copy)]
pub struct Before {
    crc: Crc,
    read: Read,
    check: Check,
    find: Find,
    compare: Compare,
}

impl Before {
    pub fn load() -> Option<Before> {
        let name = env::var("MORLEWEN_BEFORE").ok()?;
        let name = CString::new(name).expect("the variable has no zero byte");
        let library = Library::find(&[&name]).expect("MORLEWEN_BEFORE names a shared library");
        let symbol = |name| library.symbol(name).expect("MORLEWEN_BEFORE names a library of ours");
        // SAFETY: include/morlewen.h declares them with these signatures.
        unsafe {
            Some(Before {
                crc: mem::transmute::<*mut c_void, Crc>(symbol(c"morlewen_crc")),
                read: mem::transmute::<*mut c_void, Read>(symbol(c"morlewen_read")),
                check: mem::transmute::<*mut c_void, Check>(symbol(c"morlewen_check")),
                find: mem::transmute::<*mut c_void, Find>(symbol(c"morlewen_find")),
                compare: mem::transmute::<*mut c_void, Compare>(symbol(c"morlewen_compare")),
            })
        }
    }

    pub fn crc(self, bytes: &[u8]) -> u32 {
        // SAFETY: the pointer and the length are of one slice.
        unsafe { (self.crc)(bytes.as_ptr(), bytes.len()) }
    }

    pub fn read(self, message: &[u8], fields: &mut [u64; FIELDS]) -> Answer {
        // SAFETY: the slice is whole, and the array has the room that reading asks for.
        unpack(unsafe { (self.read)(message.as_ptr(), message.len(), fields.as_mut_ptr()) })
    }

    pub fn check(self, file: &[u8]) -> Answer {
        // SAFETY: the pointer and the length are of one slice.
        unpack(unsafe { (self.check)(file.as_ptr(), file.len()) })
    }

    pub fn find(self, file: &[u8], message_type: u16, number: u32) -> Answer {
        // SAFETY: the pointer and the length are of one slice.
        unpack(unsafe { (self.find)(file.as_ptr(), file.len(), message_type, number) })
    }

    pub fn compare(self, file: &[u8], record: usize, radio: &[u8], places: &mut [u32]) -> Answer {
        let (room, places) = (places.len(), places.as_mut_ptr());
        // SAFETY: each pointer stands with the length of its own slice.
        unpack(unsafe { (self.compare)(file.as_ptr(), file.len(), record, radio.as_ptr(), radio.len(), places, room) })
    }
}

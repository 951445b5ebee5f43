//! The calls of `csn.h`, and the three functions that the library asks of its host.
use std::ffi::c_void;
use std::ptr::addr_of_mut;

#[repr(C)]
pub struct RawRule {
    at: *mut c_void,
}

impl RawRule {
    pub const EMPTY: RawRule = RawRule {
        at: std::ptr::null_mut(),
    };
}

#[repr(C)]
pub struct RawStream {
    at: *mut c_void,
}

impl RawStream {
    pub const EMPTY: RawStream = RawStream {
        at: std::ptr::null_mut(),
    };
}

#[repr(C)]
#[derive(Default)]
pub struct RawWhy {
    pub number: u32,
    pub place: u32,
}

#[repr(C)]
#[derive(Clone, Copy, Default)]
pub struct RawEvent {
    pub node: u32,
    pub kind: u32,
    pub role: u32,
    pub number: u32,
    pub place: u32,
    pub bits: u32,
    pub value: u64,
}

extern "C" {
    pub fn csn_version() -> u32;
    pub fn csn_compile(
        text: *const u8,
        text_len: usize,
        name: *const u8,
        name_len: usize,
        reading: u32,
        rule: *mut RawRule,
        why: *mut RawWhy,
    ) -> u32;
    pub fn csn_free(rule: *mut RawRule);
    pub fn csn_judge(
        rule: *mut RawRule,
        octets: *const u8,
        octets_len: usize,
        bits: u32,
        number: *mut usize,
    ) -> u32;
    pub fn csn_tell(
        rule: *mut RawRule,
        octets: *const u8,
        octets_len: usize,
        bits: u32,
        out: *mut RawEvent,
        out_len: usize,
        count: *mut usize,
        number: *mut usize,
    ) -> u32;
    pub fn csn_show(
        rule: *mut RawRule,
        octets: *const u8,
        octets_len: usize,
        bits: u32,
        form: u32,
        out: *mut u8,
        out_len: usize,
        number: *mut usize,
    ) -> u32;
    pub fn csn_write(
        rule: *mut RawRule,
        bytes: *const u8,
        bytes_len: usize,
        form: u32,
        out: *mut u8,
        out_len: usize,
        number: *mut usize,
    ) -> u32;
    pub fn csn_misfit(
        rule: *mut RawRule,
        bytes: *const u8,
        bytes_len: usize,
        form: u32,
        out: *mut u32,
        out_len: usize,
        count: *mut usize,
        number: *mut usize,
    ) -> u32;
    pub fn csn_nodes(rule: *mut RawRule) -> u32;
    pub fn csn_label(
        rule: *mut RawRule,
        node: u32,
        out: *mut u8,
        out_len: usize,
        number: *mut usize,
    ) -> u32;
    pub fn csn_stream_open(rule: *mut RawRule, stream: *mut RawStream) -> u32;
    pub fn csn_stream_begin(stream: *mut RawStream) -> u32;
    pub fn csn_stream_push(
        stream: *mut RawStream,
        octets: *const u8,
        octets_len: usize,
        bits: u32,
        number: *mut usize,
    ) -> u32;
    pub fn csn_stream_end(stream: *mut RawStream, number: *mut usize) -> u32;
    pub fn csn_stream_free(stream: *mut RawStream);

    fn malloc(size: usize) -> *mut c_void;
    fn realloc(at: *mut c_void, size: usize) -> *mut c_void;
    fn free(at: *mut c_void);
}

/// A block of memory, if there is one. The pointer is not null in either case.
#[repr(C)]
pub struct Tried {
    ok: bool,
    at: *mut c_void,
}

/// What is pointed to where there is no memory. Nobody reads it.
static mut NOTHING: u8 = 0;

fn tried(at: *mut c_void) -> Tried {
    if at.is_null() {
        Tried {
            ok: false,
            at: addr_of_mut!(NOTHING).cast(),
        }
    } else {
        Tried { ok: true, at }
    }
}

#[no_mangle]
extern "C" fn rattle_alloc(size: usize, align: usize) -> Tried {
    // SAFETY: malloc takes any size.
    tried(unsafe { malloc(if size == 0 { align } else { size }) })
}

#[no_mangle]
unsafe extern "C" fn rattle_realloc(
    at: *mut c_void,
    _kept: usize,
    size: usize,
    align: usize,
) -> Tried {
    // SAFETY: the library passes what one of these two functions gave it.
    tried(unsafe { realloc(at, if size == 0 { align } else { size }) })
}

#[no_mangle]
unsafe extern "C" fn rattle_dealloc(at: *mut c_void) {
    // SAFETY: as above, and the library uses it no more.
    unsafe { free(at) }
}

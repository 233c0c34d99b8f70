//! The calls of `vulsangi.h`.

/// A `vls_set` or a `vls_doc`. Full of zeros, it is empty.
#[repr(C)]
pub struct Handle {
    at: *mut u8,
    full: bool,
}

impl Handle {
    pub const EMPTY: Handle = Handle {
        at: std::ptr::null_mut(),
        full: false,
    };
}

/// A piece of a line: where it stands, in bytes, and its style.
#[repr(C)]
#[derive(Clone, Copy, Default)]
pub struct Span {
    pub offset: usize,
    pub length: usize,
    pub foreground: u32,
    pub background: u32,
    pub flags: u32,
}

extern "C" {
    pub fn vls_doc_new(
        doc: *mut Handle,
        set: *mut Handle,
        language: *const u8,
        language_size: usize,
        theme: *const u8,
        theme_size: usize,
    ) -> i32;
    pub fn vls_doc_free(doc: *mut Handle);
    pub fn vls_doc_line(doc: *mut Handle, set: *mut Handle, line: *const u8, line_size: usize) -> i32;
    pub fn vls_doc_reset(doc: *mut Handle, set: *mut Handle) -> i32;
    pub fn vls_doc_spans(doc: *mut Handle, room: *mut Span, room_size: usize) -> usize;
    pub fn vls_doc_fault(doc: *mut Handle, room: *mut u8, room_size: usize) -> usize;
    pub fn vls_set_new(set: *mut Handle) -> i32;
    pub fn vls_set_free(set: *mut Handle);
    pub fn vls_set_add_grammar(
        set: *mut Handle,
        file: *const u8,
        file_size: usize,
        text: *const u8,
        text_size: usize,
    ) -> i32;
    pub fn vls_set_add_theme(
        set: *mut Handle,
        name: *const u8,
        name_size: usize,
        text: *const u8,
        text_size: usize,
    ) -> i32;
    pub fn vls_set_link(set: *mut Handle) -> i32;
    pub fn vls_set_page(
        set: *mut Handle,
        text: *const u8,
        text_size: usize,
        language: *const u8,
        language_size: usize,
        theme: *const u8,
        theme_size: usize,
        format: u32,
    ) -> i32;
    pub fn vls_set_languages(set: *mut Handle) -> i32;
    pub fn vls_set_find(
        set: *mut Handle,
        file: *const u8,
        file_size: usize,
        line: *const u8,
        line_size: usize,
    ) -> i32;
    pub fn vls_set_output(set: *mut Handle, room: *mut u8, room_size: usize) -> usize;
    pub fn vls_set_fault(set: *mut Handle, room: *mut u8, room_size: usize) -> usize;
}

//! The imports of the module `fabric`. All of them check the pointers and lengths that they get.

mod fabric {
    #[link(wasm_import_module = "fabric")]
    extern "C" {
        pub fn get_state(
            key: *const u8,
            key_length: usize,
            target: *mut u8,
            capacity: usize,
        ) -> i32;
        pub fn put_state(
            key: *const u8,
            key_length: usize,
            value: *const u8,
            value_length: usize,
        ) -> i32;
        pub fn del_state(key: *const u8, key_length: usize) -> i32;
        pub fn range_state(
            start: *const u8,
            start_length: usize,
            end: *const u8,
            end_length: usize,
            limit: usize,
            target: *mut u8,
            capacity: usize,
        ) -> i32;
        pub fn get_arg(target: *mut u8, capacity: usize) -> i32;
        pub fn set_result(result: *const u8, length: usize) -> i32;
    }
}

// Each call reads and writes the memory of the slices it is given, and no other.

pub(crate) fn get_state(key: &[u8], target: &mut [u8]) -> i32 {
    unsafe { fabric::get_state(key.as_ptr(), key.len(), target.as_mut_ptr(), target.len()) }
}

pub(crate) fn put_state(key: &[u8], value: &[u8]) -> i32 {
    unsafe { fabric::put_state(key.as_ptr(), key.len(), value.as_ptr(), value.len()) }
}

pub(crate) fn del_state(key: &[u8]) -> i32 {
    unsafe { fabric::del_state(key.as_ptr(), key.len()) }
}

pub(crate) fn range_state(start: &[u8], end: &[u8], limit: usize, target: &mut [u8]) -> i32 {
    let (from, to) = (start.as_ptr(), end.as_ptr());
    unsafe {
        fabric::range_state(
            from,
            start.len(),
            to,
            end.len(),
            limit,
            target.as_mut_ptr(),
            target.len(),
        )
    }
}

pub(crate) fn get_arg(target: &mut [u8]) -> i32 {
    unsafe { fabric::get_arg(target.as_mut_ptr(), target.len()) }
}

pub(crate) fn set_result(result: &[u8]) -> i32 {
    unsafe { fabric::set_result(result.as_ptr(), result.len()) }
}

//! Parts of the library by themselves, from the archive `libbare.a`, for comparisons and figures alone. They are no
//! entries: who uses the library needs neither this crate nor the archive.

mod c {
    extern "C" {
        pub fn bare_circles(rows: *const u32) -> u32;
    }
}

/// The devices that lead back to themselves, for any rows, one a device: a set, device d being bit d.
pub fn circles(rows: &[u32; 32]) -> u32 {
    // The search reads 32 rows and writes to none; the type has as many.
    unsafe { c::bare_circles(rows.as_ptr()) }
}

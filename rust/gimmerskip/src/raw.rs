//! The entries as they are: slices in, the number out. Nothing is interpreted here.
//!
//! A 64-bit answer below 2^32 is a success; else it is a refusal's number times 2^32 plus its place.

mod c {
    extern "C" {
        pub fn gimmerskip_order(text: *const u8, n: usize, out: *mut u8, room: usize) -> usize;
        pub fn gimmerskip_line(text: *const u8, n: usize, offset: usize) -> u64;
        pub fn gimmerskip_read(text: *const u8, n: usize, plan: *mut u32, room: usize) -> u64;
        pub fn gimmerskip_write(plan: *const u32, n: usize, text: *mut u8, room: usize) -> u64;
        pub fn gimmerskip_table(plan: *const u32, n: usize, sets: *mut u32, room: usize) -> u64;
        pub fn gimmerskip_verdict(plan: *const u32, n: usize, order: *mut u16, room: usize) -> u64;
        pub fn gimmerskip_judge(plan: *const u32, n: usize, order: *const u16, m: usize) -> u64;
        pub fn gimmerskip_move(
            plan: *mut u32,
            n: usize,
            sets: *mut u32,
            room: usize,
            line: u32,
            device: u32,
        ) -> u64;
        pub fn gimmerskip_build(
            plan: *const u32,
            n: usize,
            sets: *mut u32,
            room: usize,
            rows: *mut u32,
            rows_room: usize,
            held: *mut u32,
            held_room: usize,
        ) -> u64;
        pub fn gimmerskip_move_kept(
            plan: *mut u32,
            n: usize,
            sets: *mut u32,
            room: usize,
            rows: *mut u32,
            rows_room: usize,
            held: *mut u32,
            held_room: usize,
            line: u32,
            device: u32,
        ) -> u64;
        pub fn gimmerskip_quick(
            plan: *const u32,
            n: usize,
            rows: *const u32,
            rows_room: usize,
        ) -> u64;
    }
}

// Each call below lends the entry whole slices, and the entry is proved to stay inside them. What it asks of its caller
// holds by the types: a slice's pointer is never null, and nothing overlaps a slice that may be written to.

/// What the program prints for a text, into `out`: the number of bytes.
pub fn order(text: &[u8], out: &mut [u8]) -> usize {
    unsafe { c::gimmerskip_order(text.as_ptr(), text.len(), out.as_mut_ptr(), out.len()) }
}

/// The line of a text at an offset: its packed number, or 0 at the end.
pub fn line(text: &[u8], offset: usize) -> u64 {
    unsafe { c::gimmerskip_line(text.as_ptr(), text.len(), offset) }
}

/// A text into packed numbers: the number of lines.
pub fn read(text: &[u8], plan: &mut [u32]) -> u64 {
    unsafe { c::gimmerskip_read(text.as_ptr(), text.len(), plan.as_mut_ptr(), plan.len()) }
}

/// A packed plan into text: the number of bytes.
pub fn write(plan: &[u32], text: &mut [u8]) -> u64 {
    unsafe { c::gimmerskip_write(plan.as_ptr(), plan.len(), text.as_mut_ptr(), text.len()) }
}

/// The table of a plan's claims: the number of lines.
pub fn table(plan: &[u32], sets: &mut [u32]) -> u64 {
    unsafe { c::gimmerskip_table(plan.as_ptr(), plan.len(), sets.as_mut_ptr(), sets.len()) }
}

/// The verdict on a plan, with its order: the number of devices still held.
pub fn verdict(plan: &[u32], order: &mut [u16]) -> u64 {
    unsafe { c::gimmerskip_verdict(plan.as_ptr(), plan.len(), order.as_mut_ptr(), order.len()) }
}

/// An order from elsewhere, judged for a plan: 0 if it is legal.
pub fn judge(plan: &[u32], order: &[u16]) -> u64 {
    unsafe { c::gimmerskip_judge(plan.as_ptr(), plan.len(), order.as_ptr(), order.len()) }
}

/// The claim of a line, counted from 1, moved to a device: the number of sets that changed.
pub fn move_claim(plan: &mut [u32], sets: &mut [u32], line: u32, device: u32) -> u64 {
    unsafe {
        c::gimmerskip_move(
            plan.as_mut_ptr(),
            plan.len(),
            sets.as_mut_ptr(),
            sets.len(),
            line,
            device,
        )
    }
}

/// The table of a plan's claims, its rows and the set of the devices that it holds to the end: the number of lines.
pub fn build(plan: &[u32], sets: &mut [u32], rows: &mut [u32], held: &mut [u32]) -> u64 {
    unsafe {
        c::gimmerskip_build(
            plan.as_ptr(),
            plan.len(),
            sets.as_mut_ptr(),
            sets.len(),
            rows.as_mut_ptr(),
            rows.len(),
            held.as_mut_ptr(),
            held.len(),
        )
    }
}

/// The claim of a line, counted from 1, moved to a device, with rows and held set kept: the number of sets of the table
/// that changed.
pub fn move_kept(
    plan: &mut [u32],
    sets: &mut [u32],
    rows: &mut [u32],
    held: &mut [u32],
    line: u32,
    device: u32,
) -> u64 {
    unsafe {
        c::gimmerskip_move_kept(
            plan.as_mut_ptr(),
            plan.len(),
            sets.as_mut_ptr(),
            sets.len(),
            rows.as_mut_ptr(),
            rows.len(),
            held.as_mut_ptr(),
            held.len(),
            line,
            device,
        )
    }
}

/// The quick verdict on a plan, by lent rows: the number of devices held to the end.
pub fn quick(plan: &[u32], rows: &[u32]) -> u64 {
    unsafe { c::gimmerskip_quick(plan.as_ptr(), plan.len(), rows.as_ptr(), rows.len()) }
}

//! Prints how many bytes memcpy and memmove move while each check of a file runs
//! once: this program has its own two.

#[path = "../run.rs"]
mod run;

use std::arch::asm;
use std::sync::atomic::{AtomicU64, Ordering::Relaxed};

static MOVED: AtomicU64 = AtomicU64::new(0);

/// # Safety
/// As C's.
#[no_mangle]
pub unsafe extern "C" fn memcpy(to: *mut u8, from: *const u8, count: usize) -> *mut u8 {
    MOVED.fetch_add(count as u64, Relaxed);
    asm!("rep movsb", inout("rcx") count => _, inout("rdi") to => _, inout("rsi") from => _);
    to
}

/// # Safety
/// As C's.
#[no_mangle]
pub unsafe extern "C" fn memmove(to: *mut u8, from: *const u8, count: usize) -> *mut u8 {
    if (to as usize).wrapping_sub(from as usize) >= count {
        return memcpy(to, from, count);
    }
    MOVED.fetch_add(count as u64, Relaxed);
    // Backwards, from the last byte.
    let (last, source) = (
        to.wrapping_add(count).wrapping_sub(1),
        from.wrapping_add(count).wrapping_sub(1),
    );
    asm!("std", "rep movsb", "cld", inout("rcx") count => _, inout("rdi") last => _, inout("rsi") source => _);
    to
}

fn main() {
    let mut moved = 0;
    run::each(|check| {
        let before = MOVED.load(Relaxed);
        check();
        moved += MOVED.load(Relaxed) - before;
    });
    println!("{moved}");
}

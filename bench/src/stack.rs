//! The stack that a call of `fcheck_check` takes, measured on a painted one.

use std::arch::asm;

use fcheck::raw::{fcheck_check, CLAUSES};

/// The size of the painted stack.
const SIZE: usize = 1 << 20;
const PAINT: u8 = 0xA5;

/// How many bytes of stack the check of a text takes.
pub fn used(text: &[u8]) -> usize {
    let mut stack = vec![PAINT; SIZE];
    let (mut first, mut second) = (0usize, 0usize);
    let mut rests = [0u8; CLAUSES];
    // The top, at a multiple of 16 as a call asks.
    let top = (stack.as_mut_ptr() as usize + SIZE) & !15;
    // SAFETY: the call runs on the painted bytes, and r12, which it keeps, holds
    // the stack to come back to. It has no more than SIZE, far above its need.
    unsafe {
        asm!(
            "xchg rsp, r12",
            "call {check}",
            "mov rsp, r12",
            check = sym fcheck_check,
            inout("r12") top => _,
            in("rdi") text.as_ptr(),
            in("rsi") text.len(),
            in("rdx") &mut first,
            in("rcx") &mut second,
            in("r8") rests.as_mut_ptr(),
            in("r9") rests.len(),
            lateout("rax") _,
            clobber_abi("C"),
        );
    }
    let untouched = stack.iter().take_while(|&&byte| byte == PAINT).count();
    top - stack.as_ptr() as usize - untouched
}

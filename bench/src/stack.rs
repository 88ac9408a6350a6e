//! How much stack a call takes: a thread's stack is painted below the call, and what lost its paint was used.

use std::arch::asm;

const PAINT: u64 = 0x9d9d_1c1c_7e7e_3b3b;
const PAINTED: usize = 3 << 20;

/// Paints below the stack pointer, calls f, and gives how far down the paint is gone.
#[inline(never)]
fn below(f: &mut dyn FnMut()) -> usize {
    let top: usize;
    #[cfg(target_arch = "x86_64")]
    unsafe {
        asm!("mov {}, rsp", out(reg) top, options(nomem, nostack, preserves_flags))
    };
    #[cfg(target_arch = "aarch64")]
    unsafe {
        asm!("mov {}, sp", out(reg) top, options(nomem, nostack, preserves_flags))
    };
    let words = PAINTED / 8;
    let low = top - PAINTED;
    for i in 0..words {
        unsafe { ((low + 8 * i) as *mut u64).write_volatile(PAINT) };
    }
    f();
    let kept = (0..words).take_while(|i| unsafe { ((low + 8 * i) as *const u64).read_volatile() } == PAINT).count();
    top - (low + 8 * kept)
}

/// The bytes of stack that f takes, its return address included. f runs once before, unmeasured.
pub fn used(mut f: impl FnMut() + Send + 'static) -> usize {
    std::thread::Builder::new()
        .stack_size(PAINTED + (2 << 20))
        .spawn(move || {
            f();
            below(&mut f)
        })
        .unwrap()
        .join()
        .unwrap()
}

//! The deepest stack of a call, on a painted stack.

use super::inputs::Input;
use super::Call;

/// Bytes painted below the stack pointer; less than a thread's stack, more than any call takes.
const PAINTED: usize = 65_536;
/// Bytes next to the stack pointer that are left alone.
const SPARED: usize = 512;

/// How far below the caller's stack pointer a call writes. The thread's stack is mapped whole.
pub fn deepest(call: Call, input: Input) -> usize {
    std::thread::spawn(move || measure(call, input))
        .join()
        .unwrap_or(0)
}

fn measure(call: Call, mut input: Input) -> usize {
    let mut out = [0u8; 2056];
    // once before, so that nothing is resolved or mapped while the paint is there
    std::hint::black_box(call(&mut input, &mut out));
    let top: usize;
    // SAFETY: reads the stack pointer.
    unsafe { std::arch::asm!("mov {}, rsp", out(reg) top) };
    let low = (top - PAINTED) as *mut u8;
    for k in 0..PAINTED - SPARED {
        // SAFETY: the bytes are of this thread's stack, below all that is in use.
        unsafe { low.add(k).write_volatile(0xA5) };
    }
    std::hint::black_box(call(&mut input, &mut out));
    // SAFETY: as above.
    let clean = (0..PAINTED - SPARED).find(|&k| unsafe { low.add(k).read_volatile() } != 0xA5);
    PAINTED - clean.unwrap_or(PAINTED - SPARED)
}

//! How much stack a call takes: what is below is painted before the call, and
//! looked at after it.

use std::hint::black_box;
use std::ptr::{addr_of, read_volatile, write_volatile};
use std::thread::Builder;

/// The stack of the thread that measures, and how much of it is painted.
const STACK: usize = 4 << 20;
const PAINTED: usize = 2 << 20;
const PAINT: u64 = 0x5a17_c0de_d15e_a5ed;
const WORDS: usize = PAINTED / size_of::<u64>();

/// Runs on a thread whose stack has the room that `bytes_of` needs.
pub fn on_a_thread<T: Send>(task: impl FnOnce() -> T + Send) -> T {
    std::thread::scope(|scope| {
        let thread = Builder::new().stack_size(STACK).spawn_scoped(scope, task);
        thread.expect("a thread").join().expect("no panic")
    })
}

/// The bytes of stack that a call takes, from here down.
#[inline(never)]
pub fn bytes_of(call: impl FnOnce()) -> usize {
    let here = 0u64;
    let top = black_box(addr_of!(here)) as usize;
    let lowest = paint();
    call();
    top - touched(lowest)
}

/// Fills what is below the caller's frame; gives the lowest address.
#[inline(never)]
fn paint() -> usize {
    let mut area = [const { std::mem::MaybeUninit::<u64>::uninit() }; WORDS];
    for word in &mut area {
        // SAFETY: the word is one of the array.
        unsafe { write_volatile(word.as_mut_ptr(), PAINT) };
    }
    black_box(area.as_ptr()) as usize
}

/// The lowest address that has been written since.
#[inline(never)]
fn touched(lowest: usize) -> usize {
    let mut address = lowest;
    // SAFETY: the addresses are of this thread's stack, below its frames, and the
    // frames above are not painted.
    while unsafe { read_volatile(address as *const u64) } == PAINT {
        address += size_of::<u64>();
    }
    address
}

//! How deep a call goes down the stack: the stack below is painted, the call is
//! made, and the lowest byte that changed is looked for.

use std::hint::black_box;
use std::ptr::{with_exposed_provenance, with_exposed_provenance_mut};
use std::thread;

/// Bytes of a measuring thread's stack, and how many of them are painted.
const STACK: usize = 1 << 20;
const PAINTED: usize = 1 << 19;

/// Bytes below the measuring frame that are left to the functions that paint
/// and look; a call that uses no more of them than these is said to use these.
const SPARED: usize = 512;

/// Two colours, since a call may write bytes that look like one of them.
const COLOURS: [u8; 2] = [0xa5, 0x5a];

/// Bytes of stack that the call uses, as far as it writes them.
pub fn used(mut call: impl FnMut() + Send) -> usize {
    let depths = COLOURS.map(|colour| on_a_thread(&mut call, colour));
    depths.into_iter().fold(0, usize::max)
}

fn on_a_thread(call: &mut (dyn FnMut() + Send), colour: u8) -> usize {
    thread::scope(|scope| {
        let thread = thread::Builder::new()
            .stack_size(STACK)
            .spawn_scoped(scope, || depth_below(black_box(call), colour));
        thread.expect("a thread starts").join().expect("it ends")
    })
}

/// How far below this frame the call changes the paint.
#[inline(never)]
fn depth_below(call: &mut dyn FnMut(), colour: u8) -> usize {
    // The first call lets the linker and the library do what is done once.
    call();
    let end = end_of_frame();
    let (lowest, highest) = (end - PAINTED, end - SPARED);
    // SAFETY: the thread's stack reaches far lower than this part of it, which
    // lies below the frames of all functions that run meanwhile.
    unsafe { paint(lowest, highest, colour) };
    call();
    // SAFETY: as above.
    let changed = unsafe { first_changed(lowest, highest, colour) };
    assert_ne!(changed, lowest, "more stack than is painted");
    end - changed
}

/// Where the caller's frame ends, to a few bytes.
#[inline(never)]
fn end_of_frame() -> usize {
    let mark = 0_u8;
    black_box(&raw const mark).addr()
}

#[inline(never)]
unsafe fn paint(lowest: usize, highest: usize, colour: u8) {
    let mut place = lowest;
    while place < highest {
        // SAFETY: as the caller says.
        unsafe { with_exposed_provenance_mut::<u8>(place).write_volatile(colour) };
        place += 1;
    }
}

#[inline(never)]
unsafe fn first_changed(lowest: usize, highest: usize, colour: u8) -> usize {
    let mut place = lowest;
    // SAFETY: as the caller says.
    while place < highest
        && unsafe { with_exposed_provenance::<u8>(place).read_volatile() } == colour
    {
        place += 1;
    }
    place
}

#[cfg(test)]
mod tests {
    use super::*;

    /// So many frames of at least 64 bytes.
    #[inline(never)]
    fn deep(frames: usize) -> u64 {
        let kept = black_box([frames as u64; 8]);
        match frames {
            0 => kept[0],
            _ => deep(frames - 1) + kept[frames % 8],
        }
    }

    #[test]
    fn grows_by_each_frame() {
        let depths = [10, 11, 12].map(|frames| used(|| assert!(black_box(deep(frames)) > 0)));
        let frame = depths[1] - depths[0];
        assert!((64..1024).contains(&frame), "{depths:?}");
        assert_eq!(depths[2] - depths[1], frame);
    }

    #[test]
    fn nothing_uses_no_more_than_is_spared() {
        assert_eq!(used(|| {}), SPARED);
    }
}

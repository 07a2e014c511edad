//! Overwriting what a call left on the stack.
//!
//! The library keeps nothing between calls, but lanes of mask and accumulator stay in the frames that its functions had. Each
//! call of this crate that works on a record is followed by [`clear_stack`], from the same frame, so they are gone before
//! anybody else sees them.

use std::mem::MaybeUninit;
use std::sync::atomic::{Ordering, compiler_fence};

/// The bytes of stack that are overwritten. The deepest call takes less than a third of them, as the test below measures; the
/// rest is for programs that look up the C library's functions at their first use, which takes some 2,500 bytes more.
const STACK_BYTES: usize = 14_336;

/// Writes zeros to the stack below the caller's frame, and to the registers xmm0 to xmm15. Wider ones, which the C library may
/// have used to copy a message, stay.
#[inline(never)]
pub(crate) fn clear_stack() {
    let mut frame = [const { MaybeUninit::<u64>::uninit() }; STACK_BYTES / 8];
    for word in &mut frame {
        // SAFETY: a reference may be written to. The write is volatile, so that it is not left out as one that nobody reads.
        unsafe { word.as_mut_ptr().write_volatile(0) };
    }
    compiler_fence(Ordering::SeqCst);
    clear_registers();
}

/// Sets those registers to zero, which the permutation leaves full of lanes: the next function might put them on its stack.
#[cfg(target_arch = "x86_64")]
fn clear_registers() {
    // SAFETY: all registers that are written to are named.
    unsafe {
        std::arch::asm!(
            "pxor xmm0, xmm0", "pxor xmm1, xmm1", "pxor xmm2, xmm2", "pxor xmm3, xmm3",
            "pxor xmm4, xmm4", "pxor xmm5, xmm5", "pxor xmm6, xmm6", "pxor xmm7, xmm7",
            "pxor xmm8, xmm8", "pxor xmm9, xmm9", "pxor xmm10, xmm10", "pxor xmm11, xmm11",
            "pxor xmm12, xmm12", "pxor xmm13, xmm13", "pxor xmm14, xmm14", "pxor xmm15, xmm15",
            out("xmm0") _, out("xmm1") _, out("xmm2") _, out("xmm3") _,
            out("xmm4") _, out("xmm5") _, out("xmm6") _, out("xmm7") _,
            out("xmm8") _, out("xmm9") _, out("xmm10") _, out("xmm11") _,
            out("xmm12") _, out("xmm13") _, out("xmm14") _, out("xmm15") _,
            options(nomem, nostack, preserves_flags),
        );
    }
}

#[cfg(not(target_arch = "x86_64"))]
fn clear_registers() {}

#[cfg(test)]
mod tests {
    use super::*;
    use crate::raw::{codes::*, envelope::*, sae::*, sane::*, session::*, table::*};
    use crate::{
        CODE_LENGTH, GROUPS, HEADER_MAX, KEY_MAX, NONCE_MAX, PACKET_MAX, SANE_TAG_LENGTH, TAG_LENGTH, TEXT_MAX,
    };
    use std::fs::File;
    use std::os::unix::fs::FileExt;

    const PAINT: u8 = 0xA5;
    const PAINTED: usize = 16 * STACK_BYTES;

    #[inline(never)]
    fn paint() {
        let mut frame = [const { MaybeUninit::<u8>::uninit() }; PAINTED];
        for byte in &mut frame {
            // SAFETY: a reference may be written to.
            unsafe { byte.as_mut_ptr().write_volatile(PAINT) };
        }
    }

    /// The bytes of the stack below this function's caller, the nearest last.
    #[inline(never)]
    fn below(memory: &File, bytes: &mut [u8]) {
        let here = 0_u8;
        let end = &raw const here as u64;
        memory.read_exact_at(bytes, end - bytes.len() as u64).expect("the stack");
    }

    /// How far down the stack is altered by a call; what the reading itself takes is less.
    #[inline(never)]
    fn depth(call: &mut dyn FnMut()) -> usize {
        let memory = File::open("/proc/self/mem").expect("the system shows a process its memory");
        let mut bytes = vec![0; PAINTED / 2];
        paint();
        call();
        below(&memory, &mut bytes);
        bytes.len() - bytes.iter().position(|byte| *byte != PAINT).expect("the call takes some stack")
    }

    const N: usize = TEXT_MAX;
    const H: usize = HEADER_MAX;
    const T: usize = TAG_LENGTH;
    const SHORT: usize = SANE_TAG_LENGTH;
    const GROUP: u32 = 31;
    const ALL: u32 = u32::MAX;
    const CALLS: usize = 21;

    /// What the calls work on, at its longest.
    struct Arguments {
        key: [u8; KEY_MAX],
        text: Vec<u8>,
        out: Vec<u8>,
        tag: [u8; TAG_LENGTH],
        lone: Record,
        table: Vec<GroupRecord>,
        sane: SaneRecord,
        sae: SaeRecord,
    }

    impl Arguments {
        fn new() -> Arguments {
            Arguments {
                key: [7; KEY_MAX],
                text: vec![1; N],
                out: vec![0; N],
                tag: [0; TAG_LENGTH],
                lone: Record::closed(),
                table: (0..GROUPS).map(|_| GroupRecord::closed()).collect(),
                sane: SaneRecord::closed(),
                sae: SaeRecord::closed(),
            }
        }

        /// One of the library's functions itself, without the clearing, and its number; the one by four, where there are two. Each
        /// third call unwraps what was not wrapped so; the start of a day is never refused, and gives the allowance; old letters are
        /// not wrapped.
        fn call(&mut self, call: usize, four: bool) -> u32 {
            let (k, t, s, a) = (self.key.as_ptr(), self.text.as_ptr(), &mut self.lone, self.table.as_mut_ptr());
            let (out, tag, n, o) = (self.out.as_mut_ptr(), self.tag.as_mut_ptr(), &mut self.sane, &mut self.sae);
            // SAFETY: pointers and lengths are those of the fields.
            unsafe {
                match call {
                    0 => pevghazo_start(s, k, KEY_MAX).number,
                    3 => pevghazo_open_group(a, GROUPS, GROUP, ALL, k, KEY_MAX).number,
                    6 => pevghazo_sane_start(n, k, KEY_MAX, t, NONCE_MAX, tag, SHORT).number,
                    9 => pevghazo_code(s, PACKET_MAX, out, CODE_LENGTH).number,
                    12 => pevghazo_start_day(a, GROUPS, 0),
                    15 => pevghazo_write_header(b'S', GROUP, N, N, out, H).number,
                    18 => pevghazo_sae_start(o, k, KEY_MAX, t, NONCE_MAX, tag, SHORT).number,
                    19 => pevghazo_sae_wrap(o, t, N, t, N, out, N, tag, SHORT).number,
                    20 => pevghazo_sae_unwrap(o, t, N, t, N, tag, SHORT, out, N).number,
                    _ => self.call_of_two(call, usize::from(four)),
                }
            }
        }

        /// The same of the calls that there are twice, those for an envelope with the longest header.
        fn call_of_two(&mut self, call: usize, i: usize) -> u32 {
            let (t, s, a) = (self.text.as_ptr(), &mut self.lone, self.table.as_mut_ptr());
            let (out, tag, n) = (self.out.as_mut_ptr(), self.tag.as_mut_ptr(), &mut self.sane);
            let (h, nh) = (b"S,31,16384,16384,".as_ptr(), b"N,31,16384,16384,".as_ptr());
            let wraps = [pevghazo_wrap, pevghazo_wrap_four];
            let unwraps = [pevghazo_unwrap, pevghazo_unwrap_four];
            let wraps_group = [pevghazo_wrap_group, pevghazo_wrap_group_four];
            let unwraps_group = [pevghazo_unwrap_group, pevghazo_unwrap_group_four];
            let sane_wraps = [pevghazo_sane_wrap, pevghazo_sane_wrap_four];
            let sane_unwraps = [pevghazo_sane_unwrap, pevghazo_sane_unwrap_four];
            let seals = [pevghazo_wrap_envelope, pevghazo_wrap_envelope_four];
            let opens = [pevghazo_unwrap_envelope, pevghazo_unwrap_envelope_four];
            let seals_group = [pevghazo_wrap_envelope_group, pevghazo_wrap_envelope_group_four];
            let opens_group = [pevghazo_unwrap_envelope_group, pevghazo_unwrap_envelope_group_four];
            let sane_seals = [pevghazo_sane_wrap_envelope, pevghazo_sane_wrap_envelope_four];
            let sane_opens = [pevghazo_sane_unwrap_envelope, pevghazo_sane_unwrap_envelope_four];
            // SAFETY: as above.
            let answer = unsafe {
                match call {
                    1 => wraps[i](s, t, N, t, N, out, N, tag, T),
                    2 => unwraps[i](s, t, N, t, N, tag, T, out, N),
                    4 => wraps_group[i](a, GROUPS, GROUP, ALL, t, N, t, N, out, N, tag, T),
                    5 => unwraps_group[i](a, GROUPS, GROUP, ALL, t, N, t, N, tag, T, out, N),
                    7 => sane_wraps[i](n, t, N, t, N, out, N, tag, SHORT),
                    8 => sane_unwraps[i](n, t, N, t, N, tag, SHORT, out, N),
                    10 => seals[i](s, h, H, t, N, t, N, out, N, tag, T),
                    11 => opens[i](s, h, H, t, N, t, N, tag, T, out, N),
                    13 => seals_group[i](a, GROUPS, GROUP, ALL, h, H, t, N, t, N, out, N, tag, T),
                    14 => opens_group[i](a, GROUPS, GROUP, ALL, h, H, t, N, t, N, tag, T, out, N),
                    16 => sane_seals[i](n, nh, H, t, N, t, N, out, N, tag, SHORT),
                    _ => sane_opens[i](n, nh, H, t, N, t, N, tag, SHORT, out, N),
                }
            };
            answer.number
        }
    }

    #[test]
    fn the_deepest_call_is_covered() {
        let mut arguments = Arguments::new();
        let mut deepest = 0;
        // In the first turn of each, functions of the C library may be looked up.
        for (four, call) in [false, true, false, true].into_iter().flat_map(|four| (0..CALLS).map(move |c| (four, c))) {
            let expected = match call {
                19 => 18,
                _ if call % 3 == 2 => 11,
                _ => 0,
            };
            let depth = depth(&mut || assert_eq!(arguments.call(call, four), expected));
            println!("call {call}, by four: {four}: {depth} bytes of stack");
            deepest = deepest.max(depth);
        }
        assert!(deepest > 200 && deepest * 3 < STACK_BYTES, "{deepest} of {STACK_BYTES}: too little margin");
    }
}

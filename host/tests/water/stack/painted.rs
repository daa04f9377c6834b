//! A call on a stack of its own that was painted beforehand: the paint that is gone afterwards says how much stack the call took.

use std::arch::asm;
use std::os::raw::c_void;

// more than any call needs
const SIZE: usize = 1 << 20;
const PAINT: u8 = 0xa5;

/// A call, and room for what it answers.
struct Made<'a, A> {
    call: &'a mut dyn FnMut() -> A,
    answer: Option<A>,
}

/// What the call answers, and how many bytes of stack it took: from where it was made to the deepest byte that it changed.
/// The call must not panic.
pub fn depth<A>(call: &mut dyn FnMut() -> A) -> (A, usize) {
    let mut stack = vec![PAINT; SIZE];
    let top = (stack.as_mut_ptr() as usize + SIZE) & !15;
    let mut made = Made { call, answer: None };
    // Safety: the painted stack is longer than any call's need and outlives the call, which comes back to the stack that it left.
    unsafe {
        asm!(
            "mov r12, rsp",
            "mov rsp, {top}",
            "call {enter}",
            "mov rsp, r12",
            top = in(reg) top,
            enter = in(reg) enter::<A> as extern "C" fn(*mut c_void),
            in("rdi") &mut made as *mut Made<A> as *mut c_void,
            out("r12") _,
            clobber_abi("C"),
        );
    }
    let kept = stack.iter().take_while(|&&byte| byte == PAINT).count();
    (made.answer.expect("an answer"), top - (stack.as_ptr() as usize + kept))
}

extern "C" fn enter<A>(made: *mut c_void) {
    // Safety: `depth` hands its own record over, and waits.
    let made = unsafe { &mut *(made as *mut Made<A>) };
    made.answer = Some((made.call)());
}

#[test]
fn the_paint_shows_how_deep_a_call_went() {
    let mut call = || {
        let list = [1u8; 100_000];
        // Safety: it does nothing; the compiler must take it for one that reads the list.
        unsafe { asm!("/* {list} */", list = in(reg) &list) };
    };
    let ((), took) = depth(&mut call);
    assert!((100_000..101_000).contains(&took), "{took}");
}

//! How much stack a call takes: it runs on a stack of its own that was painted before, and the deepest byte that lost
//! the paint is looked for. For x86-64 and its calls under Linux.

use std::arch::asm;

/// Far more than any call takes.
const ROOM: usize = 1 << 20;

/// How many bytes of stack a call takes, with the frames that make it. The call may write bytes like the paint, so two
/// paints are tried.
pub fn depth(call: &mut dyn FnMut()) -> usize {
    painted(0x5a, call).max(painted(0xa5, call))
}

fn painted(paint: u8, mut call: &mut dyn FnMut()) -> usize {
    let mut stack = vec![paint; ROOM];
    let top = ROOM - (stack.as_ptr() as usize + ROOM) % 16;
    // SAFETY: the stack's top is a multiple of 16, as calls want it, and lies in a vector that nothing else uses. r12
    // keeps the old stack, since a called function leaves it as it was. `enter` does not unwind.
    unsafe {
        asm!(
            "xchg rsp, r12",
            "call {enter}",
            "mov rsp, r12",
            enter = in(reg) enter as extern "C" fn(&mut &mut dyn FnMut()),
            inout("r12") stack.as_mut_ptr().add(top) => _,
            in("rdi") &mut call,
            clobber_abi("C"),
        );
    }
    let untouched = stack.iter().take_while(|&&byte| byte == paint).count();
    assert!(
        untouched > 0,
        "the call took more than {ROOM} bytes of stack"
    );
    top - untouched
}

extern "C" fn enter(call: &mut &mut dyn FnMut()) {
    call();
}

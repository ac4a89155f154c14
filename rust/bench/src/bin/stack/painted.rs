//! Runs an action on a stack of painted memory, and finds how far the paint is gone.

use bench::clock::unknown;
use std::ffi::c_void;
use std::ptr::null_mut;

const SIZE: usize = 8 << 20;
const PAINT: u8 = 0xa5;

/// The attributes of a thread: 56 bytes on x86-64 Linux.
#[repr(C)]
struct Attributes([u64; 7]);

extern "C" {
    fn pthread_attr_init(attributes: *mut Attributes) -> i32;
    fn pthread_attr_setstack(attributes: *mut Attributes, lowest: *mut c_void, size: usize) -> i32;
    fn pthread_attr_destroy(attributes: *mut Attributes) -> i32;
    fn pthread_create(
        thread: *mut usize,
        attributes: *const Attributes,
        start: extern "C" fn(*mut c_void) -> *mut c_void,
        argument: *mut c_void,
    ) -> i32;
    fn pthread_join(thread: usize, result: *mut *mut c_void) -> i32;
}

struct Call<'a> {
    action: &'a mut dyn FnMut(),
    frame: usize,
}

extern "C" fn start(argument: *mut c_void) -> *mut c_void {
    // SAFETY: the argument is the call in `stack_of`, which waits for this thread before it looks at the call again.
    let call = unsafe { &mut *argument.cast::<Call>() };
    let here = 0u8;
    call.frame = unknown(&here) as *const u8 as usize;
    (call.action)();
    null_mut()
}

/// The bytes of stack that the action takes: from the frame that runs it down to the lowest byte whose paint is gone.
pub fn stack_of(action: &mut dyn FnMut()) -> usize {
    let mut memory = vec![[PAINT; 64]; SIZE / 64];
    let lowest = memory.as_mut_ptr() as usize;
    let mut call = Call { action, frame: 0 };
    let (mut attributes, mut thread) = (Attributes([0; 7]), 0);
    // SAFETY: the stack and the call live until the thread has ended, and nobody else touches them before.
    unsafe {
        assert_eq!(pthread_attr_init(&mut attributes), 0);
        let stack = lowest as *mut c_void;
        assert_eq!(pthread_attr_setstack(&mut attributes, stack, SIZE), 0);
        let argument = (&mut call as *mut Call).cast();
        assert_eq!(pthread_create(&mut thread, &attributes, start, argument), 0);
        assert_eq!(pthread_join(thread, null_mut()), 0);
        assert_eq!(pthread_attr_destroy(&mut attributes), 0);
    }
    let kept = unknown(&memory)
        .iter()
        .flatten()
        .take_while(|&&byte| byte == PAINT)
        .count();
    assert!(kept > 0, "the stack is large enough");
    call.frame - (lowest + kept)
}

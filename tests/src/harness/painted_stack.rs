//! How much stack a call takes: it is made on a thread whose stack is painted before, and what is not of that colour afterwards was used.

use std::alloc::{alloc, dealloc, Layout};
use std::ffi::c_void;

/// Room for a pthread_attr_t, which has 56 bytes in glibc.
#[repr(C, align(16))]
struct Attributes([u8; 128]);

extern "C" {
    fn pthread_attr_init(attributes: *mut Attributes) -> i32;
    fn pthread_attr_setstack(attributes: *mut Attributes, lowest: *mut c_void, bytes: usize) -> i32;
    fn pthread_attr_destroy(attributes: *mut Attributes) -> i32;
    fn pthread_create(thread: *mut usize, attributes: *const Attributes, start: extern "C" fn(*mut c_void) -> *mut c_void, argument: *mut c_void) -> i32;
    fn pthread_join(thread: usize, given: *mut *mut c_void) -> i32;
}

const PAGE: usize = 4096;
const BYTES: usize = 1 << 20;
const PAINT: u8 = 0xA5;

extern "C" fn enter<W: FnMut()>(work: *mut c_void) -> *mut c_void {
    // SAFETY: `on_painted` hands over its own work, and waits for this thread's end.
    unsafe { (*work.cast::<W>())() };
    std::ptr::null_mut()
}

/// The bytes that a thread with this work uses of its stack, those for itself among them.
fn on_painted<W: FnMut() + Send>(mut work: W) -> usize {
    let layout = Layout::from_size_align(BYTES, PAGE).unwrap();
    // SAFETY: the stack is memory of this process's own, used by one thread, and given back after the thread's end.
    unsafe {
        let stack = alloc(layout);
        assert!(!stack.is_null(), "no memory");
        stack.write_bytes(PAINT, BYTES);
        let (mut attributes, mut thread) = (Attributes([0; 128]), 0);
        assert_eq!(pthread_attr_init(&mut attributes), 0);
        assert_eq!(pthread_attr_setstack(&mut attributes, stack.cast(), BYTES), 0);
        assert_eq!(pthread_create(&mut thread, &attributes, enter::<W>, std::ptr::addr_of_mut!(work).cast()), 0);
        assert_eq!(pthread_join(thread, std::ptr::null_mut()), 0);
        assert_eq!(pthread_attr_destroy(&mut attributes), 0);
        let unused = std::slice::from_raw_parts(stack, BYTES).iter().take_while(|byte| **byte == PAINT).count();
        dealloc(stack, layout);
        BYTES - unused
    }
}

/// What the work answers, and the bytes of stack that it takes.
pub fn with_stack<T: Send>(mut work: impl FnMut() -> T + Send) -> (T, usize) {
    let mut answer = None;
    let all = on_painted(|| answer = Some(work()));
    (answer.expect("the work was done"), all - on_painted(|| ()))
}

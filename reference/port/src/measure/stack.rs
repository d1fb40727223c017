//! How much stack a call takes: it is run on a stack that was painted.

use std::ffi::c_void;

/// What the stack holds before the call.
const PAINT: u8 = 0xA5;
pub const STACK: usize = 8 << 20;

/// The size and alignment of glibc's `pthread_attr_t` on x86-64, or more.
type Attributes = [u64; 16];

unsafe extern "C" {
    fn pthread_attr_init(attributes: *mut Attributes) -> i32;
    fn pthread_attr_setstack(
        attributes: *mut Attributes,
        stack: *mut c_void,
        size: usize,
    ) -> i32;
    fn pthread_create(
        thread: *mut usize,
        attributes: *const Attributes,
        start: extern "C" fn(*mut c_void) -> *mut c_void,
        argument: *mut c_void,
    ) -> i32;
    fn pthread_join(thread: usize, result: *mut *mut c_void) -> i32;
}

/// A page, to align the stack.
#[derive(Clone)]
#[repr(align(4096))]
struct Page([u8; 4096]);

/// The bytes of stack that a call reaches down to, beyond what a thread that
/// does nothing has in use.
pub fn used(call: impl FnMut()) -> usize {
    depth(call).saturating_sub(depth(|| {}))
}

fn depth<F: FnMut()>(mut call: F) -> usize {
    let mut stack = vec![Page([PAINT; 4096]); STACK / 4096];
    let mut attributes: Attributes = [0; 16];
    let mut thread = 0;
    // Safety: the stack and the call outlive the thread, which is joined, and
    // nothing else touches either before that.
    let results = unsafe {
        [
            pthread_attr_init(&mut attributes),
            pthread_attr_setstack(
                &mut attributes,
                stack.as_mut_ptr().cast(),
                STACK,
            ),
            pthread_create(
                &mut thread,
                &attributes,
                start::<F>,
                (&raw mut call).cast(),
            ),
            pthread_join(thread, std::ptr::null_mut()),
        ]
    };
    assert_eq!(results, [0; 4], "a thread on the painted stack");
    let bytes = stack.iter().flat_map(|page| page.0);
    STACK - bytes.take_while(|byte| *byte == PAINT).count()
}

extern "C" fn start<F: FnMut()>(call: *mut c_void) -> *mut c_void {
    // Safety: `depth` passes its own call.
    let call = unsafe { &mut *call.cast::<F>() };
    call();
    std::ptr::null_mut()
}

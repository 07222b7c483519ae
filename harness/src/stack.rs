// How much of the stack a call takes: it runs on a stack of its own, painted before, and the paint that is gone is
// counted.
use crate::rattle::Session;
use crate::reference::MAX_BITS;
use crate::report::{Outcome, Report};
use std::os::raw::{c_int, c_void};
use std::ptr;

const SIZE: usize = 256 * 1024;
const PAINT: u8 = 0xa5;
const LIMIT: usize = 16 * 1024;

// pthread_attr_t of Linux on x86-64.
#[repr(C, align(8))]
struct Attributes([u8; 56]);

extern "C" {
    fn pthread_attr_init(attributes: *mut Attributes) -> c_int;
    fn pthread_attr_setstack(attributes: *mut Attributes, stack: *mut c_void, size: usize)
        -> c_int;
    fn pthread_attr_destroy(attributes: *mut Attributes) -> c_int;
    fn pthread_create(
        thread: *mut usize,
        attributes: *const Attributes,
        start: extern "C" fn(*mut c_void) -> *mut c_void,
        argument: *mut c_void,
    ) -> c_int;
    fn pthread_join(thread: usize, result: *mut *mut c_void) -> c_int;
}

#[repr(C, align(4096))]
struct Stack([u8; SIZE]);

// A call, and the address down to which the stack was in use before it.
struct Job<'a> {
    call: &'a mut dyn FnMut(),
    top: usize,
}

extern "C" fn start(job: *mut c_void) -> *mut c_void {
    let local = 0u8;
    let job = unsafe { &mut *(job as *mut Job) };
    job.top = &local as *const u8 as usize;
    (job.call)();
    ptr::null_mut()
}

// How far down its thread wrote the stack from the call on, in bytes.
fn used(call: &mut dyn FnMut()) -> usize {
    let mut job = Job { call, top: 0 };
    let mut stack = vec![Stack([PAINT; SIZE])];
    let at = stack.as_mut_ptr() as *mut c_void;
    unsafe {
        let mut attributes = Attributes([0; 56]);
        assert!(pthread_attr_init(&mut attributes) == 0);
        assert!(pthread_attr_setstack(&mut attributes, at, SIZE) == 0);
        let mut thread = 0;
        let argument = &mut job as *mut Job as *mut c_void;
        assert!(pthread_create(&mut thread, &attributes, start, argument) == 0);
        assert!(pthread_join(thread, ptr::null_mut()) == 0);
        pthread_attr_destroy(&mut attributes);
        let bytes = std::slice::from_raw_parts(at as *const u8, SIZE);
        let untouched = bytes.iter().take_while(|&&b| b == PAINT).count();
        job.top - (at as usize + untouched)
    }
}

pub fn run(report: &mut Report) {
    report.test(
        "an opening and a feed take less than 16 KiB of stack, in each mode and direction",
        |_| calls(),
    );
}

fn calls() -> Outcome {
    let (mut opening, mut feed) = (0, 0);
    for (mode, n) in [
        (0, 128),
        (1, 128),
        (2, 1),
        (2, 8),
        (2, 128),
        (3, 128),
        (4, 128),
    ] {
        for decrypting in [false, true] {
            let (opened, fed) = stacks(mode, n, decrypting);
            opening = opening.max(opened);
            feed = feed.max(fed);
        }
    }
    println!("bytes of stack at most: {opening} in an opening, {feed} in a feed");
    if opening.max(feed) < LIMIT {
        Ok(())
    } else {
        Err(format!("{opening} and {feed} bytes"))
    }
}

// The stack of an opening and of the largest feed.
fn stacks(mode: usize, n: usize, decrypting: bool) -> (usize, usize) {
    let iv = vec![1; if mode == 0 { 0 } else { 16 }];
    let open = || Session::open(mode, decrypting, n, &[2; 32], &iv);
    let (_, mut session) = open();
    let input = vec![3; MAX_BITS / 8];
    let mut out = vec![0; MAX_BITS / 8];
    let mut numbers = [255; 2];
    let opened = used(&mut || numbers[0] = open().0);
    let fed = used(&mut || numbers[1] = session.feed_bare(&input, MAX_BITS, &mut out, 0).0);
    assert!(numbers == [0, 0]);
    (opened, fed)
}

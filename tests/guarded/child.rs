//! A child process, so that a fault ends the child alone.

extern "C" {
    fn fork() -> i32;
    fn waitpid(child: i32, status: *mut i32, options: i32) -> i32;
    fn alarm(seconds: u32) -> u32;
}

#[derive(Clone, Copy, PartialEq, Eq, Debug)]
pub enum End {
    Exit(u8),
    Signal(i32),
}

/// None in a child, that goes on from here; in its parent, how that child has ended.
pub fn child_end() -> Option<End> {
    let child = unsafe { fork() };
    assert!(child >= 0, "a child starts");
    if child == 0 {
        return None;
    }
    let mut status = 0;
    let ended = unsafe { waitpid(child, &mut status, 0) };
    assert_eq!(ended, child, "the child has ended");
    Some(match status & 0x7f {
        0 => End::Exit((status >> 8) as u8),
        signal => End::Signal(signal),
    })
}

/// Ends this process by a signal after so many seconds, unless it is called again.
pub fn allow_seconds(seconds: u32) {
    unsafe { alarm(seconds) };
}

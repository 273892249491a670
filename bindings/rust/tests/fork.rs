//! The child of a fork counts in its own copy, and the parent's numbers stay. Without a harness:
//! the header allows no fork of a process with threads.

use dirgwako::*;

/// What the system has for it.
mod system {
    extern "C" {
        fn fork() -> i32;
        fn waitpid(child: i32, status: *mut i32, options: i32) -> i32;
        fn _exit(status: i32) -> !;
    }

    /// The status that a child ends with, which does this and nothing else.
    pub fn in_a_child(work: impl FnOnce() -> i32) -> i32 {
        // SAFETY: this process has one thread; the child ends without what would run at an end.
        let child = unsafe { fork() };
        if child == 0 {
            let status = work();
            // SAFETY: as above.
            unsafe { _exit(status) };
        }
        let mut status = 0;
        // SAFETY: the status is this call's alone.
        assert_eq!(unsafe { waitpid(child, &mut status, 0) }, child);
        assert_eq!(status & 0x7f, 0, "the child was killed");
        (status >> 8) & 0xff
    }
}

fn main() {
    let ways =
        [("striped", Registry::new()), ("tallied", Registry::builder().tallied().build().unwrap())];
    for (way, registry) in ways {
        let a = register_int_counter_with_registry!("a_total", "A.", registry).unwrap();
        (0..105).for_each(|_| a.inc());
        let status = system::in_a_child(|| {
            (0..50).for_each(|_| a.inc());
            let text = registry.gather_text().unwrap_or_default();
            i32::from(a.get() == 155 && text.ends_with("\na_total 155\n")) * 7
        });
        (0..10).for_each(|_| a.inc());
        assert_eq!((status, a.get()), (7, 115), "{way}");
        println!("fork, {way}: as it should be");
    }
}

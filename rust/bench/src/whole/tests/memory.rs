//! What the system tells of memory, and what may be taken of it.

use crate::inputs;
use crate::memory::{field, fits, once, Used};
use crate::ways::{Way, WAYS};

#[test]
fn a_line_of_memory_is_read_back() {
    let used = Used {
        input: 1,
        output: 20,
        before: 300,
        peak: u64::MAX,
    };
    assert_eq!(Used::parse(&used.line()), Some(used));
    assert_eq!(Used::parse("1 20 300 18446744073709551615\n"), Some(used));
    let wrong = ["", "1 2 3", "1 2 3 4 5", "1 2 3 x", "1 2 3 -4"];
    for line in wrong {
        assert_eq!(Used::parse(line), None, "{line}");
    }
}

#[test]
fn the_buffers_are_taken_off_the_peak() {
    let used = Used {
        input: 100,
        output: 50,
        before: 130,
        peak: 190,
    };
    assert_eq!((used.before_beyond(), used.beyond()), (30, 40));
    // Pages that were never touched are in no peak.
    let less = Used {
        before: 99,
        peak: 149,
        ..used
    };
    assert_eq!((less.before_beyond(), less.beyond()), (0, 0));
}

#[test]
fn fields_are_found_by_their_names() {
    let text = "Name:\tVmHWM\nVmPeak:\t  20 kB\nVmHWM:\t  3 kB\nVmRSS:\t0 kB\nThreads:\t1\n";
    assert_eq!(field(text, "VmHWM"), Some(3 * 1_024));
    assert_eq!(field(text, "VmRSS"), Some(0));
    for missing in ["Name", "VmSwap", "VmPea", "Threads", ""] {
        assert_eq!(field(text, missing), None, "{missing}");
    }
    for wrong in ["VmHWM: x kB", "VmHWM: -1 kB", "VmHWM: kB", "VmHWM 1 kB", ""] {
        assert_eq!(field(wrong, "VmHWM"), None, "{wrong}");
    }
    assert_eq!(field("VmHWM: 18446744073709551615 kB", "VmHWM"), None);
}

#[cfg(target_os = "linux")]
#[test]
fn a_run_tells_its_memory() {
    for program in inputs::programs() {
        for way in WAYS {
            let used = once(way, &program, 1_000).expect("/proc/self/status");
            assert_eq!(used.input, 5_999);
            assert_eq!(used.output, if program.tree_valued { 5_999 } else { 0 });
            // No more is sure where other tests run in the same process.
            assert!(used.before > used.input && used.peak > used.input);
        }
    }
}

/// Two thirds of the memory to be had: 3 bytes for each byte of the input over
/// tokens, 27 on trees.
#[test]
fn ways_that_would_take_too_much_are_left_out() {
    for (way, bytes) in [(Way::Run, 3), (Way::Plain, 3), (Way::Trees, 27)] {
        let available = 3 * 1_000_000 * bytes / 2;
        assert!(fits(way, 1_000_000, available));
        assert!(!fits(way, 1_000_001, available));
        assert!(fits(way, 0, 0));
        assert!(!fits(way, 1, 0));
        assert!(!fits(way, u64::MAX, u64::MAX));
    }
}

//! `xabatch gate`: the exit status of each verdict, and that nothing passes with other floats.

mod tool;

use tool::{bash, tool, Folder};

fn asked(words: &str) -> (i32, String, String) {
    let words: Vec<&str> = words.split(' ').collect();
    let (status, out, errors) = tool(&[&["gate"], &words[..]].concat(), &[]);
    (status, String::from_utf8(out).expect("text"), errors)
}

fn says(words: &str, status: i32, line: &str) {
    assert_eq!(asked(words), (status, format!("{line}\n"), String::new()), "{words}");
}

fn is_refused(words: &str, message: &str) {
    let (status, out, errors) = asked(words);
    assert_eq!((status, &*out), (2, ""), "{words}");
    assert!(errors.contains(message), "{words}: {errors}");
}

#[test]
fn pass_is_0_and_fail_is_1() {
    says("at-least 0.999 9990 10000", 0, "pass: 9990 of 10000 matched, at least 0.999");
    says("at-least 0.999 9989 10000", 1, "fail: 9989 of 10000 matched, at least 0.999");
    says("at-most 0 0 10000", 0, "pass: 0 of 10000 unread, at most 0");
    says("at-most 0 1 4294967295", 1, "fail: 1 of 4294967295 unread, at most 0");
    says("between 0.25 0.5 1 2", 0, "pass: 1 of 2 matched, at least 0.25 and at most 0.5");
    says("between 0.25 0.5 3 4", 1, "fail: 3 of 4 matched, at least 0.25 and at most 0.5");
}

#[test]
fn limits_at_the_edges() {
    let third = |digit: &str, status| {
        let bits = format!("0x3fd555555555555{digit}");
        assert_eq!(asked(&format!("at-least {bits} 1 3")).0, status, "{bits}");
    };
    third("4", 0);
    third("5", 0);
    third("6", 1);
    assert_eq!(asked("at-least 0.3333333333333333 1 3").0, 0);
    assert_eq!(asked("at-least 1 4294967294 4294967295").0, 1);
    assert_eq!(asked("at-least 1.0 0xffffffff 4294967295").0, 0);
    assert_eq!(asked("at-most -0.0 0 1").0, 0);
    assert_eq!(asked("-- at-most -0 0 1").0, 0);
    assert_eq!(asked("at-least 5e-324 0 1").0, 1);
}

#[test]
fn what_is_refused_is_2() {
    for limit in ["nan", "inf", "-inf", "-5e-324", "1.0000000000000002", "0x7ff0000000000001"] {
        is_refused(&format!("at-least {limit} 0 0"), "not a number from 0 to 1");
        is_refused(&format!("at-most {limit} 2 1"), "not a number from 0 to 1");
        is_refused(&format!("between 0 {limit} 1 1"), "not a number from 0 to 1");
    }
    is_refused("between 0.5 0.25 0 0", "above the second");
    is_refused("at-least 0 0 0", "nothing to pass");
    is_refused("at-most 1 1 0", "nothing to pass");
    is_refused("at-least 0 2 1", "above the total");
}

#[test]
fn bad_usage_is_2() {
    is_refused("most 0 1 1", "no kind of gate");
    is_refused("at-least 0 1", "are named");
    is_refused("at-least 0 1 1 1", "are named");
    is_refused("between 0 1 1", "are named");
    is_refused("at-least half 1 1", "no limit");
    is_refused("at-least 0x5 1 1", "no limit");
    is_refused("at-least 0 -1 1", "-1");
    is_refused("at-least 0 1 4294967296", "at most 4294967295");
    is_refused("at-least 0 max max", "at most 4294967295");
    assert_eq!(tool(&["gate"], &[]).0, 2);
    assert_eq!(bash("$X gate at-least 0 1 1 > /dev/full", &[]).0, 2);
    assert_eq!(bash("$X gate at-least 0 1 1 >&-", &[]).0, 2);
}

/// A library that is loaded into the process sets the thread's mode, as one linked with -ffast-math does.
#[test]
fn with_other_floats_nothing_passes() {
    let folder = Folder::new();
    let source = folder.path("mode.c");
    let code = "#include <xmmintrin.h>\n__attribute__((constructor)) static void set(void) \
                { _mm_setcsr(_mm_getcsr() | MODE); }\n";
    std::fs::write(&source, code).expect("written");
    for (mode, status) in [("0", 0), ("0x4000", 2), ("0x2000", 2), ("0x6000", 2), ("0x8040", 2)] {
        let line = format!(
            "cd {} && gcc -shared -fPIC -DMODE={mode} -o mode.so mode.c && \
             LD_PRELOAD=$PWD/mode.so $X gate at-least 0.5 1 1",
            folder.0.display()
        );
        let (found, out, errors) = bash(&line, &[]);
        assert_eq!(found, status, "{mode}: {errors}");
        assert_eq!(out.is_empty(), status != 0);
        assert_eq!(errors.contains("round to nearest"), status != 0, "{errors}");
    }
}

//! A thread of Rust starts as the contracts want it; the check can say no. bindings/c/environment.c has it
//! say no to other rounding modes and to flush-to-zero, which Rust itself cannot set.
use yultarvas::{environment, raw};

#[test]
fn as_a_thread_starts() {
    assert_eq!(environment(), Ok(()));
    assert_eq!(std::thread::spawn(environment).join().unwrap(), Ok(()));
}

// Operands that stand for what another thread would work out.
#[test]
fn says_no() {
    let least = f64::from_bits(1);
    unsafe {
        assert_eq!(raw::yultarvas_environment(1.0, least), 0);
        assert_eq!(raw::yultarvas_environment(1.0, 0.0), 2);
        assert_eq!(
            raw::yultarvas_environment(f64::from_bits(1.0f64.to_bits() + 1), least),
            1
        );
        assert_eq!(
            raw::yultarvas_environment(f64::from_bits(1.0f64.to_bits() - 1), least),
            1
        );
        assert_eq!(raw::yultarvas_environment(f64::NAN, f64::NAN), 1);
    }
}

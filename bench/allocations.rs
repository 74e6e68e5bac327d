//! Counts the calls of the C library's allocator, through which both crates allocate.

use crate::{Call, REFUSED, SHAPES, answer, ours};
use std::hint::black_box;
use std::sync::atomic::{AtomicU64, Ordering};

/// The number of allocations so far.
#[unsafe(no_mangle)]
static LITRS_BENCH_ALLOCATIONS: AtomicU64 = AtomicU64::new(0);

// Each call of the function named after `__wrap_` comes here, by an option of the linker in `run`.
std::arch::global_asm!(
    ".macro counted name",
    ".globl __wrap_\\name",
    "__wrap_\\name:",
    "incq LITRS_BENCH_ALLOCATIONS(%rip)",
    "jmp __real_\\name",
    ".endm",
    "counted malloc",
    "counted calloc",
    "counted realloc",
    "counted posix_memalign",
    options(att_syntax)
);

/// Returns the number of allocations so far.
fn asked() -> u64 {
    LITRS_BENCH_ALLOCATIONS.load(Ordering::Relaxed)
}

/// Stops if a parse over `&str` does not allocate as often as it should. That is once for a C
/// string, and for a quoted string or byte string with a backslash. For other literals and for
/// texts that are not a literal, it does not allocate.
fn check(text: &str) {
    let before = asked();
    let refused = answer(ours::parse, text) & REFUSED != 0;
    let made = asked() - before;
    let is_quoted = text.starts_with('"') || text.starts_with("b\"");
    let has_value = text.starts_with('c') || is_quoted && text.contains('\\');
    assert_eq!(made, u64::from(has_value && !refused), "allocations of {text:?}");
}

/// Returns the mean number of allocations of `call` for `texts`.
fn count(call: Call, texts: &[&str]) -> f64 {
    let before = asked();
    let mut sum = 0u64;
    for text in texts {
        sum = sum.wrapping_add(answer(call, text));
    }
    black_box(sum);
    (asked() - before) as f64 / texts.len() as f64
}

/// Checks the allocations of each text over `&str`. Prints the mean number for each shape that
/// allocates.
pub fn main(rows: &[(&str, &str, &[&str])]) {
    println!("Allocations a text of `parse`, of the shapes that have any; of {} shapes.", SHAPES.len());
    for (kind, name, texts) in rows {
        texts.iter().for_each(|text| check(text));
        let ours = count(ours::parse, texts);
        #[cfg(upstream)]
        let upstream = count(crate::upstream::parse, texts);
        #[cfg(not(upstream))]
        let upstream = 0.0;
        if ours > 0.0 || upstream > 0.0 {
            print!("{kind:<11}{name:<32}{ours:>9.2}");
            if cfg!(upstream) {
                print!("{upstream:>10.2}");
            }
            println!();
        }
    }
}

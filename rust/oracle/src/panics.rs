//! Panics of the original, caught without a word on the console.

use crate::No;
use std::any::Any;
use std::cell::Cell;
use std::panic::{self, AssertUnwindSafe};
use std::sync::Once;

thread_local! {
    static QUIET: Cell<bool> = const { Cell::new(false) };
}

/// Runs `f`; a panic gives its words. Other threads' panics still speak.
pub(crate) fn caught<T>(f: impl FnOnce() -> T) -> Result<T, String> {
    static HOOK: Once = Once::new();
    HOOK.call_once(|| {
        let before = panic::take_hook();
        panic::set_hook(Box::new(move |info| {
            if !QUIET.get() {
                before(info)
            }
        }));
    });
    let before = QUIET.replace(true);
    let result = panic::catch_unwind(AssertUnwindSafe(f));
    QUIET.set(before);
    result.map_err(words)
}

fn words(payload: Box<dyn Any + Send>) -> String {
    match payload.downcast::<String>() {
        Ok(words) => *words,
        Err(payload) => match payload.downcast::<&str>() {
            Ok(words) => words.to_string(),
            Err(_) => "a panic without words".to_string(),
        },
    }
}

/// Runs `f`; a panic whose words contain one of `meanings` is that refusal.
pub(crate) fn mapped<T>(meanings: &[(&str, u32)], f: impl FnOnce() -> T) -> Result<T, No> {
    caught(f).map_err(|words| match meanings.iter().find(|(part, _)| words.contains(part)) {
        Some((_, number)) => No::Refused(*number),
        None => No::Panicked(words),
    })
}

/// Refusals 3, 10 and 11 are debug assertions of the original.
pub(crate) fn must_speak() {
    if !cfg!(debug_assertions) {
        panic!("the oracle speaks only with debug assertions on");
    }
}

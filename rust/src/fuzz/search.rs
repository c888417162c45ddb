//! Case after case until the answers differ.

use std::cell::Cell;
use std::panic::{self, AssertUnwindSafe};
use std::sync::Once;

use crate::fuzz::counts::Counts;

/// The first case in which the answers differ.
#[derive(Clone, Debug, PartialEq, Eq)]
pub struct Difference {
    pub number: u64,
    pub bytes: Vec<u8>,
    pub message: String,
}

/// Puts the cases to `ask` one by one, until it panics.
pub fn search(
    cases: impl IntoIterator<Item = (u64, Vec<u8>)>,
    ask: impl Fn(&[u8], &mut Counts),
) -> Result<Counts, Difference> {
    let mut counts = Counts::default();
    for (number, bytes) in cases {
        if let Some(message) = panic_of(|| ask(&bytes, &mut counts)) {
            return Err(Difference {
                number,
                bytes,
                message,
            });
        }
    }
    Ok(counts)
}

/// What the call panics with, if it does. Such a panic is not printed.
pub fn panic_of(call: impl FnOnce()) -> Option<String> {
    SILENCE.call_once(|| {
        let print = panic::take_hook();
        panic::set_hook(Box::new(move |panic| {
            if !SILENT.get() {
                print(panic);
            }
        }));
    });
    SILENT.set(true);
    // What a panic leaves half done is looked at no more.
    let result = panic::catch_unwind(AssertUnwindSafe(call));
    SILENT.set(false);

    let message = match result.err()?.downcast::<String>() {
        Ok(message) => *message,
        Err(payload) => match payload.downcast::<&str>() {
            Ok(message) => message.to_string(),
            Err(_) => "a panic without a message".to_string(),
        },
    };
    Some(message)
}

static SILENCE: Once = Once::new();

thread_local! {
    /// Whether panics of this thread are caught and told later.
    static SILENT: Cell<bool> = const { Cell::new(false) };
}

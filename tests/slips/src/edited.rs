//! A call of the crates as they are, and the same call with one edit awake.

use std::cell::RefCell;
use std::panic::{AssertUnwindSafe, catch_unwind};
use std::rc::Rc;

/// No edit is awake.
pub const NONE: usize = 0;

/// What stands for the answer of a call that has none.
const STOPPED: i64 = i64::MIN;

/// The first call that tells an edit from the code as it is, in words.
pub type Told = Rc<RefCell<Option<String>>>;

/// A call and an edit.
#[derive(Clone)]
pub struct Edited {
    pub edit: usize,
    pub call: &'static str,
    /// Is it told by a call that has no answer, since an index is out of range or a sum wraps?
    pub by_stops: bool,
    pub told: Told,
}

/// An answer with all that was lent.
type Given<const LISTS: usize> = (i64, [Vec<i64>; LISTS], Vec<u8>);

impl Edited {
    pub fn named(&self, call: &'static str) -> Self {
        Edited {
            call,
            ..self.clone()
        }
    }

    /// What the call gives while the edit is awake. Where it stops then: nothing, if it is told by that, or what it gives as it is.
    pub fn held<T: PartialEq>(
        &self,
        call: impl Fn() -> T,
        words: impl Fn(&T, &T) -> String,
    ) -> Option<T> {
        let as_it_is = call();
        kit::edit::wake(self.edit);
        let edited = catch_unwind(AssertUnwindSafe(&call));
        kit::edit::wake(NONE);
        match edited {
            Ok(edited) => {
                if edited != as_it_is {
                    self.tell(words(&edited, &as_it_is));
                }
                Some(edited)
            }
            Err(_) if self.by_stops => {
                self.tell("stops".to_string());
                None
            }
            Err(_) => Some(as_it_is),
        }
    }

    fn tell(&self, words: String) {
        let first = format!("{} {words}", self.call);
        self.told.borrow_mut().get_or_insert(first);
    }

    /// A call on lists and bytes that are lent to it.
    pub fn lent<const LISTS: usize>(
        &self,
        lists: [&mut [i64]; LISTS],
        bytes: &mut [u8],
        call: impl Fn([&mut [i64]; LISTS], &mut [u8]) -> i64,
    ) -> i64 {
        let run = || -> Given<LISTS> {
            let mut owned = lists.each_ref().map(|list| list.to_vec());
            let mut own_bytes = bytes.to_vec();
            let answer = call(owned.each_mut().map(Vec::as_mut_slice), &mut own_bytes);
            (answer, owned, own_bytes)
        };
        let held = self.held(run, |(edited, ..), (answer, ..)| {
            if edited == answer {
                return format!("answers {answer} with other figures");
            }
            format!("answers {edited}, for {answer}")
        });
        let Some((answer, owned, own_bytes)) = held else {
            return STOPPED;
        };
        for (list, owned) in lists.into_iter().zip(owned) {
            list.copy_from_slice(&owned);
        }
        bytes.copy_from_slice(&own_bytes);
        answer
    }
}

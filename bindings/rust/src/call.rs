//! How a call of the C face is made.

/// Makes a call of the C face. What is lent is marked: `in` a list that is read, `out` a list that is
/// written, `num` a number that is written. All else is a value.
///
/// A list goes as its pointer and its length. All that is lent is borrowed at one time, right before
/// the call, so that the compiler refuses an output that overlaps something else.
macro_rules! call {
    ($call:ident($($lent:tt)*)) => { call!(@ $call [] $($lent)*) };
    (@ $call:ident [$($given:expr,)*]) => {
        // SAFETY: each pointer is that of a live slice and stands with its length, or is that of a
        // live number; outputs are borrowed mutably, and hence overlap nothing else
        unsafe { $call($($given),*) }
    };
    (@ $call:ident [$($given:expr,)*] in $list:expr $(, $($rest:tt)*)?) => {{
        let list: &[_] = &$list;
        call!(@ $call [$($given,)* list.as_ptr(), list.len(),] $($($rest)*)?)
    }};
    (@ $call:ident [$($given:expr,)*] out $list:expr $(, $($rest:tt)*)?) => {{
        let list: &mut [_] = &mut $list;
        let length = list.len();
        call!(@ $call [$($given,)* list.as_mut_ptr(), length,] $($($rest)*)?)
    }};
    (@ $call:ident [$($given:expr,)*] num $number:expr $(, $($rest:tt)*)?) => {{
        let number: &mut _ = &mut $number;
        call!(@ $call [$($given,)* number,] $($($rest)*)?)
    }};
    (@ $call:ident [$($given:expr,)*] $value:expr $(, $($rest:tt)*)?) => {{
        let value = $value;
        call!(@ $call [$($given,)* value,] $($($rest)*)?)
    }};
}
pub(crate) use call;

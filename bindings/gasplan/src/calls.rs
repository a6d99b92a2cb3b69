//! The library's functions as `include/gasplan.h` has them, made safe: a slice goes over as its pointer and its length.
//!
//! Each takes `out` and answers by number, to the letter of the header. All unsafe code for the library is in this file.
//!
//! What the header asks of a caller holds of every slice: it is not null, also where it is empty; its places hold values
//! and are aligned; it has at most `isize::MAX` bytes; it lives through the call; and a `&mut` one overlaps no other.

unsafe extern "C" {
    fn gasplan_read(
        bytes: *const u8,
        bytes_len: usize,
        list: *mut i64,
        list_len: usize,
        out: *mut i64,
        out_len: usize,
    ) -> i64;

    fn gasplan_write(
        list: *const i64,
        list_len: usize,
        bytes: *mut u8,
        bytes_len: usize,
        out: *mut i64,
        out_len: usize,
    ) -> i64;

    fn gasplan_case(case_list: *const i64, case_len: usize, out: *mut i64, out_len: usize) -> i64;

    fn gasplan_judge(
        case_list: *const i64,
        case_len: usize,
        plan_list: *const i64,
        plan_len: usize,
        out: *mut i64,
        out_len: usize,
    ) -> i64;

    fn gasplan_judge_bytes(
        case_bytes: *const u8,
        case_bytes_len: usize,
        plan_bytes: *const u8,
        plan_bytes_len: usize,
        case_list: *mut i64,
        case_len: usize,
        plan_list: *mut i64,
        plan_len: usize,
        out: *mut i64,
        out_len: usize,
    ) -> i64;

    fn gasplan_ledger(
        case_list: *const i64,
        case_len: usize,
        plan_list: *const i64,
        plan_len: usize,
        set: i64,
        s: i64,
        t: i64,
        out: *mut i64,
        out_len: usize,
    ) -> i64;

    fn gasplan_settle(
        sender: *const i64,
        sender_len: usize,
        receiver: *const i64,
        receiver_len: usize,
        agreed: i64,
        out: *mut i64,
        out_len: usize,
    ) -> i64;
}

/// Reads bytes into a list.
#[inline]
pub fn read(bytes: &[u8], list: &mut [i64], out: &mut [i64]) -> i64 {
    // SAFETY: each pointer goes with the length of its slice, and slices are as the header asks (above).
    unsafe {
        gasplan_read(
            bytes.as_ptr(),
            bytes.len(),
            list.as_mut_ptr(),
            list.len(),
            out.as_mut_ptr(),
            out.len(),
        )
    }
}

/// Writes a list as bytes.
#[inline]
pub fn write(list: &[i64], bytes: &mut [u8], out: &mut [i64]) -> i64 {
    // SAFETY: as in `read`.
    unsafe {
        gasplan_write(
            list.as_ptr(),
            list.len(),
            bytes.as_mut_ptr(),
            bytes.len(),
            out.as_mut_ptr(),
            out.len(),
        )
    }
}

/// Judges a case.
#[inline]
pub fn case(case_list: &[i64], out: &mut [i64]) -> i64 {
    // SAFETY: as in `read`.
    unsafe {
        gasplan_case(
            case_list.as_ptr(),
            case_list.len(),
            out.as_mut_ptr(),
            out.len(),
        )
    }
}

/// Judges a case and a plan.
#[inline]
pub fn judge(case_list: &[i64], plan_list: &[i64], out: &mut [i64]) -> i64 {
    // SAFETY: as in `read`.
    unsafe {
        gasplan_judge(
            case_list.as_ptr(),
            case_list.len(),
            plan_list.as_ptr(),
            plan_list.len(),
            out.as_mut_ptr(),
            out.len(),
        )
    }
}

/// Judges two byte strings, with a list for each.
#[inline]
pub fn judge_bytes(
    case_bytes: &[u8],
    plan_bytes: &[u8],
    case_list: &mut [i64],
    plan_list: &mut [i64],
    out: &mut [i64],
) -> i64 {
    // SAFETY: as in `read`.
    unsafe {
        gasplan_judge_bytes(
            case_bytes.as_ptr(),
            case_bytes.len(),
            plan_bytes.as_ptr(),
            plan_bytes.len(),
            case_list.as_mut_ptr(),
            case_list.len(),
            plan_list.as_mut_ptr(),
            plan_list.len(),
            out.as_mut_ptr(),
            out.len(),
        )
    }
}

/// Judges a case and a plan, then draws up the ledger of a node set from step s to step t.
#[inline]
pub fn ledger(
    case_list: &[i64],
    plan_list: &[i64],
    set: i64,
    s: i64,
    t: i64,
    out: &mut [i64],
) -> i64 {
    // SAFETY: as in `read`.
    unsafe {
        gasplan_ledger(
            case_list.as_ptr(),
            case_list.len(),
            plan_list.as_ptr(),
            plan_list.len(),
            set,
            s,
            t,
            out.as_mut_ptr(),
            out.len(),
        )
    }
}

/// Settles the records of two meters.
#[inline]
pub fn settle(sender: &[i64], receiver: &[i64], agreed: i64, out: &mut [i64]) -> i64 {
    // SAFETY: as in `read`.
    unsafe {
        gasplan_settle(
            sender.as_ptr(),
            sender.len(),
            receiver.as_ptr(),
            receiver.len(),
            agreed,
            out.as_mut_ptr(),
            out.len(),
        )
    }
}

//! The header's figures of stack, held to the frames in the machine code and to what each call takes on the largest input.

use std::collections::BTreeSet;
use std::hint::black_box;

use archive::frames::Frames;
use archive::header::Header;
use archive::listing;
use archive::painted::bytes_taken;
use gasplan::calls;
use inputs::Rng;
use inputs::bytes::encode;
use inputs::generate::{Size, of_size};

/// What lends the slices to a call takes less than this.
const LENDING: usize = 128;

/// One call on the largest input.
struct Taken {
    call: &'static str,
    painted: usize,
    frames: usize,
    header: usize,
}

impl Taken {
    /// Why the header's figure is not to be believed.
    fn fault(&self) -> Option<&'static str> {
        let Taken {
            painted,
            frames,
            header,
            ..
        } = *self;
        if frames > header || painted > header {
            Some("the header's figure is too small")
        } else if 4 * painted < header {
            Some("the header's figure is more than four times what is taken")
        } else if painted > frames + LENDING {
            Some("more was taken than the frames have")
        } else {
            None
        }
    }
}

/// Each call on an accepted case and plan with all counts as large as they can be, or on two records of 5,000 rows that are
/// settled in every way.
fn painted() -> [(&'static str, usize); 7] {
    let pair = of_size(&mut Rng::new(1), Size::LARGEST);
    let (case, plan) = (pair.case.list(), pair.plan.list());
    let (case_bytes, plan_bytes) = (encode(&case).bytes, encode(&plan).bytes);
    let (mut cases, mut plans) = (vec![0; case.len()], vec![0; plan.len()]);
    let (mut bytes, mut out) = (vec![0; plan_bytes.len()], [0; gasplan::OUT_PLACES]);
    let (all, steps) = ((1 << Size::LARGEST.nodes) - 1, Size::LARGEST.steps as i64);
    let [sender, receiver] = full_records();
    [
        yes("read", || calls::read(&plan_bytes, &mut plans, &mut out)),
        yes("write", || calls::write(&plan, &mut bytes, &mut out)),
        yes("case", || calls::case(&case, &mut out)),
        yes("judge", || calls::judge(&case, &plan, &mut out)),
        yes("judge_bytes", || {
            calls::judge_bytes(&case_bytes, &plan_bytes, &mut cases, &mut plans, &mut out)
        }),
        yes("ledger", || {
            calls::ledger(&case, &plan, all, 0, steps, &mut out)
        }),
        yes("settle", || calls::settle(&sender, &receiver, 1, &mut out)),
    ]
}

/// Times in both records, every sixth in the sender's alone and every sixth in the receiver's.
fn full_records() -> [Vec<i64>; 2] {
    let rows = |left_out: i64, more: i64| -> Vec<i64> {
        let times = (0..).filter(|time| time % 6 != left_out);
        let rows = times.map(|time| [time, time % 4 * more]);
        rows.take(gasplan::RECORD_MOST).flatten().collect()
    };
    let [sender, receiver] = [rows(0, 1), rows(3, 2)];
    let it = gasplan::settle(&sender, &receiver, 1).unwrap();
    let ways = [it.agreed, it.cut, it.only_sender, it.only_receiver];
    assert!(ways.iter().all(|&count| count > 500), "{it}");
    [sender, receiver]
}

/// The bytes that a call takes whose answer is 0: it has gone all the way.
fn yes(name: &'static str, mut call: impl FnMut() -> i64) -> (&'static str, usize) {
    let mut answer = gasplan::NO_ROOM;
    let taken = bytes_taken(|| answer = call());
    assert_eq!(answer, 0, "{name}");
    (name, taken)
}

#[test]
fn the_header_s_figures_hold() {
    let frames = Frames::parse(&listing("objdump", &["-dr", "--no-show-raw-insn"])).unwrap();
    let header = Header::read();
    let functions = header.functions();
    let all = painted().map(|(call, painted)| Taken {
        call,
        painted,
        frames: frames.longest(&format!("gasplan_{call}")).unwrap() + on_stack(&functions[call]),
        header: header.number(&format!("GASPLAN_STACK_{}", call.to_uppercase())),
    });
    println!("bytes of stack     header    frames   painted");
    for Taken {
        call,
        painted,
        frames,
        header,
    } in &all
    {
        println!("{call:<16} {header:>8}  {frames:>8}  {painted:>8}");
    }
    for taken in &all {
        assert_eq!(taken.fault(), None, "{}", taken.call);
    }
    let measured: BTreeSet<&str> = all.iter().map(|taken| taken.call).collect();
    let declared = functions.keys().map(String::as_str).collect();
    assert_eq!(measured, declared, "every call has a figure");
}

/// The arguments past the sixth.
fn on_stack(parameters: &[(String, String)]) -> usize {
    8 * parameters.len().saturating_sub(6)
}

#[test]
fn a_figure_that_is_off_is_found() {
    let fault = |painted, frames, header| {
        let call = "";
        Taken {
            call,
            painted,
            frames,
            header,
        }
        .fault()
    };
    assert_eq!(fault(3_000, 2_900, 3_000), None);
    assert!(fault(3_000, 2_900, 2_999).is_some());
    assert!(fault(3_000, 3_100, 3_099).is_some());
    assert!(fault(3_000, 2_900, 12_001).is_some());
    assert!(fault(3_000, 2_800, 3_000).is_some());
}

/// The painted stack sees what is taken.
#[test]
fn a_known_array_is_measured() {
    let array = bytes_taken(|| {
        black_box([1_u8; 20_000]);
    });
    assert!((20_000..24_000).contains(&array), "{array}");
    assert!(bytes_taken(|| ()) < LENDING);
}

const LISTING: &str = "
0000000000000000 <below>:
   0:	push   %rbx
   1:	mov    %rax,-0x18(%rsp)
   6:	pop    %rbx
   7:	ret

0000000000000000 <above>:
   0:	push   %rbp
   1:	sub    $0x100,%rsp
   8:	call   d <above+0xd>
			9: R_X86_64_PLT32	.text.below-0x4
   d:	call   12 <above+0x12>
			e: R_X86_64_PLT32	memcpy-0x4
  12:	add    $0x100,%rsp
  19:	pop    %rbp
  1a:	ret
";

/// The frames are added up along the longest chain.
#[test]
fn frames_are_added_up() {
    let frames = Frames::parse(LISTING).unwrap();
    assert_eq!(frames.longest("below"), Ok(8 + 8 + 0x18));
    assert_eq!(frames.longest("above"), Ok(8 + 8 + 0x100 + 8 + 8 + 0x18));
    assert!(frames.longest("neither").is_err());
    // 0x80 bytes are taken so, since the number is a shorter one
    let shorter = LISTING.replace("sub    $0x100", "add    $0xffffffffffffff80");
    let frames = Frames::parse(&shorter).unwrap();
    assert_eq!(frames.longest("above"), Ok(8 + 8 + 0x80 + 8 + 8 + 0x18));
}

/// What could take more than the frames say is refused.
#[test]
fn unknown_forms_are_refused() {
    for form in [
        "call   *%rax",
        "sub    %rax,%rsp",
        "and    $0xffffffffffffffe0,%rsp",
        "mov    %rbp,%rsp",
        "lea    -0x28(%rbp),%rsp",
        "pop    %rsp",
        "leave",
        "call   0 <below>",
        "lea    0x0(%rip),%rax\n\t\t\t9: R_X86_64_PC32\t.text.below-0x4",
        "call   d <above+0xd>\n\t\t\t9: R_X86_64_PLT32\t.text.below+0x10",
    ] {
        let listing = LISTING.replace("mov    %rax,-0x18(%rsp)", form);
        assert!(Frames::parse(&listing).is_err(), "{form}");
    }
    let cycle = LISTING.replace("memcpy-0x4", "above-0x4");
    assert!(Frames::parse(&cycle).unwrap().longest("above").is_err());
    let stranger = LISTING.replace("memcpy", "malloc");
    assert!(Frames::parse(&stranger).unwrap().longest("above").is_err());
}

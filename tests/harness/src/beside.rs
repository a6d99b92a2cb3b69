//! A judge and the second checker, side by side.

use std::fmt::{self, Debug};

use inputs::Refused;

use crate::calls::{self, Judge, NO_ROOM, OUT_PLACES};
use crate::lent::Lent;
use crate::tally::Tally;

/// An input on which the judge and the second checker differ, or miss what was aimed at.
#[derive(Debug)]
pub struct Difference {
    pub text: String,
}

impl fmt::Display for Difference {
    fn fmt(&self, f: &mut fmt::Formatter<'_>) -> fmt::Result {
        f.write_str(&self.text)
    }
}

/// The second checker's answer and the first places of its `out`.
#[derive(Clone, Debug, PartialEq, Eq)]
pub struct Reply {
    pub answer: i64,
    pub out: Vec<i64>,
}

impl Reply {
    /// Is this the refusal that was aimed at? Says so if not.
    pub fn expect(&self, expect: Refused, aim: &str) -> Result<(), Difference> {
        let found = [self.answer, self.out[0], self.out[1]];
        let wanted = [
            expect.number as i64,
            expect.step as i64,
            expect.place as i64,
        ];
        if found == wanted {
            return Ok(());
        }
        Err(Difference {
            text: format!("aim {aim}: wanted {wanted:?}, the second checker says {found:?}"),
        })
    }
}

/// Makes each call on both, on equal buffers, and counts where inputs end.
pub struct Beside {
    pub judge: Judge,
    pub tally: Tally,
    /// What the calls are made on now, in words.
    pub input: &'static str,
    calls: usize,
}

impl Beside {
    pub fn new(judge: Judge) -> Self {
        Beside {
            judge,
            tally: Tally::default(),
            input: "",
            calls: 0,
        }
    }

    /// Makes what follows depend on the seed alone.
    pub fn begin(&mut self, seed: u64) {
        self.calls = (seed % 1_000) as usize;
    }

    pub fn read(&mut self, bytes: &[u8], room: usize) -> Result<Reply, Difference> {
        let outs = self.outs();
        let reply = both(
            || format!("read {bytes:02X?} into {room} places"),
            Lent::new(room),
            outs,
            |list: &mut Lent<i64>, out| calls::read(bytes, list.room(), out),
            self.judge
                .read
                .as_ref()
                .map(|read| |list: &mut Lent<i64>, out: &mut [i64]| read(bytes, list.room(), out)),
        )?;
        self.count(&reply, |tally| tally.coded += 1);
        Ok(reply)
    }

    /// The judge's writer and the earlier one are each held against the second checker's.
    pub fn write(&mut self, list: &[i64], room: usize) -> Result<Reply, Difference> {
        let outs = self.outs();
        let lent = Lent::new(room);
        let second = |bytes: &mut Lent<u8>, out: &mut [i64]| calls::write(list, bytes.room(), out);
        both(
            || format!("the earlier writer as judge: write {list:?} into {room} bytes"),
            lent.clone(),
            outs.clone(),
            second,
            Some(|bytes: &mut Lent<u8>, out: &mut [i64]| {
                calls::write_earlier(list, bytes.room(), out)
            }),
        )?;
        let reply = both(
            || format!("write {list:?} into {room} bytes"),
            lent,
            outs,
            second,
            self.judge.write.as_ref().map(|write| {
                |bytes: &mut Lent<u8>, out: &mut [i64]| write(list, bytes.room(), out)
            }),
        )?;
        self.count(&reply, |tally| tally.coded += 1);
        Ok(reply)
    }

    /// Not counted: the same case is counted with a plan.
    pub fn case(&mut self, case: &[i64]) -> Result<Reply, Difference> {
        let outs = self.outs();
        both(
            || format!("judge the case {case:?}"),
            (),
            outs,
            |(), out| calls::judge_case(case, out),
            self.judge
                .case
                .as_ref()
                .map(|judge| |(): &mut (), out: &mut [i64]| judge(case, out)),
        )
    }

    pub fn plan(&mut self, case: &[i64], plan: &[i64]) -> Result<Reply, Difference> {
        let outs = self.outs();
        let reply = both(
            || format!("judge the case {case:?} and the plan {plan:?}"),
            (),
            outs,
            |(), out| calls::judge_plan(case, plan, out),
            self.judge
                .plan
                .as_ref()
                .map(|judge| |(): &mut (), out: &mut [i64]| judge(case, plan, out)),
        )?;
        self.count(&reply, |tally| tally.accept(&reply.out));
        Ok(reply)
    }

    /// Two byte strings, and the rooms of the two lists they are read into.
    pub fn bytes(&mut self, strings: [&[u8]; 2], rooms: [usize; 2]) -> Result<Reply, Difference> {
        let [case, plan] = strings;
        let outs = self.outs();
        let reply = both(
            || format!("judge the bytes {case:02X?} and {plan:02X?} in {rooms:?} places"),
            rooms.map(Lent::new),
            outs,
            |[a, b]: &mut [Lent<i64>; 2], out| {
                calls::judge_bytes(case, plan, a.room(), b.room(), out)
            },
            self.judge.bytes.as_ref().map(|judge| {
                |[a, b]: &mut [Lent<i64>; 2], out: &mut [i64]| {
                    judge(case, plan, a.room(), b.room(), out)
                }
            }),
        )?;
        self.count(&reply, |tally| tally.accept(&reply.out));
        Ok(reply)
    }

    /// A node set and two steps, beside a case and a plan.
    pub fn ledger(
        &mut self,
        lists: [&[i64]; 2],
        set: i64,
        s: i64,
        t: i64,
    ) -> Result<Reply, Difference> {
        let [case, plan] = lists;
        let outs = self.outs();
        let reply = both(
            || format!("ledger of set {set}, {s} to {t}, case {case:?} and plan {plan:?}"),
            (),
            outs,
            |(), out| calls::draw_ledger(case, plan, set, s, t, out),
            self.judge
                .ledger
                .as_ref()
                .map(|ledger| |(): &mut (), out: &mut [i64]| ledger(case, plan, set, s, t, out)),
        )?;
        self.count(&reply, |tally| tally.ledgers += 1);
        Ok(reply)
    }

    /// The sender's record and the receiver's, and the agreed figure.
    pub fn settle(&mut self, records: [&[i64]; 2], agreed: i64) -> Result<Reply, Difference> {
        let [sender, receiver] = records;
        let outs = self.outs();
        let reply = both(
            || format!("settle {sender:?} with {receiver:?}, agreed {agreed}"),
            (),
            outs,
            |(), out| calls::settle(sender, receiver, agreed, out),
            self.judge
                .settle
                .as_ref()
                .map(|settle| |(): &mut (), out: &mut [i64]| settle(sender, receiver, agreed, out)),
        )?;
        self.count(&reply, |tally| tally.settle(&reply.out));
        Ok(reply)
    }

    /// The program's line for two files.
    pub fn line(&mut self, files: [Option<&[u8]>; 2]) -> Result<String, Difference> {
        let [case, plan] = files;
        let second = second::program::line(case, plan);
        if let Some(print) = &self.judge.line {
            let line = print(case, plan);
            if line != second {
                let text = format!("the files {files:02X?}: {line:?}, second checker {second:?}");
                return Err(Difference { text });
            }
        }
        Ok(second)
    }

    /// An `out` of six places or a few more; now and then one that is too short before it.
    fn outs(&mut self) -> Vec<Lent<i64>> {
        self.calls += 1;
        let long = Lent::new(OUT_PLACES + self.calls % 3);
        if self.calls.is_multiple_of(17) {
            vec![Lent::new(self.calls / 17 % OUT_PLACES), long]
        } else {
            vec![long]
        }
    }

    fn count(&mut self, reply: &Reply, yes: impl FnOnce(&mut Tally)) {
        match reply.answer {
            0 => yes(&mut self.tally),
            number => self.tally.refuse(number),
        }
    }
}

/// Makes a call on both for each `out`, and compares answers and all that was lent.
fn both<L: Clone + PartialEq + Debug>(
    what: impl Fn() -> String,
    lent: L,
    outs: Vec<Lent<i64>>,
    second: impl Fn(&mut L, &mut [i64]) -> i64,
    judge: Option<impl Fn(&mut L, &mut [i64]) -> i64>,
) -> Result<Reply, Difference> {
    let mut reply = Reply {
        answer: NO_ROOM,
        out: Vec::new(),
    };
    for out in outs {
        let (mut its_lent, mut its_out) = (lent.clone(), out.clone());
        let answer = second(&mut its_lent, its_out.room());
        if let Some(judge) = &judge {
            let (mut lent, mut out) = (lent.clone(), out);
            let judged = judge(&mut lent, out.room());
            if (judged, &lent, &out) != (answer, &its_lent, &its_out) {
                return Err(Difference {
                    text: format!(
                        "{}\n  judge: {judged}, out {out:?}, lent {lent:?}\n  second checker: \
                         {answer}, out {its_out:?}, lent {its_lent:?}",
                        what()
                    ),
                });
            }
        }
        reply = Reply {
            answer,
            out: its_out.room().to_vec(),
        };
    }
    Ok(reply)
}

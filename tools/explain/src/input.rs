//! What is judged: the contents of two files, and their numbers.

use gasplan::{Answer, Totals, judge_bytes, read_all};
use gasplan_text::files::File;
use gasplan_text::model::Case;

/// The contents of the two files.
pub struct Input {
    pub case_bytes: Vec<u8>,
    pub plan_bytes: Vec<u8>,
}

/// The two lists, as far as they can be read.
pub struct Lists {
    pub case_list: Vec<i64>,
    pub plan_list: Vec<i64>,
    /// None where the case is not whole.
    pub case: Option<Case>,
}

impl Input {
    pub fn bytes(&self, file: File) -> &[u8] {
        match file {
            File::Case => &self.case_bytes,
            File::Plan => &self.plan_bytes,
        }
    }

    pub fn bytes_mut(&mut self, file: File) -> &mut Vec<u8> {
        match file {
            File::Case => &mut self.case_bytes,
            File::Plan => &mut self.plan_bytes,
        }
    }

    pub fn lists(&self) -> Lists {
        let case_list = read_all(&self.case_bytes).unwrap_or_default();
        Lists {
            case: Case::of(&case_list),
            case_list,
            plan_list: read_all(&self.plan_bytes).unwrap_or_default(),
        }
    }

    /// The library's verdict. A number takes a byte at least, so these lists have a place for each.
    pub fn verdict(&self) -> Answer<Totals> {
        let mut case_list = vec![0; self.case_bytes.len()];
        let mut plan_list = vec![0; self.plan_bytes.len()];
        judge_bytes(
            &self.case_bytes,
            &self.plan_bytes,
            &mut case_list,
            &mut plan_list,
        )
    }
}

/// What an operation answers. Fields that it does not name are 0, and so are all but `number` on a refusal; that of a forecast over the
/// ceiling alone has a count.
#[derive(Clone, Copy, Debug, Default, PartialEq, Eq)]
pub struct Answer {
    pub number: u64,
    pub set: u64,
    pub count: u64,
    pub length: u64,
    pub lines: u64,
    pub levels: u64,
}

impl Answer {
    pub fn refused(number: u64) -> Answer {
        Answer { number, ..Answer::default() }
    }

    /// The refusal of a forecast that is over the ceiling. It has the forecast as its count.
    pub fn over(forecast: u64) -> Answer {
        Answer { count: forecast, ..Answer::refused(10) }
    }

    pub fn judged(set: u64, count: u64) -> Answer {
        Answer { set, count, ..Answer::default() }
    }
}

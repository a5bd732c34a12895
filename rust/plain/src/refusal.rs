//! The refusal numbers. Paper: "Refusal numbers".

use crate::units::Distance;

/// Why a call is refused; each case bears the paper's number.
#[derive(Clone, Copy, Debug, PartialEq, Eq, PartialOrd, Ord, Hash)]
pub enum Refusal {
    /// 1: a head field, first tick at opening, or offset is over its limit, or timescale 0.
    OverLimit,
    /// 2: record and table disagree.
    Disagree,
    /// 3: duration or count 0.
    ZeroDurationOrCount,
    /// 4: start after the next tick, by so many ticks.
    StartAfterNext(Distance),
    /// 5: start before the next tick, by so many ticks.
    StartBeforeNext(Distance),
    /// 6: an end over 2^52 - 1.
    EndOverLimit,
    /// 7: accepted total over 2^31, or first number plus accepted over 2^32 - 1.
    TooMany,
    /// 8: a reference starts at or after a known period end.
    StartsPastPeriod,
    /// 9: a stored part needs a new run and used runs equal capacity.
    TableFull,
    /// 10: clock over its limit.
    ClockOverLimit,
    /// 11: verdict clock before the greatest clock.
    ClockBeforeGreatest,
    /// 12: writing with no run kept.
    NothingKept,
    /// 13: number not kept.
    NumberNotKept,
    /// 14: a at or after b.
    EmptySpan,
    /// 15: output shorter than the whole file.
    OutputTooShort,
    /// 16: line too short, too long, not lower-case hex, unknown kind, unended, missing, or extra
    /// after the end.
    BadLine,
    /// 17: frame out of order, S after a negative r, wrong S count.
    OutOfOrder,
    /// 18: negative r and no known end.
    NegativeWithoutEnd,
    /// 19: whole-period verdict, end unknown.
    EndUnknown,
}

impl Refusal {
    /// The paper's number.
    pub fn number(self) -> u32 {
        match self {
            Refusal::OverLimit => 1,
            Refusal::Disagree => 2,
            Refusal::ZeroDurationOrCount => 3,
            Refusal::StartAfterNext(_) => 4,
            Refusal::StartBeforeNext(_) => 5,
            Refusal::EndOverLimit => 6,
            Refusal::TooMany => 7,
            Refusal::StartsPastPeriod => 8,
            Refusal::TableFull => 9,
            Refusal::ClockOverLimit => 10,
            Refusal::ClockBeforeGreatest => 11,
            Refusal::NothingKept => 12,
            Refusal::NumberNotKept => 13,
            Refusal::EmptySpan => 14,
            Refusal::OutputTooShort => 15,
            Refusal::BadLine => 16,
            Refusal::OutOfOrder => 17,
            Refusal::NegativeWithoutEnd => 18,
            Refusal::EndUnknown => 19,
        }
    }

    /// How far the start stands from the next tick; only 4 and 5 have it.
    pub fn distance(self) -> Option<Distance> {
        match self {
            Refusal::StartAfterNext(distance) | Refusal::StartBeforeNext(distance) => {
                Some(distance)
            }
            _ => None,
        }
    }
}

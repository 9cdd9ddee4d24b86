//! Document 01's answers and refusals as enums: each with its code and its name.

/// The answer to a step. Only `Done` and `Dropped` change the world.
#[derive(Clone, Copy, PartialEq, Eq, Debug)]
#[repr(u8)]
pub enum Answer {
    Done = 0,
    Dropped = 1,
    Wait = 2,
    Dismissed = 3,
    BadServer = 4,
    WrongSide = 5,
    NoSuch = 6,
    BadField = 7,
    SameDigest = 8,
    NoRoom = 9,
    Quota = 10,
    Unknown = 11,
    WrongDigest = 12,
    Recall = 13,
}

impl Answer {
    /// Every answer with its name, by code.
    pub const ALL: [(Answer, &'static str); 14] = [
        (Answer::Done, "DONE"),
        (Answer::Dropped, "DROPPED"),
        (Answer::Wait, "WAIT"),
        (Answer::Dismissed, "DISMISSED"),
        (Answer::BadServer, "BAD_SERVER"),
        (Answer::WrongSide, "WRONG_SIDE"),
        (Answer::NoSuch, "NO_SUCH"),
        (Answer::BadField, "BAD_FIELD"),
        (Answer::SameDigest, "SAME_DIGEST"),
        (Answer::NoRoom, "NO_ROOM"),
        (Answer::Quota, "QUOTA"),
        (Answer::Unknown, "UNKNOWN"),
        (Answer::WrongDigest, "WRONG_DIGEST"),
        (Answer::Recall, "RECALL"),
    ];

    /// The answer of a code, or none.
    pub fn of(code: u8) -> Option<Answer> {
        Answer::ALL.get(usize::from(code)).map(|(answer, _)| *answer)
    }

    /// Its code.
    pub fn code(self) -> u8 {
        self as u8
    }

    /// Its name.
    pub fn name(self) -> &'static str {
        Answer::ALL[usize::from(self.code())].1
    }
}

/// Why a schedule, a start, a record, a world or a message is refused.
#[derive(Clone, Copy, PartialEq, Eq, Debug)]
#[repr(u8)]
pub enum Refusal {
    TooLong = 20,
    NoStart = 21,
    BadKind = 22,
    SecondStart = 23,
    Cut = 24,
    BadStart = 25,
    OutSmall = 26,
    BadWorld = 27,
    DigestLong = 28,
}

impl Refusal {
    /// Every refusal with its name, by code from 20 on.
    pub const ALL: [(Refusal, &'static str); 9] = [
        (Refusal::TooLong, "TOO_LONG"),
        (Refusal::NoStart, "NO_START"),
        (Refusal::BadKind, "BAD_KIND"),
        (Refusal::SecondStart, "SECOND_START"),
        (Refusal::Cut, "CUT"),
        (Refusal::BadStart, "BAD_START"),
        (Refusal::OutSmall, "OUT_SMALL"),
        (Refusal::BadWorld, "BAD_WORLD"),
        (Refusal::DigestLong, "DIGEST_LONG"),
    ];

    /// The refusal of a code, or none.
    pub fn of(code: u8) -> Option<Refusal> {
        let place = code.checked_sub(Refusal::TooLong as u8)?;
        Refusal::ALL.get(usize::from(place)).map(|(refusal, _)| *refusal)
    }

    /// Its code.
    pub fn code(self) -> u8 {
        self as u8
    }

    /// Its name.
    pub fn name(self) -> &'static str {
        Refusal::ALL[usize::from(self.code() - Refusal::TooLong as u8)].1
    }
}

#[cfg(test)]
mod tests {
    use super::*;

    #[test]
    fn each_stands_at_its_code() {
        for (place, (answer, name)) in Answer::ALL.into_iter().enumerate() {
            assert_eq!(
                (usize::from(answer.code()), answer.name(), Answer::of(place as u8)),
                (place, name, Some(answer))
            );
        }
        for (place, (refusal, name)) in Refusal::ALL.into_iter().enumerate() {
            let code = place as u8 + 20;
            assert_eq!((refusal.code(), refusal.name(), Refusal::of(code)), (code, name, Some(refusal)));
        }
        assert_eq!([14, 19, 20, 28, u8::MAX].map(Answer::of), [None; 5]);
        assert_eq!([0, 13, 19, 29, u8::MAX].map(Refusal::of), [None; 5]);
    }
}

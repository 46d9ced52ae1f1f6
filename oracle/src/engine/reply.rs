//! 01, "Replies": the sixteen words with their numbers, and what a call answers.

/// 01: "| No. | Word | Given when |".
#[derive(Clone, Copy, Debug, PartialEq, Eq)]
pub enum Reply {
    Done = 0,
    Off = 1,
    NoRegister = 2,
    ReadOnly = 3,
    BadValue = 4,
    Active = 5,
    Full = 6,
    NoPacket = 7,
    Stalled = 8,
    Fault = 9,
    Short = 10,
    Quiet = 11,
    Empty = 12,
    Sizes = 13,
    Unsound = 14,
    Fabric = 15,
}

impl Reply {
    /// The rows of the table, in their order: 01: "Order as listed."
    pub const TABLE: [Reply; 16] = [
        Reply::Done,
        Reply::Sizes,
        Reply::Unsound,
        Reply::NoRegister,
        Reply::ReadOnly,
        Reply::Active,
        Reply::BadValue,
        Reply::Off,
        Reply::Short,
        Reply::NoPacket,
        Reply::Empty,
        Reply::Full,
        Reply::Quiet,
        Reply::Stalled,
        Reply::Fabric,
        Reply::Fault,
    ];

    pub fn number(self) -> u32 {
        self as u32
    }

    pub fn word(self) -> &'static str {
        match self {
            Reply::Done => "done",
            Reply::Off => "off",
            Reply::NoRegister => "no-register",
            Reply::ReadOnly => "read-only",
            Reply::BadValue => "bad-value",
            Reply::Active => "active",
            Reply::Full => "full",
            Reply::NoPacket => "no-packet",
            Reply::Stalled => "stalled",
            Reply::Fault => "fault",
            Reply::Short => "short",
            Reply::Quiet => "quiet",
            Reply::Empty => "empty",
            Reply::Sizes => "sizes",
            Reply::Unsound => "unsound",
            Reply::Fabric => "fabric",
        }
    }
}

/// What every call hands back.
#[derive(Clone, Copy, Debug, PartialEq, Eq)]
pub struct Answer {
    pub reply: Reply,
    pub value: u32,
    pub interrupts: u32,
}

impl Answer {
    pub fn done(value: u32, interrupts: u32) -> Answer {
        Answer {
            reply: Reply::Done,
            value,
            interrupts,
        }
    }

    /// 01: "Value is 0 except: [...] a fault's status".
    pub fn fault(status: u16, interrupts: u32) -> Answer {
        Answer {
            reply: Reply::Fault,
            value: u32::from(status),
            interrupts,
        }
    }

    /// 01: "Every reply but done and fault is a refusal"; value 0, "interrupts [...] 0 on a refusal".
    pub fn refusal(reply: Reply) -> Answer {
        Answer {
            reply,
            value: 0,
            interrupts: 0,
        }
    }
}

/// Inside the engine a call either is answered, or stops at the first refusal it meets.
pub type Outcome = Result<Answer, Reply>;

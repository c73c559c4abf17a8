//! The answer numbers of documents 01 and 02.

#[derive(Clone, Copy, Debug, PartialEq, Eq)]
#[repr(u8)]
pub enum Answer {
    Done = 0,
    PacketLength = 1,
    SyncByte = 2,
    BlockLength = 3,
    ShortOutput = 4,
    StateRange = 5,
    UnknownRate = 6,
    Full = 7,
    NoCodeword = 8,
    Filling = 9,
    Waiting = 10,
    OutOfStep = 11,
    BrokenPattern = 12,
    LongRun = 13,
    NoSymbol = 14,
    NullPacket = 15,
    NoSuchBlock = 16,
    NotReport = 17,
    WrongSums = 18,
    FormKept = 19,
    MarkValue = 20,
    TooManyReports = 21,
    StateLength = 22,
    NoSuchCount = 23,
    SoftLists = 24,
}

impl Answer {
    pub fn number(self) -> u8 {
        self as u8
    }
}

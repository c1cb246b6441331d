//! Schedule records: eight bytes, as document 01 says, and document 02's No. 2 of the tenth action.

pub(crate) const STEP: u8 = 0;
pub(crate) const REGISTER: u8 = 1;
pub(crate) const ACQUIRE: u8 = 2;
pub(crate) const RELEASE: u8 = 3;
pub(crate) const PIN: u8 = 4;
pub(crate) const UNPIN: u8 = 5;
pub(crate) const REPIN: u8 = 6;
pub(crate) const DEFER: u8 = 7;
pub(crate) const FLUSH: u8 = 8;
/// A marked step: a weak exchange fails in it.
pub(crate) const MARKED: u8 = 9;

#[derive(Clone, Copy, PartialEq, Eq, Debug)]
pub(crate) struct Record {
    pub(crate) action: u8,
    pub(crate) participant: u8,
    pub(crate) token: u32,
    /// False for a record that breaks the form, or a short last one.
    pub(crate) formed: bool,
}

impl Record {
    pub(crate) fn new(action: u8, participant: usize, token: u32) -> Record {
        let participant = u8::try_from(participant).expect("a participant is one byte");
        Record { action, participant, token, formed: true }
    }

    pub(crate) fn read(bytes: &[u8]) -> Record {
        let Ok(whole) = <[u8; 8]>::try_from(bytes) else {
            return Record { action: 0, participant: 0, token: 0, formed: false };
        };
        let [action, participant, a, b, t0, t1, t2, t3] = whole;
        let token = u32::from_le_bytes([t0, t1, t2, t3]);
        let formed = action <= MARKED
            && (a, b) == (0, 0)
            && (token == 0 || action == DEFER)
            && (participant == 0 || action != REGISTER);
        Record { action, participant, token, formed }
    }

    /// A step of a participant, marked or not.
    pub(crate) fn steps(self) -> bool {
        self.action == STEP || self.action == MARKED
    }

    pub(crate) fn bytes(self) -> [u8; 8] {
        let [t0, t1, t2, t3] = self.token.to_le_bytes();
        [self.action, self.participant, 0, 0, t0, t1, t2, t3]
    }
}

pub(crate) fn read_all(bytes: &[u8]) -> Vec<Record> {
    bytes.chunks(8).map(Record::read).collect()
}

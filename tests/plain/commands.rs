//! Commands of one byte with operands of fixed widths, read one after another.

/// Why a call is refused: the refusal's number, and its place in the file.
#[derive(Clone, Copy, Debug, PartialEq, Eq)]
pub struct Refusal {
    pub number: u8,
    pub place: usize,
}

pub type Reading<T> = Result<T, Refusal>;

/// Refuses with this number at this place.
pub fn refuse<T>(number: u8, place: usize) -> Reading<T> {
    Err(Refusal { number, place })
}

/// Refuses with this number at this place, unless all is fine.
pub fn unless(fine: bool, number: u8, place: usize) -> Reading<()> {
    if fine { Ok(()) } else { refuse(number, place) }
}

/// Each byte's operand width in a net file; none where the byte is no command.
pub static WIDTHS: [Option<u8>; 256] = {
    let commands: [(u8, &[u8]); 4] = [
        (0, &[0x14, 0x15, 0x1F, 0x20, 0x21, 0x22, 0x23, 0x24, 0x25, 0x32, 0x33, 0x42, 0x43]),
        (1, &[0x01, 0x10, 0x11, 0x12, 0x16, 0x17, 0x18, 0x30]),
        (2, &[0x13, 0x31, 0x40, 0x41, 0x44]),
        (5, &[0x19]),
    ];
    let mut table = [None; 256];
    let mut i = 0;
    while i < commands.len() {
        let mut j = 0;
        while j < commands[i].1.len() {
            table[commands[i].1[j] as usize] = Some(commands[i].0);
            j += 1;
        }
        i += 1;
    }
    table
};

/// A command that was read: where it stands, its byte and its operands.
#[derive(Clone, Copy)]
pub struct Command<'a> {
    pub place: usize,
    pub byte: u8,
    pub operands: &'a [u8],
}

impl Command<'_> {
    /// The operand of two bytes that stands at this place among the operands.
    pub fn word(&self, at: usize) -> u16 {
        word(&self.operands[at..])
    }
}

/// The number in the first two bytes.
pub fn word(bytes: &[u8]) -> u16 {
    u16::from_le_bytes([bytes[0], bytes[1]])
}

/// The bytes of a net file, and how far they have been read.
pub struct File<'a> {
    bytes: &'a [u8],
    at: usize,
}

impl<'a> File<'a> {
    pub fn new(bytes: &'a [u8]) -> Self {
        File { bytes, at: 0 }
    }

    /// The byte that stands next; none at the file's end.
    pub fn next(&self) -> Option<u8> {
        self.bytes.get(self.at).copied()
    }

    /// Reads one command out of those allowed here, with its operands: refusals 3 and 2.
    #[inline]
    pub fn command(&mut self, allowed: impl Fn(u8) -> bool) -> Reading<Command<'a>> {
        let (place, cut) = (self.at, refuse(2, self.bytes.len()));
        let Some(byte) = self.next() else { return cut };
        let Some(width) = WIDTHS[byte as usize].filter(|_| allowed(byte)) else { return refuse(3, place) };
        let end = place + 1 + width as usize;
        let Some(operands) = self.bytes.get(place + 1..end) else { return cut };
        self.at = end;
        Ok(Command { place, byte, operands })
    }

    /// Reads the end command, after which no byte may stand.
    pub fn finish(&mut self) -> Reading<()> {
        self.command(|byte| byte == 0x1F)?;
        unless(self.at == self.bytes.len(), 15, self.at)
    }
}

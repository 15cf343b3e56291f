//! How often some texts or candidates have line ends of each kind.
use second::judge::fields::LineEnd;

/// How many there were, how many have 13 10 as the first line end, and how many have line ends of both kinds or a 13
/// without a 10 after it.
#[derive(Clone, Copy, Debug, Default)]
pub struct Ends {
    all: u64,
    returned: u64,
    unlike: u64,
}

// Whether some bytes have line ends of both kinds, or a 13 without a 10 after it.
fn unlike(bytes: &[u8]) -> bool {
    let count = |byte: u8| bytes.iter().filter(|b| **b == byte).count();
    let both = bytes.windows(2).filter(|pair| pair == b"\r\n").count();
    count(b'\r') > both || (1..count(b'\n')).contains(&both)
}

impl Ends {
    // Counts one.
    pub fn add(&mut self, bytes: &[u8]) {
        self.all += 1;
        self.returned += u64::from(LineEnd::kind_of(bytes) == LineEnd::Return);
        self.unlike += u64::from(unlike(bytes));
    }

    // Asks for a third with 13 10.
    pub fn ask_returned(&self) {
        assert!(3 * self.returned >= self.all, "{self:?}");
    }

    // Asks for a tenth with line ends of both kinds, or a 13 without a 10 after it.
    pub fn ask_unlike(&self) {
        assert!(10 * self.unlike >= self.all, "{self:?}");
    }
}

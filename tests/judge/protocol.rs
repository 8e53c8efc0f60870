//! The two lazy protocols. They share the plan, the states, the refusals and the
//! rows, and have one word beside the user word, the second word. One rule
//! differs: what a kernel entry leaves there. Soundness asks of that word what
//! its protocol can promise.

#[derive(Clone, Copy, Debug, PartialEq, Eq)]
pub enum Protocol {
    /// The second word is the kernel word: what the user word was when the kernel
    /// was last left.
    First = 1,
    /// The second word is the next word: how urgent the most urgent waiting task
    /// is.
    Second = 2,
}

/// Both, in the order in which they are tried.
pub const PROTOCOLS: [Protocol; 2] = [Protocol::Second, Protocol::First];

impl Protocol {
    pub fn name(self) -> &'static str {
        match self {
            Protocol::First => "first",
            Protocol::Second => "second",
        }
    }
}

/// One thing for each protocol.
#[derive(Clone, Debug, Default, PartialEq, Eq)]
pub struct ByProtocol<T> {
    pub second: T,
    pub first: T,
}

impl<T> ByProtocol<T> {
    pub fn each(make: impl Fn(Protocol) -> T) -> ByProtocol<T> {
        ByProtocol {
            second: make(Protocol::Second),
            first: make(Protocol::First),
        }
    }

    pub fn of(&self, protocol: Protocol) -> &T {
        match protocol {
            Protocol::First => &self.first,
            Protocol::Second => &self.second,
        }
    }

    pub fn of_mut(&mut self, protocol: Protocol) -> &mut T {
        match protocol {
            Protocol::First => &mut self.first,
            Protocol::Second => &mut self.second,
        }
    }
}

//! Tapes as rows of orders that nothing holds to the rules.

/// An order: its byte and its operands.
pub type OrderBytes = Vec<u8>;

/// A tape that is being written.
#[derive(Clone, Debug, Default)]
pub struct Draft {
    pub orders: Vec<OrderBytes>,
}

impl Draft {
    pub fn push(&mut self, bytes: &[u8]) {
        self.orders.push(bytes.to_vec());
    }

    pub fn bytes(&self) -> Vec<u8> {
        self.orders.concat()
    }
}

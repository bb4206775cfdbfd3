//! The port: a loader behind a receiver.

use crate::loader::{Condition, Loader};
use crate::receiver::Receiver;
use crate::refusal::Refusal;
use crate::units::Board;

#[derive(Clone, Debug)]
pub struct Port {
    pub loader: Loader,
    pub receiver: Receiver,
}

impl Port {
    /// Takes one byte from the line and gives what the loader made of the input
    /// that it brought. None where it brought none.
    pub fn byte(
        &mut self,
        board: Board,
        byte: u8,
        flash: &mut [u8],
        answer: &mut [u8],
    ) -> Option<Result<usize, Refusal>> {
        if self.loader.condition != Condition::Serving {
            // what was begun while the loader served is no part of what comes later
            self.receiver = Receiver::default();
            return Some(self.loader.take(board, &[byte], flash, answer));
        }
        let packet = self.receiver.byte(byte)?;
        Some(self.loader.take(board, packet, flash, answer))
    }
}

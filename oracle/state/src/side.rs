//! What the timing driver asks of each side.

/// A receive ring and a transmit ring over the same plain layout. The loops are default methods, so that each
/// side compiles its own and only the outermost call is dynamic.
pub trait Side {
    fn name(&self) -> &'static str;
    /// Receive ring: every record full and CPU-owned, cursor (0, 0).
    fn fill(&mut self);
    /// Transmit ring: every record CPU-owned, cursor (0, 0).
    fn clear(&mut self);
    fn rx_available(&mut self) -> usize;
    fn tx_available(&mut self) -> usize;
    /// The length of the part shown.
    fn peek(&mut self) -> usize;
    fn consume(&mut self, k: usize) -> usize;
    fn pop(&mut self, destination: &mut [u8]) -> usize;
    fn push(&mut self, data: &[u8]) -> usize;
    /// The caller keeps within what is available.
    fn advance(&mut self, k: usize);

    /// Each of these begins on a ring set up beforehand, and answers the calls that moved something.
    fn drain_by_pop(&mut self, destination: &mut [u8]) -> usize {
        let mut calls = 0;
        while self.pop(destination) > 0 {
            calls += 1;
        }
        calls
    }

    fn drain_by_consume(&mut self, request: usize) -> usize {
        let mut calls = 0;
        while self.consume(request) > 0 {
            calls += 1;
        }
        calls
    }

    fn fill_by_push(&mut self, data: &[u8]) -> usize {
        let mut calls = 0;
        while self.push(data) > 0 {
            calls += 1;
        }
        calls
    }

    fn fill_by_advance(&mut self, request: usize, total: usize) -> usize {
        let calls = total / request;
        for _ in 0..calls {
            self.advance(request);
        }
        calls
    }

    fn repeat_rx_available(&mut self, times: usize) -> usize {
        (0..times).map(|_| self.rx_available() & 1).sum()
    }

    fn repeat_tx_available(&mut self, times: usize) -> usize {
        (0..times).map(|_| self.tx_available() & 1).sum()
    }

    fn repeat_peek(&mut self, times: usize) -> usize {
        (0..times).map(|_| self.peek() & 1).sum()
    }
}

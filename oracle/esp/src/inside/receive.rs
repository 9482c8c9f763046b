// Included beside the text: the receive calls on a plain state, private fields set and read here.

use std::panic::{AssertUnwindSafe, catch_unwind};

use state::{Answer, Call, Direction, State};

/// One kept list of descriptors: the runs make millions of calls.
#[derive(Default)]
pub struct Rings {
    descriptors: Vec<DmaDescriptor>,
}

fn number(error: DmaBufError) -> Answer {
    match error {
        DmaBufError::InsufficientDescriptors => Answer::Refused(1),
        DmaBufError::InvalidChunkSize => Answer::Refused(2),
        other => panic!("an answer the text has no reason for: {other:?}"),
    }
}

fn caught(run: impl FnOnce() -> Answer) -> Answer {
    catch_unwind(AssertUnwindSafe(run)).unwrap_or(Answer::Panicked)
}

/// The place and length of a part of the buffer.
fn place(part: &[u8], buffer: *const u8) -> (usize, usize) {
    if part.is_empty() { (0, 0) } else { (part.as_ptr().addr().wrapping_sub(buffer.addr()), part.len()) }
}

impl Rings {
    pub fn ask(&mut self, call: &Call, state: &mut State) -> Answer {
        let base = state.buffer.as_mut_ptr();
        load(&mut self.descriptors, &state.records, base);
        let answer = match (call, state.direction) {
            (Call::New, Direction::Receive) => self.rx_new(state),
            (Call::New, Direction::Transmit) => self.tx_new(state),
            (Call::Prepare { .. }, Direction::Receive) => self.rx_prepare(state),
            (Call::Prepare { pushed }, Direction::Transmit) => self.tx_prepare(state, *pushed),
            (Call::Prefill(_) | Call::OfferPrefill | Call::CommitPrefill(_), _) => self.tx_before(call, state),
            (_, Direction::Receive) => self.rx_view(call, state),
            (_, Direction::Transmit) => self.tx_view(call, state),
        };
        let back = |records: &[DmaDescriptor], old: &[state::Record]| {
            records.iter().zip(old).filter(|(d, r)| r.owner == state::Owner::Cpu && d.owner() == Owner::Dma).count()
        };
        let answer = match (call, answer) {
            (Call::Consume(_), Answer::Bytes(bytes)) => Answer::Taken { bytes, back: back(&self.descriptors, &state.records) },
            (_, answer) => answer,
        };
        store(&self.descriptors, &mut state.records, base);
        answer
    }

    fn lend(&mut self, state: &mut State) -> (DmaAlignedMut<'static, [DmaDescriptor]>, DmaAlignedMut<'static, [u8]>) {
        // SAFETY: each ring is gone before the state or the list is read again.
        unsafe { (DmaAlignedMut::lend(&mut self.descriptors), DmaAlignedMut::lend(&mut state.buffer)) }
    }

    fn rx_new(&mut self, state: &mut State) -> Answer {
        let (descriptors, buffer) = self.lend(state);
        let answer = caught(|| DmaRxStreamBuf::new(descriptors, buffer).map_or_else(number, |_| Answer::Done));
        if answer == Answer::Done {
            (state.cursor, state.offset, state.prefilled) = (0, 0, 0);
        }
        answer
    }

    fn rx_prepare(&mut self, state: &mut State) -> Answer {
        let (descriptors, buffer) = self.lend(state);
        let mut ring = DmaRxStreamBuf { descriptors, buffer, burst: BurstConfig::default() };
        let preparation = ring.prepare();
        assert_eq!(preparation.start, self.descriptors.as_mut_ptr(), "the device starts at record 0");
        let view = ring.into_view();
        (state.cursor, state.offset) = (view.descriptor_idx, view.descriptor_offset);
        Answer::Done
    }

    fn rx_view(&mut self, call: &Call, state: &mut State) -> Answer {
        let (descriptors, buffer) = self.lend(state);
        let bytes = buffer.as_ptr();
        let buf = DmaRxStreamBuf { descriptors, buffer, burst: BurstConfig::default() };
        let mut view = DmaRxStreamBufView { buf, descriptor_idx: state.cursor, descriptor_offset: state.offset };
        let lent = &mut state.lent;
        let answer = caught(|| match call {
            Call::Available => Answer::Bytes(view.available_bytes()),
            Call::Peek => {
                let (at, len) = place(view.peek(), bytes);
                Answer::part(at, len)
            }
            Call::PeekUntilEof => {
                let (part, eof) = view.peek_until_eof();
                let (at, len) = place(part, bytes);
                Answer::part_eof(at, len, eof)
            }
            Call::Consume(k) => Answer::Bytes(view.consume(*k)),
            Call::Pop => Answer::Bytes(view.pop(lent)),
            other => panic!("no call of the text's receive view: {other:?}"),
        });
        (state.cursor, state.offset) = (view.descriptor_idx, view.descriptor_offset);
        answer
    }
}

// Included beside the text: the transmit calls on a plain state.

impl Rings {
    fn tx_new(&mut self, state: &mut State) -> Answer {
        let (descriptors, buffer) = self.lend(state);
        let answer = caught(|| DmaTxStreamBuf::new(descriptors, buffer).map_or_else(number, |_| Answer::Done));
        if answer == Answer::Done {
            (state.cursor, state.offset, state.prefilled) = (0, 0, 0);
        }
        answer
    }

    fn tx_ring(&mut self, state: &mut State, pre_filled: Option<usize>) -> DmaTxStreamBuf {
        let (descriptors, buffer) = self.lend(state);
        let (view_descriptor_idx, view_descriptor_offset) = (state.cursor, state.offset);
        let burst = BurstConfig::default();
        DmaTxStreamBuf { descriptors, buffer, burst, pre_filled, view_descriptor_idx, view_descriptor_offset }
    }

    fn tx_prepare(&mut self, state: &mut State, pushed: bool) -> Answer {
        let pre_filled = if pushed { Some(state.prefilled) } else { None };
        let mut ring = self.tx_ring(state, pre_filled);
        let first = self.descriptors.as_mut_ptr();
        let answer = caught(|| {
            assert_eq!(ring.prepare().start, first, "the device starts at record 0");
            Answer::Done
        });
        let view = ring.into_view();
        (state.cursor, state.offset) = (view.descriptor_idx, view.descriptor_offset);
        state.prefilled = view.buf.pre_filled.unwrap_or(0);
        answer
    }

    fn tx_before(&mut self, call: &Call, state: &mut State) -> Answer {
        let mut ring = self.tx_ring(state, Some(state.prefilled));
        let mut offered = 0;
        let answer = caught(|| match call {
            Call::Prefill(data) => Answer::Bytes(ring.push(data)),
            Call::CommitPrefill(k) => Answer::Bytes(ring.push_with(|_| *k)),
            Call::OfferPrefill => {
                ring.push_with(|part| {
                    offered = part.len();
                    0
                });
                Answer::Bytes(offered)
            }
            other => panic!("no call of the text before prepare: {other:?}"),
        });
        state.prefilled = ring.pre_filled.unwrap_or(0);
        answer
    }

    fn tx_view(&mut self, call: &Call, state: &mut State) -> Answer {
        let buf = self.tx_ring(state, Some(state.prefilled));
        let mut view = DmaTxStreamBufView { buf, descriptor_idx: state.cursor, descriptor_offset: state.offset };
        let mut offered = 0;
        let answer = caught(|| match call {
            Call::Available => Answer::Bytes(view.available_bytes()),
            Call::Push(data) => Answer::Bytes(view.push(data)),
            Call::Commit(k) => Answer::Bytes(view.push_with(|_| *k)),
            Call::Offer => {
                view.push_with(|part| {
                    offered = part.len();
                    0
                });
                Answer::Bytes(offered)
            }
            Call::Advance(k) => {
                view.advance(*k);
                Answer::Bytes(*k)
            }
            other => panic!("no call of the text's transmit view: {other:?}"),
        });
        (state.cursor, state.offset) = (view.descriptor_idx, view.descriptor_offset);
        state.prefilled = view.buf.pre_filled.unwrap_or(0);
        answer
    }
}

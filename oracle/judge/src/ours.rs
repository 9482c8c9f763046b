//! Our library as a voice, through the wrapper crate: its own words are loaded from the plain state and read back.

use ciramohir::{
    DescriptorList, DmaBufError, DmaDescriptor, DmaRxStreamBuf, DmaRxStreamBufView, DmaTxStreamBuf, DmaTxStreamBufView, Head, LIMIT,
};
use state::{Answer, Call, Chip, Device, Direction, Owner, Range, Record, State, Voice};

struct Ours;

/// None until the static library is linked.
pub fn voice() -> Option<Box<dyn Voice>> {
    ciramohir::LINKED.then(|| Box::new(Ours) as Box<dyn Voice>)
}

impl Voice for Ours {
    fn call(&mut self, call: &Call, state: &mut State) -> Answer {
        let mut list = load(state);
        let answer = match call {
            Call::Align(a) => align(a),
            Call::Cut(range) => cut(range),
            Call::Piece(range, store, number) => piece(state.n(), range, *store, *number),
            Call::Pieces(range, store) => pieces(&mut list, range, *store),
            Call::New => new(&mut list, state),
            Call::Prepare { .. } if state.direction == Direction::Receive => prepare(&mut list, state),
            _ if state.direction == Direction::Receive => receive(&mut list, state, call),
            Call::Prepare { .. } | Call::Prefill(_) | Call::OfferPrefill | Call::CommitPrefill(_) => before(&mut list, state, call),
            _ => transmit(&mut list, state, call),
        };
        let answer = answer.unwrap_or_else(refused);
        store(&list, &mut state.records);
        answer
    }
}

type Asked = Result<Answer, DmaBufError>;

fn refused(error: DmaBufError) -> Answer {
    match error {
        DmaBufError::NotLinked => Answer::NotLinked,
        error => Answer::Refused(error.number()),
    }
}

fn load(state: &State) -> DescriptorList {
    let mut list = DescriptorList::new(state.n());
    for (i, record) in state.records.iter().take(LIMIT).enumerate() {
        list.set(
            i,
            DmaDescriptor {
                buffer: record.start as u32,
                size: record.size as u16,
                length: record.length as u16,
                suc_eof: record.eof,
                owner: if record.owner == Owner::Dma { ciramohir::Owner::Dma } else { ciramohir::Owner::Cpu },
                next: record.next.map(|next| next as u16),
            },
        );
    }
    list
}

fn store(list: &DescriptorList, records: &mut [Record]) {
    for (i, record) in records.iter_mut().take(LIMIT).enumerate() {
        let descriptor = list.get(i);
        *record = Record {
            start: descriptor.buffer as usize,
            size: descriptor.size as usize,
            length: descriptor.length as usize,
            eof: descriptor.suc_eof,
            owner: if descriptor.owner == ciramohir::Owner::Dma { Owner::Dma } else { Owner::Cpu },
            next: descriptor.next.map(usize::from),
        };
    }
}

fn head(state: &State) -> Head {
    Head {
        count: state.n(),
        descriptor_idx: state.cursor,
        descriptor_offset: state.offset,
        tally: state.tally,
        pre_filled: state.prefilled,
    }
}

fn keep(state: &mut State, head: Head) {
    (state.cursor, state.offset) = (head.descriptor_idx, head.descriptor_offset);
    (state.tally, state.prefilled) = (head.tally, head.pre_filled);
}

/// The place and length of a part of the buffer that begins at `base`.
fn place(part: &[u8], base: *const u8) -> (usize, usize) {
    (part.as_ptr().addr().wrapping_sub(base.addr()), part.len())
}

fn new(list: &mut DescriptorList, state: &mut State) -> Asked {
    let made = match state.direction {
        Direction::Receive => DmaRxStreamBuf::new(list, &mut state.buffer)?.head(),
        Direction::Transmit => DmaTxStreamBuf::new(list, &mut state.buffer)?.head(),
    };
    keep(state, made);
    state.device = Device::On(0);
    Ok(Answer::Done)
}

fn device_of(state: &State) -> ciramohir::Device {
    match state.device {
        Device::On(i) => ciramohir::Device::on(i),
        Device::Stopped => ciramohir::Device::STOPPED,
    }
}

fn prepare(list: &mut DescriptorList, state: &mut State) -> Asked {
    let head = head(state);
    let mut ring = DmaRxStreamBuf::from_parts(list, &mut state.buffer, head);
    let answer = ring.prepare().map(|()| Answer::Done);
    let head = ring.head();
    keep(state, head);
    answer
}

fn receive(list: &mut DescriptorList, state: &mut State, call: &Call) -> Asked {
    let head = head(state);
    let mut device = device_of(state);
    let base = state.buffer.as_ptr();
    let mut view = DmaRxStreamBufView::from_parts(list, &mut state.buffer, head);
    let answer = match call {
        Call::Available => view.available_bytes().map(Answer::Bytes),
        Call::Peek => view.peek().map(|part| place(part, base)).map(|(at, len)| Answer::part(at, len)),
        Call::PeekUntilEof => {
            view.peek_until_eof().map(|(part, eof)| (place(part, base), eof)).map(|((at, len), eof)| Answer::part_eof(at, len, eof))
        }
        Call::Consume(k) => view.consume_counting(*k).map(|(bytes, back)| Answer::Taken { bytes, back }),
        Call::Pop => view.pop(&mut state.lent).map(Answer::Bytes),
        Call::Fill(data, eof) => device.receive(&mut view, data, *eof).map(Answer::Bytes),
        other => panic!("no receive call: {other:?}"),
    };
    let head = view.head();
    keep(state, head);
    state.device = device.record().map_or(Device::Stopped, Device::On);
    answer
}

fn before(list: &mut DescriptorList, state: &mut State, call: &Call) -> Asked {
    let head = head(state);
    let mut ring = DmaTxStreamBuf::from_parts(list, &mut state.buffer, head);
    let answer = match call {
        Call::Prepare { .. } => ring.prepare().map(|()| Answer::Done),
        Call::Prefill(data) => ring.push(data).map(Answer::Bytes),
        Call::OfferPrefill => ring.offer().map(|part| Answer::Bytes(part.len())),
        Call::CommitPrefill(k) => ring.commit(*k).map(Answer::Bytes),
        other => panic!("no call before prepare: {other:?}"),
    };
    let head = ring.head();
    keep(state, head);
    answer
}

fn transmit(list: &mut DescriptorList, state: &mut State, call: &Call) -> Asked {
    let head = head(state);
    let mut device = device_of(state);
    let mut view = DmaTxStreamBufView::from_parts(list, &mut state.buffer, head);
    let answer = match call {
        Call::Available => view.available_bytes().map(Answer::Bytes),
        Call::Push(data) => view.push(data).map(Answer::Bytes),
        Call::Offer => view.offer().map(|part| Answer::Bytes(part.len())),
        Call::Commit(k) => view.commit(*k).map(Answer::Bytes),
        Call::Advance(k) => view.advance(*k).map(Answer::Bytes),
        Call::Send => device.transmit(&mut view, &mut state.lent).map(Answer::Bytes),
        other => panic!("no transmit call: {other:?}"),
    };
    let head = view.head();
    keep(state, head);
    state.device = device.record().map_or(Device::Stopped, Device::On);
    answer
}

fn align(a: &state::Align) -> Asked {
    let regions = ciramohir::Regions {
        internal: a.internal.0..a.internal.1,
        external: a.external.0..a.external.1,
        internal_alignment: a.internal_alignment,
        external_alignment: a.external_alignment,
    };
    let way = match a.direction {
        Direction::Receive => ciramohir::TransferDirection::In,
        Direction::Transmit => ciramohir::TransferDirection::Out,
    };
    ciramohir::ensure_buffer_compatible(&regions, a.address, a.length, way).map(|()| Answer::Done)
}

fn chip(chip: Chip) -> ciramohir::Chip {
    match chip {
        Chip::Ordinary => ciramohir::Chip::Ordinary,
        Chip::S2 => ciramohir::Chip::S2,
    }
}

fn cut(range: &Range) -> Asked {
    let cut = ciramohir::head_middle_tail(range.address, range.length, chip(range.chip))?;
    Ok(Answer::Cut { head: cut.head, middle: cut.middle, tail: cut.tail })
}

fn pieces(list: &mut DescriptorList, range: &Range, store: usize) -> Asked {
    let count = list.count();
    let covered = ciramohir::build_descriptor_list_for_psram(list, range.address, range.length, chip(range.chip), store)?;
    let mut in_store = 0;
    for number in 0..covered.records {
        let piece = ciramohir::piece(count, range.address, range.length, chip(range.chip), store, number)?;
        in_store |= (piece.in_store as u128) << number;
    }
    Ok(Answer::Pieces { covered: covered.bytes, used: covered.records, in_store })
}

fn piece(count: usize, range: &Range, store: usize, number: usize) -> Asked {
    let piece = ciramohir::piece(count, range.address, range.length, chip(range.chip), store, number)?;
    Ok(Answer::Piece { in_store: piece.in_store, start: piece.start, size: piece.size })
}

// Included beside the text: the head and tail split. A copy buffer is shown as its half of the bounce store.

use state::{Answer, State};

const BASE: usize = crate::regions::BASE;

#[derive(Default)]
pub struct Splits {
    descriptors: Vec<DmaDescriptor>,
}

/// What one run of the text showed. `copied` has the range's part behind each copy buffer: its place and length.
#[derive(Default)]
pub struct Run {
    covered: usize,
    used: usize,
    in_store: u128,
    copied: [Option<(usize, usize)>; 2],
}

impl Splits {
    pub fn pieces(&mut self, address: u32, length: u32, state: &mut State) -> Answer {
        let run = self.run(address, length, state);
        Answer::Pieces { covered: run.covered, used: run.used, in_store: run.in_store }
    }

    pub fn piece(&mut self, address: u32, length: u32, number: usize, state: &mut State) -> Answer {
        let mut after = state.clone();
        let run = self.run(address, length, &mut after);
        if number >= run.used {
            return Answer::Refused(8);
        }
        let record = &after.records[number];
        Answer::Piece { in_store: run.in_store >> number & 1 == 1, start: record.start, size: record.size }
    }

    /// Over as many records as the range can need.
    pub fn cut(&mut self, address: u32, length: u32) -> Answer {
        let mut list = State::blank(state::Direction::Receive, length as usize / 4080 + 4, 0);
        let run = self.run(address, length, &mut list);
        let mut head = 0;
        let mut tail = 0;
        for (at, len) in run.copied.into_iter().flatten() {
            *(if at == 0 { &mut head } else { &mut tail }) = len;
        }
        Answer::Cut { head, middle: length as usize - head - tail, tail }
    }

    fn run(&mut self, address: u32, length: u32, state: &mut State) -> Run {
        let base = BASE as *mut u8;
        load(&mut self.descriptors, &state.records, base);
        let range = NonNull::new(base.wrapping_add(address as usize)).unwrap();
        let data = NonNull::slice_from_raw_parts(range, length as usize);
        // SAFETY: the set is gone before the list is read again.
        let mut set = DescriptorSet { descriptors: unsafe { DmaAlignedMut::lend(&mut self.descriptors) } };
        let mut copies = [None, None];
        let mut run = Run { covered: build_descriptor_list_for_psram(&mut set, &mut copies, data), ..Run::default() };
        store(&self.descriptors, &mut state.records, base);
        self.place(&mut run, &mut copies, range, state);
        run
    }

    /// The starts of the records in use, within the store or the range that holds each.
    fn place(&self, run: &mut Run, copies: &mut [Option<ManualWritebackBuffer>; 2], range: NonNull<u8>, state: &mut State) {
        for (copied, copy) in run.copied.iter_mut().zip(copies.iter()) {
            *copied = copy.as_ref().map(|c| (c.dst_address.addr().get() - range.addr().get(), c.n_bytes as usize));
        }
        let stores = copies.each_mut().map(|copy| copy.as_mut().map(|c| c.mut_buffer_ptr()));
        let mut left = run.covered;
        while left > 0 {
            let descriptor = &self.descriptors[run.used];
            let record = &mut state.records[run.used];
            let copy = stores.iter().position(|store| *store == Some(descriptor.buffer));
            record.start = match copy {
                Some(copy) => copy * BUF_LEN,
                None => descriptor.buffer.addr() - range.addr().get(),
            };
            run.in_store |= (copy.is_some() as u128) << run.used;
            left -= record.size;
            run.used += 1;
        }
    }
}

pub fn external_alignment(receive: bool) -> usize {
    let direction = if receive { TransferDirection::In } else { TransferDirection::Out };
    ExternalBurstConfig::DEFAULT.min_psram_alignment(direction)
}

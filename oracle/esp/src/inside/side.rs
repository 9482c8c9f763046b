// Included beside the text: both rings as the timing driver holds them, built once and set up again in place.

pub struct Timed {
    rx: DmaRxStreamBufView,
    tx: DmaTxStreamBufView,
}

/// The driver lives as long as the program, and so do its rings.
fn lasting(n: usize, len: usize) -> (DmaAlignedMut<'static, [DmaDescriptor]>, DmaAlignedMut<'static, [u8]>) {
    let descriptors = vec![DmaDescriptor::EMPTY; n].leak();
    let buffer: Vec<u8> = (0..len).map(|i| i as u8).collect();
    (DmaAlignedMut(descriptors), DmaAlignedMut(buffer.leak()))
}

pub fn timed(n: usize, len: usize) -> Timed {
    let (descriptors, buffer) = lasting(n, len);
    let mut rx = DmaRxStreamBuf::new(descriptors, buffer).unwrap();
    rx.prepare();
    let (descriptors, buffer) = lasting(n, len);
    let mut tx = DmaTxStreamBuf::new(descriptors, buffer).unwrap();
    tx.prepare();
    Timed { rx: rx.into_view(), tx: tx.into_view() }
}

impl state::Side for Timed {
    fn name(&self) -> &'static str {
        NAME
    }

    fn fill(&mut self) {
        (self.rx.descriptor_idx, self.rx.descriptor_offset) = (0, 0);
        for descriptor in self.rx.buf.descriptors.iter_mut() {
            descriptor.set_length(descriptor.size());
            descriptor.set_owner(Owner::Cpu);
        }
    }

    fn clear(&mut self) {
        (self.tx.descriptor_idx, self.tx.descriptor_offset) = (0, 0);
        for descriptor in self.tx.buf.descriptors.iter_mut() {
            descriptor.set_owner(Owner::Cpu);
        }
    }

    fn rx_available(&mut self) -> usize {
        self.rx.available_bytes()
    }

    fn tx_available(&mut self) -> usize {
        self.tx.available_bytes()
    }

    fn peek(&mut self) -> usize {
        self.rx.peek().len()
    }

    fn consume(&mut self, k: usize) -> usize {
        self.rx.consume(k)
    }

    fn pop(&mut self, destination: &mut [u8]) -> usize {
        self.rx.pop(destination)
    }

    fn push(&mut self, data: &[u8]) -> usize {
        self.tx.push(data)
    }

    fn advance(&mut self, k: usize) {
        self.tx.advance(k)
    }
}

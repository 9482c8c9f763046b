//! Our library as a side of the timing driver: the calls in place, on rings that live outside them.

use ciramohir::{
    DescriptorList, DmaDescriptor, DmaRxStreamBuf, DmaRxStreamBufView, DmaTxStreamBuf, DmaTxStreamBufView, Head, LINKED, Owner,
};
use state::Side;

struct InPlace {
    rx: Option<DmaRxStreamBufView<'static>>,
    tx: Option<DmaTxStreamBufView<'static>>,
    full: DescriptorList,
    empty: DescriptorList,
    head: Head,
}

/// Empty until the static library is linked.
pub fn sides(n: usize, len: usize) -> Vec<Box<dyn Side>> {
    if !LINKED {
        return Vec::new();
    }
    let side = in_place(n, len);
    #[cfg(by_value)]
    let more = vec![crate::by_value::side(side.full.clone(), buffer(len).to_vec())];
    #[cfg(not(by_value))]
    let more: Vec<Box<dyn Side>> = Vec::new();
    let first: Box<dyn Side> = Box::new(side);
    std::iter::once(first).chain(more).collect()
}

fn list(n: usize) -> &'static mut DescriptorList {
    Box::leak(Box::new(DescriptorList::new(n)))
}

fn buffer(len: usize) -> &'static mut [u8] {
    (0..len).map(|i| i as u8).collect::<Vec<u8>>().leak()
}

/// The same list with every record CPU-owned, of its whole length.
fn open(list: &DescriptorList) -> DescriptorList {
    let mut open = list.clone();
    for i in 0..list.count() {
        let record = list.get(i);
        open.set(i, DmaDescriptor { owner: Owner::Cpu, length: record.size, ..record });
    }
    open
}

fn in_place(n: usize, len: usize) -> InPlace {
    let mut rx = DmaRxStreamBuf::new(list(n), buffer(len)).expect("the shape is one that new accepts");
    rx.prepare().expect("a new ring is prepared");
    let rx = rx.into_view();
    let head = rx.head();
    let (records, bytes) = DmaRxStreamBuf::from_view(rx).split();
    let (full, empty) = (open(records), open(records));
    let rx = DmaRxStreamBufView::from_parts(records, bytes, head);
    let tx = DmaTxStreamBufView::from_parts(list(n), buffer(len), head);
    InPlace { rx: Some(rx), tx: Some(tx), full, empty, head }
}

impl InPlace {
    fn rx(&mut self) -> &mut DmaRxStreamBufView<'static> {
        self.rx.as_mut().expect("there is always one")
    }

    fn tx(&mut self) -> &mut DmaTxStreamBufView<'static> {
        self.tx.as_mut().expect("there is always one")
    }
}

impl Side for InPlace {
    fn name(&self) -> &'static str {
        "in place"
    }

    fn fill(&mut self) {
        let view = self.rx.take().expect("there is always one");
        let (list, buffer) = DmaRxStreamBuf::from_view(view).split();
        list.clone_from(&self.full);
        self.rx = Some(DmaRxStreamBufView::from_parts(list, buffer, self.head));
    }

    fn clear(&mut self) {
        let view = self.tx.take().expect("there is always one");
        let (list, buffer) = DmaTxStreamBuf::from_view(view).split();
        list.clone_from(&self.empty);
        self.tx = Some(DmaTxStreamBufView::from_parts(list, buffer, self.head));
    }

    fn rx_available(&mut self) -> usize {
        self.rx().available_bytes().expect("the ring is sound")
    }

    fn tx_available(&mut self) -> usize {
        self.tx().available_bytes().expect("the ring is sound")
    }

    fn peek(&mut self) -> usize {
        self.rx().peek().expect("the ring is sound").len()
    }

    fn consume(&mut self, k: usize) -> usize {
        self.rx().consume(k).expect("the ring is sound")
    }

    fn pop(&mut self, destination: &mut [u8]) -> usize {
        self.rx().pop(destination).expect("the ring is sound")
    }

    fn push(&mut self, data: &[u8]) -> usize {
        self.tx().push(data).expect("the ring is sound")
    }

    fn advance(&mut self, k: usize) {
        self.tx().advance(k).expect("the ring is sound");
    }
}

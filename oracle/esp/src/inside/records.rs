// Included beside the text: plain records to descriptors and back. A start is counted from `base`.

fn load(descriptors: &mut Vec<DmaDescriptor>, records: &[state::Record], base: *mut u8) {
    descriptors.clear();
    descriptors.resize(records.len(), DmaDescriptor::EMPTY);
    let first = descriptors.as_mut_ptr();
    for (descriptor, record) in descriptors.iter_mut().zip(records) {
        descriptor.buffer = base.wrapping_add(record.start);
        descriptor.set_size(record.size);
        descriptor.set_length(record.length);
        descriptor.set_suc_eof(record.eof);
        descriptor.set_owner(if record.owner == state::Owner::Dma { Owner::Dma } else { Owner::Cpu });
        descriptor.next = record.next.map_or(core::ptr::null_mut(), |next| first.wrapping_add(next));
    }
}

fn store(descriptors: &[DmaDescriptor], records: &mut [state::Record], base: *mut u8) {
    let first = descriptors.as_ptr().addr();
    for (descriptor, record) in descriptors.iter().zip(records) {
        record.start = descriptor.buffer.addr().wrapping_sub(base.addr());
        record.size = descriptor.size();
        record.length = descriptor.len();
        record.eof = descriptor.flags.suc_eof();
        record.owner = if descriptor.owner() == Owner::Dma { state::Owner::Dma } else { state::Owner::Cpu };
        let place = descriptor.next.addr().wrapping_sub(first) / size_of::<DmaDescriptor>();
        record.next = if descriptor.next.is_null() { None } else { Some(place) };
    }
}

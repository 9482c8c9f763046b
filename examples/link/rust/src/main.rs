//! Document 01's run on row D: four records over 14 bytes. A device fills the receive ring, the firmware takes the bytes; then the
//! transmit ring is prefilled, prepared and pushed to. Types and methods have esp-hal's names; the work is done by the proved library.

use ciramohir::{
    Chip, DescriptorList, Device, DmaBufError, DmaRxStreamBuf, DmaRxStreamBufView, DmaTxStreamBuf, Regions, TransferDirection,
    build_descriptor_list_for_psram, ensure_buffer_compatible, head_middle_tail,
};

const LEN: usize = 14;

fn hex(bytes: &[u8]) -> String {
    bytes.iter().map(|byte| format!(" {byte:02x}")).collect()
}

fn pop(view: &mut DmaRxStreamBufView, k: usize) -> Result<(), DmaBufError> {
    let mut to = [0; LEN];
    let taken = view.pop(&mut to[..k])?;
    let head = view.head();
    println!("pop {k}:{}, cursor ({},{})", hex(&to[..taken]), head.descriptor_idx, head.descriptor_offset);
    Ok(())
}

fn receive() -> Result<(), DmaBufError> {
    let (mut list, mut buffer) = (DescriptorList::new(4), [0; LEN]);
    let mut ring = DmaRxStreamBuf::new(&mut list, &mut buffer)?;
    ring.prepare()?;
    println!("sizes: {}", (0..4).map(|i| ring.descriptors().get(i).size.to_string()).collect::<Vec<_>>().join(" "));
    let (mut view, mut device) = (ring.into_view(), Device::on(0));
    device.receive(&mut view, &[1, 2, 3], false)?;
    device.receive(&mut view, &[4, 5], true)?;
    println!("available: {}", view.available_bytes()?);
    let (part, eof) = view.peek_until_eof()?;
    println!("peek_until_eof:{}, {}", hex(part), if eof { "yes" } else { "no" });
    pop(&mut view, 4)?;
    pop(&mut view, 4)?;
    device.receive(&mut view, &[6, 7, 8], false)?;
    device.receive(&mut view, &[9, 10, 11, 12, 13], false)?;
    pop(&mut view, 5)?;
    println!("peek:{}", hex(view.peek()?));
    let (taken, back) = view.consume_counting(100)?;
    println!("consume 100: {taken} bytes, {back} records back, tally {}", view.head().tally);
    Ok(())
}

fn transmit() -> Result<(), DmaBufError> {
    let (mut list, mut buffer) = (DescriptorList::new(4), [0; LEN]);
    let mut ring = DmaTxStreamBuf::new(&mut list, &mut buffer)?;
    ring.push(b"abcd")?;
    ring.prepare()?;
    let (mut view, mut device) = (ring.into_view(), Device::on(0));
    let (head, available) = (view.head(), view.available_bytes()?);
    println!("prefill 4: cursor ({},{}), available {available}", head.descriptor_idx, head.descriptor_offset);
    let accepted = view.push(b"efghi")?;
    let head = view.head();
    println!("push 5: accepted {accepted}, cursor ({},{})", head.descriptor_idx, head.descriptor_offset);
    let (mut output, mut sent) = ([0; LEN], String::new());
    while let Ok(count) = device.transmit(&mut view, &mut output) {
        sent += &hex(&output[..count]);
    }
    println!("sent:{sent}");
    if let Err(error) = view.advance(15) {
        println!("advance 15: refused with {}", error.number());
    }
    Ok(())
}

fn main() -> Result<(), DmaBufError> {
    receive()?;
    transmit()?;
    let regions = Regions { internal: 0..1 << 20, external: 0x3c00_0000..0x3e00_0000, internal_alignment: 4, external_alignment: 16 };
    if let Err(error) = ensure_buffer_compatible(&regions, 0x3c00_0004, 64, TransferDirection::In) {
        println!("alignment: refused with {}", error.number());
    }
    let cut = head_middle_tail(13, 100, Chip::S2)?;
    println!("S2, address 13, length 100: {} {} {}", cut.head, cut.middle, cut.tail);
    let mut list = DescriptorList::new(3);
    let covered = build_descriptor_list_for_psram(&mut list, 0, 8170, Chip::Ordinary, 32)?;
    let sizes = (0..3).map(|i| list.get(i).size.to_string()).collect::<Vec<_>>().join(" ");
    println!("{} bytes in {} pieces: {sizes}", covered.bytes, covered.records);
    Ok(())
}

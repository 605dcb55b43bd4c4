//! Batches at each boundary, beside a model of 64-bit numbers.

use krbrelay::{texts, Batch, Error};

const ROOM: usize = 24;

/// Lengths that a text may claim, up to the highest.
const CLAIMED: [u32; 12] = [
    0x100,
    0x1_0000,
    0x100_0000,
    0x7fff_ffff,
    0x8000_0000,
    0xffff_fff0,
    0xffff_fff8,
    0xffff_fffb,
    0xffff_fffc,
    0xffff_fffd,
    0xffff_fffe,
    0xffff_ffff,
];

/// A text follows where its four bytes and as many as they say are there.
fn next(size: usize, len: u32) {
    let mut bytes: Vec<u8> = len.to_be_bytes().to_vec();
    bytes.extend(0..ROOM as u8);
    let mut found = texts(&bytes[..size]);
    let end = 4 + u64::from(len);
    let wanted = match size {
        0 => None,
        _ if end <= size as u64 => Some(Ok(&bytes[4..4 + len as usize])),
        _ => Some(Err(Error::Record)),
    };
    assert_eq!(found.next(), wanted);
    let rest = if matches!(wanted, Some(Ok(_))) { size - end as usize } else { 0 };
    assert_eq!(found.rest().len(), rest);
    if !matches!(wanted, Some(Ok(_))) {
        assert_eq!(found.next(), None);
    }
}

#[test]
fn a_text_follows_at_each_boundary() {
    for size in 0..=ROOM + 4 {
        (0..=ROOM as u32).chain(CLAIMED).for_each(|len| next(size, len));
    }
}

#[test]
fn a_batch_is_its_texts() {
    for lens in [vec![0], vec![0, 0], vec![1, 0, 2], (0..300).collect::<Vec<usize>>()] {
        let wanted: Vec<Vec<u8>> = lens.iter().map(|&len| vec![len as u8; len]).collect();
        let mut batch = Batch::new();
        let mut bytes = Vec::new();
        for text in &wanted {
            batch.push(text).unwrap();
            bytes.extend([0, 0, (text.len() >> 8) as u8, text.len() as u8]);
            bytes.extend(text);
        }
        assert_eq!(batch.as_bytes(), bytes);
        assert!(batch.texts().eq(wanted.iter().map(Vec::as_slice)));
        assert_eq!(Batch::from_bytes(bytes.clone()), Ok(batch));
        bytes.push(0);
        assert_eq!(Batch::from_bytes(bytes), Err(Error::Record));
    }
}

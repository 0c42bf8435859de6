//! Tags for reading: good ones in every shape that document 01 speaks of, and damaged copies of them.
use crate::frames::{synchsafe, unsynchronised, Frames};
use crate::rng::Rng;

/// The tag of a case.
pub fn tag(seed: u64, index: u64) -> Vec<u8> {
    let mut rng = Rng::at(seed, index);
    let edition = rng.between(2, 4) as u8;
    let mut maker = Frames { rng, edition };
    let mut out = whole(&mut maker);
    damage(&mut maker.rng, &mut out);
    out
}

/// A tag with a body whose length is about one at which sizes or buffers change.
pub fn large(seed: u64, index: u64) -> Vec<u8> {
    let mut rng = Rng::at(seed, index);
    let edition = rng.between(2, 4) as u8;
    let len = large_len(&mut rng);
    let mut maker = Frames { rng, edition };
    let frame = maker.large(len);
    let mut flags = 0;
    let mut region = [frame, maker.frame(1)].concat();
    if maker.rng.one_in(3) {
        flags = 0x80;
        if edition < 4 {
            region = unsynchronised(&region, maker.rng.one_in(2));
        }
    }
    let mut out = header(&mut maker.rng, edition, flags, region.len());
    out.extend(region);
    if maker.rng.one_in(4) {
        out.truncate(out.len() - maker.rng.below(out.len().min(20)));
    }
    out
}

/// A length about one at which sizes, blocks or buffers change, mostly of a few blocks.
pub fn large_len(rng: &mut Rng) -> usize {
    let about = if rng.one_in(16) {
        rng.pick(&[4096, 8192, 8192, 16384, 16384, 32768, 65536])
    } else {
        rng.pick(&[64, 64, 128, 128, 192, 256, 320])
    };
    about - 20 + rng.below(40)
}

/// A tag that nothing was done to, for the cuts.
pub fn sound(seed: u64, index: u64) -> Vec<u8> {
    let rng = Rng::at(seed, index);
    let mut maker = Frames { rng, edition: 2 + (index % 3) as u8 };
    whole(&mut maker)
}

fn whole(maker: &mut Frames) -> Vec<u8> {
    let edition = maker.edition;
    let mut region = frames(maker);
    let mut flags = 0;
    if maker.rng.one_in(3) {
        flags |= 0x80;
        if edition < 4 && !maker.rng.one_in(4) {
            region = unsynchronised(&region, maker.rng.one_in(2));
        }
    }
    let rng = &mut maker.rng;
    if edition > 2 && rng.one_in(7) {
        flags |= 0x40;
        region = [extended(rng), region].concat();
    }
    if rng.one_in(10) {
        flags |= rng.pick(&[0x20, 0x10, 0x30, 0x20, 0x10, 0x30, 0x40, 0x01, 0x02, 0x04, 0x08]);
    }
    let mut out = header(rng, edition, flags, region.len());
    out.extend(region);
    if rng.one_in(8) {
        // after the tag's end, or inside it where the size says more
        let more = maker.frame(1);
        out.extend(more);
    }
    out
}

fn frames(maker: &mut Frames) -> Vec<u8> {
    let mut region = Vec::new();
    for _ in 0..maker.rng.pick(&[0, 1, 1, 1, 1, 2, 2, 3, 4]) {
        region.extend(maker.frame(1));
    }
    if maker.rng.one_in(4) {
        region.extend(vec![0; maker.rng.below(14)]);
    }
    region
}

fn header(rng: &mut Rng, edition: u8, flags: u8, len: usize) -> Vec<u8> {
    let edition = if rng.one_in(80) { rng.byte() } else { edition };
    let size = match rng.below(16) {
        0 => len + rng.below(30),
        1 => len.saturating_sub(rng.below(30)),
        2 if rng.one_in(4) => rng.number() as usize & 0xFFF_FFFF,
        _ => len,
    };
    let mut out = b"ID3".to_vec();
    out.extend([edition, rng.byte(), flags]);
    out.extend(synchsafe(rng, size));
    if rng.one_in(60) {
        let i = rng.below(10);
        out[i] = rng.byte();
    }
    out
}

// an extended header, mostly as long as it says
fn extended(rng: &mut Rng) -> Vec<u8> {
    let len = rng.pick(&[6, 6, 6, 7, 10, 10, 14]);
    let size = match rng.below(10) {
        0 => rng.below(7),
        1 => len + rng.below(200),
        2 => rng.number() as usize & 0xFFF_FFFF,
        _ => len,
    };
    let mut out = synchsafe(rng, size).to_vec();
    out.extend(rng.exactly(len - 4));
    out
}

/// Nothing, or a cut, flipped bits, a changed byte, a byte more or less.
pub fn damage(rng: &mut Rng, tag: &mut Vec<u8>) {
    match rng.below(12) {
        0 => tag.truncate(rng.below(tag.len() + 1)),
        1 => flip(rng, tag),
        2 => {
            flip(rng, tag);
            flip(rng, tag);
            flip(rng, tag);
        }
        3 => {
            let i = rng.below(tag.len());
            tag[i] = rng.byte();
        }
        4 => {
            tag.remove(rng.below(tag.len()));
        }
        5 => {
            let byte = rng.byte();
            tag.insert(rng.below(tag.len() + 1), byte);
        }
        _ => {}
    }
}

fn flip(rng: &mut Rng, tag: &mut [u8]) {
    let i = rng.below(tag.len());
    tag[i] ^= 1 << rng.below(8);
}

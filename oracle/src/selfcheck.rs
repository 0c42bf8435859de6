//! Whether the harness says what the crate says as a whole.
use crate::ask::{read_uncut, Reading, Stop};
use id3::v1v2 as inner;
use id3::{Error, Tag, TagLike};

/// Compares the harness's walk of the bytes as they are with `stream::tag::decode` of the same bytes: the frames, after
/// `Tag::add_frame`, and the error.
#[allow(deprecated)]
pub fn agrees(bytes: &[u8]) -> Result<(), String> {
    let reading = read_uncut(bytes);
    if !reading.doubts.is_empty() {
        return Err(reading.doubts.join("; "));
    }
    if let Some(Stop::Stack { .. } | Stop::Panic { .. }) = reading.stop {
        return Ok(());
    }
    let whole = Tag::read_from(bytes);
    match (&reading, &whole) {
        (Reading { header: Err(failure), .. }, Err(err)) => same_error(&failure.description, err),
        (Reading { header: Ok(_), stop: Some(Stop::End { .. }), .. }, Ok(tag)) => same_frames(bytes, &reading, tag),
        (Reading { header: Ok(_), stop: Some(Stop::Refused { failure, .. }), .. }, Err(err)) => {
            same_error(&failure.description, err)?;
            let tag = err.partial_tag.as_ref().ok_or("an error without its tag")?;
            same_frames(bytes, &reading, tag)
        }
        _ => Err(format!("{reading:?} beside {whole:?}")),
    }
}

fn same_error(description: &str, err: &Error) -> Result<(), String> {
    if description == err.description {
        Ok(())
    } else {
        Err(format!("{description} beside {err:?}"))
    }
}

/// The frames at the places that the reading gives, decoded anew and added one by one.
fn same_frames(bytes: &[u8], reading: &Reading, tag: &Tag) -> Result<(), String> {
    let header = reading.header.as_ref().map_err(|_| "no header")?;
    let version = tag.version();
    let mut stream = bytes[header.start..].to_vec();
    if header.edition == 2 {
        stream.truncate(header.size as usize);
    }
    if header.flags & 0x80 != 0 && header.edition != 4 {
        stream = inner::resynchronised(&stream);
    }
    let mut again = Tag::with_version(version);
    for item in &reading.items {
        let Ok(Some((_, frame))) = inner::frame(version, &mut &stream[item.at..]) else {
            return Err(format!("no frame at {}", item.at));
        };
        again.add_frame(frame);
    }
    if again.frames().eq(tag.frames()) {
        Ok(())
    } else {
        Err(format!("{again:?} beside {tag:?}"))
    }
}

/// Makes tags out of a seed: pieces that mean something, put together, cut and damaged.
pub struct Sample(u64);

/// A sample from a seed.
pub fn sample(seed: u64) -> Sample {
    Sample(seed.wrapping_mul(2).wrapping_add(1))
}

impl Sample {
    fn below(&mut self, n: usize) -> usize {
        self.0 ^= self.0 << 13;
        self.0 ^= self.0 >> 7;
        self.0 ^= self.0 << 17;
        ((self.0 >> 11) % n as u64) as usize
    }

    fn one_in(&mut self, n: usize) -> bool {
        self.below(n) == 0
    }

    fn byte(&mut self) -> u8 {
        const OFTEN: [u8; 12] = [0, 0, 0, 0, 1, 2, 3, 0x41, 0x7F, 0x80, 0xFE, 0xFF];
        if self.one_in(3) {
            self.below(256) as u8
        } else {
            OFTEN[self.below(OFTEN.len())]
        }
    }

    fn bytes(&mut self, most: usize) -> Vec<u8> {
        let n = self.below(most + 1);
        (0..n).map(|_| self.byte()).collect()
    }

    /// The next tag.
    pub fn tag(&mut self) -> Vec<u8> {
        let edition = 2 + self.below(3) as u8;
        let mut flags = if self.one_in(3) { 0x80 } else { 0 };
        let mut region = Vec::new();
        if edition > 2 && self.one_in(6) {
            flags |= 0x40;
            let size = [0, 5, 6, 6, 10, 14, 200][self.below(7)];
            region.extend([0, 0, size / 128, size % 128]);
            region.extend(self.bytes(12));
        }
        for _ in 0..self.below(5) {
            region.extend(self.frame(edition, 1));
        }
        if self.one_in(3) {
            region.extend(vec![0; self.below(14)]);
        }
        let size = match self.below(8) {
            0 => region.len() + self.below(30),
            1 => region.len().saturating_sub(self.below(30)),
            _ => region.len(),
        };
        let mut tag = vec![b'I', b'D', b'3', edition, self.byte(), flags];
        tag.extend((0..4).rev().map(|i| (size >> (7 * i) & 0x7F) as u8));
        tag.extend(region);
        if self.one_in(8) {
            tag.extend(self.frame(edition, 1));
        }
        for _ in 0..[0, 0, 0, 1, 3][self.below(5)] {
            let i = self.below(tag.len());
            tag[i] ^= 1 << self.below(8);
        }
        if self.one_in(5) {
            let n = self.below(tag.len() + 1);
            tag.truncate(n);
        }
        tag
    }

    fn frame(&mut self, edition: u8, depth: usize) -> Vec<u8> {
        const IDS3: [&str; 16] = [
            "TT2", "TP1", "TXX", "POP", "MLL", "COM", "ULT", "PIC", "GEO", "UFI", "WAR", "IPL", "CNT", "SLT", "ABC", "T\u{e9}",
        ];
        const IDS4: [&str; 24] = [
            "TIT2", "TPE1", "TXXX", "POPM", "MLLT", "CHAP", "CTOC", "CHAP", "COMM", "USLT", "APIC", "GEOB", "UFID", "PRIV", "WOAR",
            "WXXX", "IPLS", "TIPL", "TMCL", "GRP1", "SYLT", "PCNT", "ABCD", "T\u{e9}1",
        ];
        let id = if edition == 2 { IDS3[self.below(16)] } else { IDS4[self.below(24)] };
        let mut body = self.body(id, edition, depth);
        let mut out = id.as_bytes().to_vec();
        if edition == 2 {
            out.extend(&(body.len() as u32).to_be_bytes()[1..]);
            out.extend(body);
            return out;
        }
        let mut bits = [0, self.byte() & 0xE0];
        let mut extra = Vec::new();
        if edition == 4 {
            bits[1] = 0;
            if self.one_in(4) {
                bits[1] |= 2;
            }
            if self.one_in(8) {
                bits[1] |= 1;
                extra = vec![0, 0, 0, 9];
            }
        } else if !self.one_in(8) {
            bits[1] = 0;
        }
        if self.one_in(40) {
            bits[1] |= 1 << self.below(8);
        }
        let size = extra.len() + body.len();
        if edition == 3 {
            out.extend((size as u32).to_be_bytes());
        } else {
            out.extend((0..4).rev().map(|i| (size >> (7 * i) & 0x7F) as u8));
        }
        out.extend(bits);
        out.extend(extra);
        out.append(&mut body);
        out
    }

    fn body(&mut self, id: &str, edition: u8, depth: usize) -> Vec<u8> {
        if self.one_in(10) {
            return self.bytes(12);
        }
        let mut out = Vec::new();
        match id {
            "POPM" | "POP" | "PRIV" | "UFID" => {
                out.extend(self.bytes(4));
                out.push(0);
                out.extend(self.bytes(14));
            }
            "MLLT" | "MLL" => {
                out.extend((0..8).map(|_| self.byte()));
                let widths = [1, 2, 3, 4, 7, 8, 9, 12, 16, 20, 24, 31, 32, 33, 0];
                out.push(widths[self.below(widths.len())]);
                out.push(widths[self.below(widths.len())]);
                out.extend(self.bytes(20));
            }
            "CHAP" => {
                out.extend([0x61, 0]);
                out.extend((0..16).map(|_| self.byte()));
                if depth < 4 {
                    for _ in 0..self.below(3) {
                        out.extend(self.frame(edition, depth + 1));
                    }
                }
                out.extend(vec![0; [0, 0, 0, 3, 11][self.below(5)]]);
            }
            "CTOC" => {
                let children = self.below(4);
                out.extend([0x62, 0, self.byte(), children as u8]);
                for _ in 0..children {
                    out.extend([0x63, 0]);
                }
                if depth < 4 && self.one_in(2) {
                    out.extend(self.frame(edition, depth + 1));
                }
            }
            _ => {
                out.push(self.below(5) as u8);
                out.extend(self.bytes(14));
            }
        }
        out
    }
}

//! Frames for reading, of every id and kind, and the frame headers around them.
use crate::rng::Rng;
use crate::texts;

/// Makes frames of one edition.
pub struct Frames {
    /// Where its numbers come from.
    pub rng: Rng,
    /// 2, 3 or 4.
    pub edition: u8,
}

const IDS3: [&[u8]; 26] = [
    b"TT2", b"TP1", b"TCO", b"TYE", b"TT2", b"TXX", b"POP", b"POP", b"POP", b"POP", b"MLL", b"COM", b"ULT", b"SLT",
    b"PIC", b"GEO", b"UFI", b"WAR", b"WXX", b"IPL", b"CNT", b"RVA", b"ABC", b"ABC", b"CHA", b"TT2",
];

const IDS4: [&[u8]; 40] = [
    b"TIT2", b"TPE1", b"TCOM", b"TIT2", b"TALB", b"TXXX", b"POPM", b"POPM", b"POPM", b"POPM", b"MLLT", b"MLLT",
    b"MLLT", b"CHAP", b"CHAP", b"CHAP", b"CTOC", b"CTOC", b"COMM", b"USLT", b"SYLT", b"APIC", b"GEOB", b"UFID",
    b"PRIV", b"WOAR", b"WXXX", b"IPLS", b"TIPL", b"TMCL", b"GRP1", b"PCNT", b"RVA2", b"ABCD", b"ABCD", b"ZZZZ",
    b"POP ", b"TIT2", b"MLL0", b"CHAQ",
];

// UTF-8 of every length, what is nearly UTF-8, and ids that only look like one of a kind
const STRANGE: [&[u8]; 30] = [
    b"T\xC3\xA91",
    b"\xC3\xA9AB",
    b"\xE2\x82\xACA",
    b"\xF0\x9F\x8E\xB5",
    b"A\xE2\x82\xAC",
    b"\xEE\x80\x80T",
    b"\xED\x9F\xBFA",
    b"\xED\xA0\x80A",
    b"\xE0\x9F\xBFA",
    b"\xE0\xA0\x80A",
    b"\xC0\x80AB",
    b"\xC1\xBFAB",
    b"\xC2\x80AB",
    b"\xF0\x8F\xBF\xBF",
    b"\xF0\x90\x80\x80",
    b"\xF4\x8F\xBF\xBF",
    b"\xF4\x90\x80\x80",
    b"\xF5\x80\x80\x80",
    b"\x80ABC",
    b"AB\xC3\xA9",
    b"ABC\xC3",
    b"AB\xE2\x82",
    b"A\xF0\x9F\x8E",
    b"T\0\0\0",
    b"\x01\x02\x03\x04",
    b"popm",
    b"POP\0",
    b"\x7F\x7F\x7F\x7F",
    b"\nA\nB",
    b"T\xFF\xFE\xFD",
];

/// Four bytes of seven bits each; a bit 7 that the next bit above hides may be set too.
pub fn synchsafe(rng: &mut Rng, n: usize) -> [u8; 4] {
    let mut out = [(n >> 21) as u8 & 0x7F, (n >> 14) as u8 & 0x7F, (n >> 7) as u8 & 0x7F, n as u8 & 0x7F];
    if rng.one_in(8) {
        for i in 1..4 {
            out[i] |= out[i - 1] << 7;
        }
    }
    out
}

/// A 00 after each FF before 00, or, by the other rule, before E0 and above too.
pub fn unsynchronised(bytes: &[u8], standard: bool) -> Vec<u8> {
    let mut out = Vec::with_capacity(bytes.len() + 4);
    for (i, byte) in bytes.iter().enumerate() {
        out.push(*byte);
        let next = bytes.get(i + 1);
        if *byte == 0xFF && next.is_some_and(|next| *next == 0 || standard && *next >= 0xE0) {
            out.push(0);
        }
    }
    out
}

impl Frames {
    /// A frame at a depth, a chain of chapters now and then.
    pub fn frame(&mut self, depth: usize) -> Vec<u8> {
        if self.edition > 2 && depth == 1 && self.rng.one_in(16) {
            let levels = self.rng.between(1, 10);
            return self.chain(levels);
        }
        let id = self.id();
        let body = self.body(&id, depth);
        self.framed(&id, body)
    }

    /// Chapters one in another, with other frames beside them.
    pub fn chain(&mut self, levels: usize) -> Vec<u8> {
        let mut run = if self.rng.one_in(2) { self.leaf() } else { Vec::new() };
        for _ in 0..levels {
            let id: &[u8] = if self.rng.one_in(3) { b"CTOC" } else { b"CHAP" };
            let mut body = self.chapter_start(id);
            if self.rng.one_in(6) {
                body.extend(self.leaf());
            }
            body.extend(run);
            if self.rng.one_in(6) {
                body.extend(self.leaf());
            }
            run = self.framed(id, body);
        }
        run
    }

    /// A frame whose body has so many bytes before it is unsynchronised.
    pub fn large(&mut self, len: usize) -> Vec<u8> {
        let old = self.edition == 2;
        let ids: [&[u8]; 4] = if old { [b"ABC", b"TT2", b"POP", b"MLL"] } else { [b"ABCD", b"TIT2", b"POPM", b"CHAP"] };
        let id = self.rng.pick(&ids);
        let mut body = self.body(id, 9);
        let more = len.saturating_sub(body.len());
        if (id == b"POP" || id == b"POPM") && self.rng.one_in(2) {
            // zeros in front of a counter, which mostly fits
            body = self.rng.name(5);
            body.extend([0, self.rng.byte()]);
            body.resize(body.len().max(len), 0);
            body.extend(self.rng.bytes(9));
        } else if id == b"CHAP" {
            let raw = self.rng.filled(more.saturating_sub(10));
            body.extend(self.framed(b"ABCD", raw));
        } else {
            body.extend(self.rng.filled(more));
        }
        self.framed(id, body)
    }

    // a frame that is no chapter
    fn leaf(&mut self) -> Vec<u8> {
        let mut id = self.id();
        while id == b"CHAP" || id == b"CTOC" {
            id = self.id();
        }
        let body = self.body(&id, 9);
        self.framed(&id, body)
    }

    fn id(&mut self) -> Vec<u8> {
        let len = if self.edition == 2 { 3 } else { 4 };
        match self.rng.below(40) {
            0 | 1 => self.rng.pick(&STRANGE)[..len].to_vec(),
            2 => self.rng.exactly(len),
            _ if self.edition == 2 => self.rng.pick(&IDS3).to_vec(),
            _ => self.rng.pick(&IDS4).to_vec(),
        }
    }

    // the frame header before a body, which is unsynchronised where the flag says so
    fn framed(&mut self, id: &[u8], body: Vec<u8>) -> Vec<u8> {
        let mut out = id.to_vec();
        if self.edition == 2 {
            let size = self.size(body.len());
            out.extend(&(size as u32).to_be_bytes()[1..]);
            out.extend(body);
            return out;
        }
        let flags = self.flags();
        let flagged = self.edition == 4 && flags & 2 != 0 && !self.rng.one_in(5);
        let standard = self.rng.one_in(2);
        let body = if flagged { unsynchronised(&body, standard) } else { body };
        let counted = flags & if self.edition == 4 { 1 } else { 0x80 } != 0;
        let length = if counted { self.rng.exactly(4) } else { Vec::new() };
        let mut size = self.size(length.len() + body.len());
        if self.edition == 3 && counted && self.rng.one_in(2) {
            // too small for the four bytes of a data length
            size = self.rng.below(4);
        }
        if self.edition == 3 {
            out.extend((size as u32).to_be_bytes());
        } else {
            out.extend(synchsafe(&mut self.rng, size));
        }
        out.extend(flags.to_be_bytes());
        out.extend(length);
        out.extend(body);
        out
    }

    // a body's size as its header gives it: mostly right, sometimes near, seldom far off
    fn size(&mut self, right: usize) -> usize {
        match self.rng.below(40) {
            0 => right + self.rng.below(40),
            1 => right.saturating_sub(self.rng.below(6)),
            2 => self.rng.below(8),
            3 if self.rng.one_in(4) => self.rng.number() as u32 as usize >> self.rng.below(20),
            _ => right,
        }
    }

    fn flags(&mut self) -> u16 {
        let mut flags = 0;
        if self.edition == 4 {
            flags |= if self.rng.one_in(4) { 0x02 } else { 0 };
            flags |= if self.rng.one_in(7) { 0x01 } else { 0 };
        } else if self.rng.one_in(60) {
            flags |= 0x80;
        }
        if self.rng.one_in(10) {
            // bits that mean nothing to a reader
            flags |= self.rng.number() as u16 & if self.edition == 4 { 0xFFB0 } else { 0xFF1F };
        }
        if self.rng.one_in(50) {
            flags |= 1 << self.rng.below(16);
        }
        flags
    }

    fn body(&mut self, id: &[u8], depth: usize) -> Vec<u8> {
        if self.rng.one_in(12) {
            return self.rng.bytes(14);
        }
        match id {
            b"POPM" | b"POP" => self.popularimeter(),
            b"MLLT" | b"MLL" => self.table(),
            b"CHAP" | b"CTOC" => self.chapter(id, depth),
            b"TXXX" | b"TXX" | b"WXXX" | b"WXX" | b"IPLS" | b"IPL" | b"TIPL" | b"TMCL" => self.strings(&[0, 0]),
            b"COMM" | b"COM" | b"USLT" | b"ULT" => self.strings(&[3, 0]),
            b"GEOB" | b"GEO" => self.strings(&[0, 0, 0]),
            b"PIC" => self.picture(),
            b"APIC" => self.strings(&[0, 1, 0]),
            b"SYLT" | b"SLT" => self.lyrics(),
            b"PRIV" | b"UFID" | b"UFI" => self.popularimeter(),
            _ if id[0] == b'T' || id == b"GRP1" => self.text(),
            _ => self.rng.bytes(16),
        }
    }

    /// User, rating and counter.
    pub fn popularimeter(&mut self) -> Vec<u8> {
        let mut out = self.rng.name(5);
        if !self.rng.one_in(30) {
            out.push(0);
        }
        if !self.rng.one_in(30) {
            out.push(self.rng.byte());
        }
        out.extend(self.counter());
        out
    }

    // of 0 to 8 bytes, of 9 to 12 once in three times, seldom of many more; about half of the long ones fit 64 bits by the zeros in front
    fn counter(&mut self) -> Vec<u8> {
        if !self.rng.one_in(3) {
            return self.rng.bytes(8);
        }
        let len = if self.rng.one_in(12) { self.rng.between(13, 300) } else { self.rng.between(9, 12) };
        let last = match self.rng.below(8) {
            0 => vec![0xFF; 8],
            1 => vec![1, 0, 0, 0, 0, 0, 0, 0, 0],
            2..=4 => self.rng.exactly(len),
            _ => self.rng.bytes(9),
        };
        [vec![0; len - last.len()], last].concat()
    }

    fn text(&mut self) -> Vec<u8> {
        let encoding = if self.rng.one_in(25) { self.rng.byte() } else { self.rng.below(4) as u8 };
        let mut out = vec![encoding];
        out.extend(texts::text(&mut self.rng, encoding));
        out.extend(vec![0; self.rng.pick(&[0, 0, 0, 0, 1, 1, 2, 2, 3, 4])]);
        if self.rng.one_in(12) {
            out.extend(self.rng.bytes(4));
        }
        out
    }

    // widths of every sort; references that fill them, or any bytes
    fn table(&mut self) -> Vec<u8> {
        let mut out = self.rng.exactly(8);
        let (a, b) = self.widths();
        out.extend([a, b]);
        if self.rng.one_in(4) {
            out.extend(self.rng.bytes(18));
        } else {
            let bits = self.rng.below(5) * (a as usize + b as usize);
            out.extend(self.rng.exactly(bits.div_ceil(8)));
        }
        out
    }

    fn widths(&mut self) -> (u8, u8) {
        let a = self.rng.between(1, 32) as u8;
        match self.rng.below(10) {
            0 => (self.rng.byte(), self.rng.byte()),
            1 => (self.rng.between(0, 34) as u8, self.rng.between(0, 34) as u8),
            2..=4 => (a, self.rng.between(1, 8) as u8 * 4 - a % 4),
            _ => (a, self.rng.between(1, 4) as u8 * 8 - a % 8),
        }
    }

    fn chapter(&mut self, id: &[u8], depth: usize) -> Vec<u8> {
        let mut out = self.chapter_start(id);
        if depth < 4 {
            for _ in 0..self.rng.pick(&[0, 0, 1, 1, 2, 3]) {
                out.extend(self.frame(depth + 1));
            }
        }
        if self.rng.one_in(8) {
            out.extend(vec![0; self.rng.below(12)]);
        }
        if self.rng.one_in(20) {
            out.extend(self.rng.bytes(9));
        }
        out
    }

    // what stands before the subframes
    fn chapter_start(&mut self, id: &[u8]) -> Vec<u8> {
        let mut out = self.rng.name(3);
        out.push(0);
        if id == b"CHAP" {
            let numbers = if self.rng.one_in(40) { 15 } else { 16 };
            out.extend(self.rng.exactly(numbers));
            return out;
        }
        let children = self.rng.below(4);
        out.push(self.rng.byte());
        out.push(if self.rng.one_in(30) { self.rng.byte() } else { children as u8 });
        for _ in 0..children {
            out.extend(self.rng.name(3));
            out.push(0);
        }
        out
    }

    // an encoding, then strings: closed ones (0), or of so many bytes, then the rest
    fn strings(&mut self, shape: &[usize]) -> Vec<u8> {
        let encodings = if self.rng.one_in(12) { 5 } else { 4 };
        let encoding = self.rng.below(encodings) as u8;
        let close: &[u8] = if encoding == 1 || encoding == 2 { &[0, 0] } else { &[0] };
        let mut out = vec![encoding];
        for (i, len) in shape.iter().enumerate() {
            if *len > 0 {
                out.extend(self.rng.exactly(*len));
            } else if !self.rng.one_in(20) {
                out.extend(texts::text(&mut self.rng, encoding));
                // a MIME type is Latin-1 in every encoding
                out.extend(if i == 0 && shape.len() == 3 { &[0] } else { close });
            }
        }
        out.extend(texts::text(&mut self.rng, encoding));
        out
    }

    fn picture(&mut self) -> Vec<u8> {
        let mut out = vec![0];
        out.extend(self.rng.pick(&[&b"PNG"[..], b"JPG", b"GIF"]));
        out.push(self.rng.byte());
        out.extend(self.rng.name(3));
        out.push(0);
        out.extend(self.rng.bytes(6));
        out
    }

    fn lyrics(&mut self) -> Vec<u8> {
        let encoding = self.rng.below(2) as u8;
        let close: &[u8] = if encoding == 1 { &[0, 0] } else { &[0] };
        let mut out = vec![encoding, b'e', b'n', b'g', self.rng.between(1, 2) as u8, self.rng.below(7) as u8];
        for i in 0..self.rng.below(3) {
            out.extend(texts::text(&mut self.rng, encoding));
            out.extend(close);
            if i > 0 {
                out.extend(self.rng.exactly(4));
            }
        }
        out
    }
}

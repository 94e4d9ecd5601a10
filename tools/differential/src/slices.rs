//! The editor's slices: numbers and text. An accepted sheet taken apart into them.

#[derive(Clone, Debug, Default, PartialEq)]
pub struct Slices {
    pub numbers: Vec<u16>,
    pub text: Vec<u8>,
}

/// A walk over the bytes of an accepted sheet.
struct Walk<'a> {
    left: &'a [u8],
    slices: Slices,
}

impl Walk<'_> {
    fn byte(&mut self) -> u16 {
        let number = self.left[0].into();
        self.left = &self.left[1..];
        self.slices.numbers.push(number);
        number
    }

    fn bytes(&mut self, count: usize) {
        (0..count).for_each(|_| _ = self.byte());
    }

    fn word(&mut self) {
        self.slices.numbers.push(u16::from_le_bytes([self.left[0], self.left[1]]));
        self.left = &self.left[2..];
    }

    fn text(&mut self) {
        let (text, left) = self.left[1..].split_at(self.left[0].into());
        self.byte();
        self.slices.text.extend(text);
        self.left = left;
    }

    fn column(&mut self) {
        self.bytes(5);
        for _ in 0..2 {
            self.byte();
            self.word();
        }
    }

    fn cell(&mut self) {
        self.bytes(2);
        for _ in 0..self.byte() {
            self.text();
        }
    }

    fn row(&mut self) {
        self.byte();
        for _ in 0..self.byte() {
            self.cell();
        }
    }
}

pub fn take_apart(sheet: &[u8]) -> Slices {
    let mut walk = Walk { left: sheet, slices: Slices::default() };
    walk.bytes(2);
    walk.word();
    walk.byte();
    walk.text();
    walk.text();
    for _ in 0..walk.byte() {
        walk.column();
    }
    // The header, then the rows.
    for _ in 0..2 {
        for _ in 0..walk.byte() {
            walk.row();
        }
    }
    walk.slices
}

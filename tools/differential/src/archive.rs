//! The calls of include/cagwoni.h.

#[repr(C)]
#[derive(Debug, PartialEq)]
pub struct Checked {
    pub number: u64,
    pub place: u64,
}

#[repr(C)]
#[derive(Debug, PartialEq)]
pub struct Counted {
    pub number: u64,
    pub place: u64,
    pub lines: u64,
    pub bytes: u64,
}

/// The flags are bytes here: a byte other than 0 and 1 is then a difference, not a broken `bool`.
#[repr(C)]
#[derive(Debug, PartialEq)]
pub struct Measured {
    pub number: u64,
    pub place: u64,
    pub columns: u64,
    pub content: [u16; 12],
    pub hidden: [u8; 12],
}

/// The flags are bytes here too.
#[repr(C)]
#[derive(Debug, PartialEq)]
pub struct Reasoned {
    pub number: u64,
    pub place: u64,
    pub columns: u64,
    pub step: [u8; 12],
    pub widened: [u8; 12],
    pub has_difference: u8,
    pub difference: i32,
}

#[repr(C)]
#[derive(Debug, PartialEq)]
pub struct Printed {
    pub number: u64,
    pub place: u64,
    pub written: u64,
}

#[repr(C)]
#[derive(Debug, PartialEq)]
pub struct PrintedLines {
    pub number: u64,
    pub place: u64,
    pub written: u64,
    pub next: u64,
}

unsafe extern "C" {
    fn cagwoni_check(sheet: *const u8, sheet_len: usize) -> Checked;
    fn cagwoni_count(sheet: *const u8, sheet_len: usize) -> Counted;
    fn cagwoni_widths(sheet: *const u8, sheet_len: usize) -> Measured;
    fn cagwoni_reasons(sheet: *const u8, sheet_len: usize) -> Reasoned;
    fn cagwoni_print_page(sheet: *const u8, sheet_len: usize, page: *mut u8, page_len: usize) -> Printed;
    fn cagwoni_print_line(sheet: *const u8, sheet_len: usize, line: usize, page: *mut u8, page_len: usize) -> Printed;
    fn cagwoni_print_lines(
        sheet: *const u8,
        sheet_len: usize,
        line: usize,
        page: *mut u8,
        page_len: usize,
    ) -> PrintedLines;
    fn cagwoni_write_sheet(
        numbers: *const u16,
        numbers_len: usize,
        text: *const u8,
        text_len: usize,
        sheet: *mut u8,
        sheet_len: usize,
    ) -> Printed;
}

/// Writes the table that the editor's numbers and text describe.
pub fn write_sheet(numbers: &[u16], text: &[u8], sheet: &mut [u8]) -> Printed {
    let (lengths, buffer) = ((numbers.len(), text.len(), sheet.len()), sheet.as_mut_ptr());
    // Safety: as that of the calls below.
    unsafe { cagwoni_write_sheet(numbers.as_ptr(), lengths.0, text.as_ptr(), lengths.1, buffer, lengths.2) }
}

/// The calls on one sheet.
pub struct Calls<'a> {
    pub sheet: &'a [u8],
}

// Safety: a slice is as many readable bytes as its length says, and a `&mut` one is lent to nobody else.
impl Calls<'_> {
    pub fn check(&self) -> Checked {
        unsafe { cagwoni_check(self.sheet.as_ptr(), self.sheet.len()) }
    }

    pub fn count(&self) -> Counted {
        unsafe { cagwoni_count(self.sheet.as_ptr(), self.sheet.len()) }
    }

    pub fn widths(&self) -> Measured {
        unsafe { cagwoni_widths(self.sheet.as_ptr(), self.sheet.len()) }
    }

    pub fn reasons(&self) -> Reasoned {
        unsafe { cagwoni_reasons(self.sheet.as_ptr(), self.sheet.len()) }
    }

    pub fn page(&self, page: &mut [u8]) -> Printed {
        unsafe { cagwoni_print_page(self.sheet.as_ptr(), self.sheet.len(), page.as_mut_ptr(), page.len()) }
    }

    pub fn line(&self, line: usize, page: &mut [u8]) -> Printed {
        unsafe { cagwoni_print_line(self.sheet.as_ptr(), self.sheet.len(), line, page.as_mut_ptr(), page.len()) }
    }

    pub fn lines(&self, line: usize, page: &mut [u8]) -> PrintedLines {
        unsafe { cagwoni_print_lines(self.sheet.as_ptr(), self.sheet.len(), line, page.as_mut_ptr(), page.len()) }
    }
}

//! The sheet program: standard input in, standard output out.

use crate::calls;
use crate::layout::RECORD_SIZE;
use crate::line::{
    device_line, lines, read_names, sheet_line, SheetCall, FIRST_NAMES, SECOND_NAMES,
};
use crate::listing::{read_ranges, Range, LIST_ROOM};
use crate::refusal::Refusal;
use crate::task::{Block, BLOCK_SIZE, MAX_BLOCKS};

/// The most bytes of input that are read.
pub const MAX_SHEET: usize = 32_768;
/// The names line of the output.
pub const OUTPUT_NAMES: &str = "line answer column first step last\n";

/// Runs the sheet program on an input and gives what it prints.
pub fn sheet(input: &[u8]) -> Vec<u8> {
    let mut printed = Printed(OUTPUT_NAMES.to_string());
    if input.len() > MAX_SHEET {
        printed.answer(0, Refusal::MalformedLine.number());
        return printed.0.into_bytes();
    }
    let lines = lines(input);
    match begin(&lines) {
        Err((line, refusal)) => printed.answer(line, refusal.number()),
        Ok(record) => {
            let mut desk = Desk {
                record,
                draft: Vec::new(),
                printed: &mut printed,
            };
            for (index, line) in lines.iter().enumerate().skip(3) {
                desk.on_line(index + 1, line);
            }
        }
    }
    printed.0.into_bytes()
}

/// Lines 1 to 3: gives the new record, or the first line at fault with its refusal.
fn begin(lines: &[&[u8]]) -> Result<Vec<u8>, (usize, Refusal)> {
    let line = |number: usize| {
        let found = lines.get(number - 1).copied();
        found.ok_or((number, Refusal::MalformedLine))
    };
    read_names(line(1)?, FIRST_NAMES).map_err(|refusal| (1, refusal))?;
    let device = device_line(line(2)?).map_err(|refusal| (2, refusal))?;
    let mut record = vec![0; RECORD_SIZE];
    // New refuses nothing but the device: the record has the right length.
    if calls::new(&mut record, device.rows, &device.kinds) != 0 {
        return Err((2, Refusal::DeviceOrColumn));
    }
    read_names(line(3)?, SECOND_NAMES).map_err(|refusal| (3, refusal))?;
    Ok(record)
}

/// What has been printed so far.
struct Printed(String);

impl Printed {
    /// Prints an answer with zeros.
    fn answer(&mut self, line: usize, answer: i32) {
        self.0.push_str(&format!("{line} {answer} 0 0 0 0\n"));
    }

    /// Prints an answer with one range.
    fn range(&mut self, line: usize, answer: i32, range: Range) {
        let Range {
            column,
            step,
            first,
            last,
        } = range;
        let text = format!("{line} {answer} {column} {first} {step} {last}\n");
        self.0.push_str(&text);
    }
}

/// What the program keeps between lines: the card's record and the draft task.
struct Desk<'a> {
    record: Vec<u8>,
    draft: Vec<u8>,
    printed: &'a mut Printed,
}

impl Desk<'_> {
    /// Reads one line after the third and makes its call.
    fn on_line(&mut self, line: usize, bytes: &[u8]) {
        match sheet_line(bytes) {
            Err(refusal) => self.printed.answer(line, refusal.number()),
            Ok(SheetCall::AddBlock(block)) => self.add_block(line, block),
            Ok(SheetCall::EmptyDraft) => self.draft.clear(),
            Ok(SheetCall::ListDraft) => self.list(line),
            Ok(SheetCall::ChooseDraft) => {
                let answer = calls::choose(&self.record, &self.draft);
                self.printed.answer(line, answer);
            }
            Ok(SheetCall::PlaceDraft {
                task,
                column,
                bottom,
            }) => {
                let (number, column) = (u32::from(task), u32::from(column));
                let bottom = i32::from(bottom);
                let answer = calls::place(&mut self.record, &self.draft, number, column, bottom);
                self.printed.answer(line, answer);
            }
            Ok(SheetCall::ReleaseTask { task }) => {
                let answer = calls::release(&mut self.record, u32::from(task));
                self.printed.answer(line, answer);
            }
        }
    }

    /// Adds a block to the draft, whatever the block is, unless the draft is full.
    fn add_block(&mut self, line: usize, block: Block) {
        if self.draft.len() >= MAX_BLOCKS * BLOCK_SIZE {
            self.printed.answer(line, Refusal::TaskLength.number());
            return;
        }
        self.draft.extend(block.to_bytes());
    }

    /// Lists the draft and prints a line for each range.
    fn list(&mut self, line: usize) {
        let mut output = vec![0; LIST_ROOM];
        let answer = calls::list(&self.record, &self.draft, &mut output);
        let Ok(count) = usize::try_from(answer) else {
            self.printed.answer(line, answer);
            return;
        };
        for range in read_ranges(&output, count) {
            self.printed.range(line, answer, range);
        }
    }
}

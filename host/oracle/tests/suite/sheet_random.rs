//! Random sheets, against the same calls made on the book alone.

use oracle::arbitrary::{device, sheet_bytes, sheet_calls, text_of};
use oracle::line::SheetCall;
use oracle::listing::{read_ranges, LIST_ROOM};
use oracle::rng::Rng;
use oracle::sheet::{sheet, MAX_SHEET, OUTPUT_NAMES};
use oracle::task::BLOCK_SIZE;
use oracle::{Book, Refusal};

/// What one call prints: its answer, then zeros or ranges.
fn rows(book: &mut Book, draft: &mut Vec<u8>, call: SheetCall) -> Vec<String> {
    let plain = |answer: Result<i32, Refusal>| {
        let number = answer.unwrap_or_else(Refusal::number);
        vec![format!("{number} 0 0 0 0")]
    };
    match call {
        SheetCall::AddBlock(_) if draft.len() == 32 * BLOCK_SIZE => plain(Err(Refusal::TaskLength)),
        SheetCall::AddBlock(block) => {
            draft.extend(block.to_bytes());
            vec![]
        }
        SheetCall::EmptyDraft => {
            draft.clear();
            vec![]
        }
        SheetCall::ChooseDraft => plain(book.choose(draft).map(|at| at.answer())),
        SheetCall::ReleaseTask { task } => plain(book.release(task.into()).map(|()| 0)),
        SheetCall::PlaceDraft {
            task,
            column,
            bottom,
        } => {
            let placed = book.place(draft, task.into(), column.into(), bottom.into());
            plain(placed.map(|()| 0))
        }
        SheetCall::ListDraft => {
            let mut output = vec![0; LIST_ROOM];
            match book.list(draft, &mut output) {
                Err(refusal) => plain(Err(refusal)),
                Ok(count) => read_ranges(&output, count)
                    .iter()
                    .map(|r| format!("{count} {} {} {} {}", r.column, r.first, r.step, r.last))
                    .collect(),
            }
        }
    }
}

#[test]
fn a_sheet_gives_what_the_book_gives() {
    let mut rng = Rng::new(60);
    for _ in 0..300 {
        let device = device(&mut rng);
        let mut calls = sheet_calls(&mut rng, &device, 40);
        while text_of(&device, &calls).len() > MAX_SHEET {
            calls.truncate(calls.len() / 2);
        }
        let mut expected = OUTPUT_NAMES.to_string();
        let mut book = Book::on(device.clone());
        let mut draft = Vec::new();
        for (index, &call) in calls.iter().enumerate() {
            for row in rows(&mut book, &mut draft, call) {
                expected.push_str(&format!("{} {row}\n", index + 4));
            }
        }
        let printed = sheet(&text_of(&device, &calls));
        assert!(printed == expected.as_bytes());
    }
}

#[test]
fn any_sheet_prints_lines_of_six_numbers() {
    let mut rng = Rng::new(61);
    let mut malformed = 0;
    for _ in 0..400 {
        let input = sheet_bytes(&mut rng);
        let printed = String::from_utf8(sheet(&input)).unwrap();
        let rest = printed.strip_prefix(OUTPUT_NAMES).unwrap();
        let mut last_line = 0;
        for row in rest.lines() {
            let fields: Vec<i64> = row.split(' ').map(|field| field.parse().unwrap()).collect();
            assert_eq!(fields.len(), 6);
            assert!(fields[0] >= last_line);
            last_line = fields[0];
            malformed += usize::from(fields[1] == -12);
        }
    }
    assert!(malformed > 500, "{malformed}");
}

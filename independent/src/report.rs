//! The report of an order file: its sheet or the refusal, in a lent buffer.

use crate::file::OrderFile;
use crate::order::Order;
use crate::sheet::{self, Sheet, Verdict};
use crate::text::{Lent, Sink};
use crate::Refusal;

/// A buffer of so many bytes holds every report.
pub const REPORT_BYTES: usize = 4_096;

/// The lent buffer is shorter than `REPORT_BYTES`: refusal 37, with that number as its place.
#[derive(Clone, Copy, Debug, PartialEq, Eq)]
pub struct Short;

/// Writes the report of `file` at the front of `out`, and answers how many bytes it wrote.
pub fn report(file: &[u8], out: &mut [u8]) -> Result<usize, Short> {
    if out.len() < REPORT_BYTES {
        return Err(Short);
    }
    let mut text = Lent::new(out);
    match sheet_of(file) {
        Ok(sheet) => write_sheet(&mut text, &sheet),
        Err(refusal) => write_refusal(&mut text, &refusal),
    }
    Ok(text.used)
}

/// The sheet of an order file, or the first thing that is wrong with the file.
pub fn sheet_of(bytes: &[u8]) -> Result<Sheet, Refusal> {
    let file = OrderFile::read(bytes)?;
    let mut order = Order::over(file.frame()?);
    for (index, load) in file.loads.iter().enumerate() {
        order
            .load(*load)
            .map_err(|denial| Refusal::on(file.load_line(index + 1), denial))?;
    }
    sheet::sheet(order.levels(), &file.card).map_err(|denial| {
        // Want of levels is no line's fault; all else is the card's.
        let line = if denial.number == 31 {
            0
        } else {
            file.card_line()
        };
        Refusal::on(line, denial)
    })
}

pub fn write_refusal(text: &mut impl Sink, refusal: &Refusal) {
    text.line("REFUSED", &[refusal.number, refusal.line, refusal.place]);
}

pub fn write_sheet(text: &mut impl Sink, sheet: &Sheet) {
    text.put(b"SHEET");
    text.numbers(&[sheet.rows.len() as i64, sheet.weight, sheet.base_shear]);
    match sheet.verdict {
        Verdict::Pass => text.put(b" PASS\n"),
        Verdict::Fail { storey, limit } => text.line(" FAIL", &[storey, limit]),
    }
    for row in &sheet.rows {
        text.number(row.level);
        text.numbers(&[
            row.weight,
            row.top,
            row.force,
            row.shear,
            row.moved,
            row.drifted,
            row.ma,
            row.mb,
            row.apart,
        ]);
        text.put(b"\n");
    }
}

//! Till lists: comma-separated text after RFC 4180, without a header. Each
//! record is a label and a price.

use crate::model::Model;
use crate::phase::Order;
use crate::refusal;
use crate::sheet::read_number;

const LF: u8 = 0x0a;
const CR: u8 = 0x0d;
const DQUOTE: u8 = 0x22;
const COMMA: u8 = 0x2c;

/// TEXTDATA = %x20-21 / %x23-2B / %x2D-7E
fn is_textdata(byte: u8) -> bool {
    matches!(byte, 0x20..=0x21 | 0x23..=0x2b | 0x2d..=0x7e)
}

/// Reads the records into the front of the lent list, their workers dealt in
/// turn from 0 below `count`. Gives the number of records.
pub fn read(model: Model, text: &[u8], count: u64, orders: &mut [Order]) -> Result<usize, u8> {
    if !model.is_crew(count) {
        return Err(refusal::CREW);
    }
    let records = Rest(text).file()?;
    if orders.len() < records.len() {
        return Err(refusal::SHORT_LIST);
    }
    let workers = (0..count as u32).cycle();
    for ((place, &(label, price)), worker) in orders.iter_mut().zip(&records).zip(workers) {
        *place = Order {
            worker,
            label,
            price,
        };
    }
    Ok(records.len())
}

/// What is left of a text. Each production of the RFC takes its bytes from the
/// front; None where they break it.
struct Rest<'a>(&'a [u8]);

impl<'a> Rest<'a> {
    /// file = record *(CRLF record) [CRLF], to the end of the text. The earliest
    /// record that breaks the grammar, or has a field that isn't a number,
    /// decides.
    fn file(mut self) -> Result<Vec<(u32, u32)>, u8> {
        let mut records = Vec::new();
        loop {
            let (label, price) = self.record().ok_or(refusal::BAD_RECORD)?;
            let number = |field| read_number(field).ok_or(refusal::BAD_FIELD);
            records.push((number(label)?, number(price)?));
            if self.0.is_empty() {
                return Ok(records);
            }
        }
    }

    /// record = field COMMA field, and behind it CRLF or the end of the text.
    fn record(&mut self) -> Option<(&'a [u8], &'a [u8])> {
        let label = self.field()?;
        self.0 = self.0.strip_prefix(&[COMMA])?;
        let price = self.field()?;
        if !self.0.is_empty() {
            self.0 = self.0.strip_prefix(&[CR, LF])?;
        }
        Some((label, price))
    }

    /// field = (escaped / non-escaped)
    fn field(&mut self) -> Option<&'a [u8]> {
        match self.0.strip_prefix(&[DQUOTE]) {
            Some(quoted) => self.escaped(quoted),
            None => Some(self.non_escaped()),
        }
    }

    /// escaped = DQUOTE *(TEXTDATA / COMMA / CR / LF / 2DQUOTE) DQUOTE, `quoted`
    /// being the text behind the first DQUOTE. Gives what stands between the
    /// outer ones; a doubled one is left so, since it is in no number.
    fn escaped(&mut self, quoted: &'a [u8]) -> Option<&'a [u8]> {
        let mut at = 0;
        loop {
            match quoted[at..] {
                [DQUOTE, DQUOTE, ..] => at += 2,
                [DQUOTE, ..] => {
                    self.0 = &quoted[at + 1..];
                    return Some(&quoted[..at]);
                }
                [COMMA | CR | LF, ..] => at += 1,
                [byte, ..] if is_textdata(byte) => at += 1,
                _ => return None,
            }
        }
    }

    /// non-escaped = *TEXTDATA
    fn non_escaped(&mut self) -> &'a [u8] {
        let end = self.0.iter().position(|&byte| !is_textdata(byte));
        let (field, rest) = self.0.split_at(end.unwrap_or(self.0.len()));
        self.0 = rest;
        field
    }
}

//! The ACK, written from finding records, or as the findings come where there is no table.

use crate::book::Book;
use crate::cutting::{Delimiters, Fields, Message, Refusal};
use crate::findings::{self, Finding, Place};
use crate::records::{self, Record};
use crate::refusals::{expect_stamp, Accepted, Answerable};
use std::convert::Infallible;
use std::ops::ControlFlow::Continue;

/// Number 0 and the length of the ACK, which lists the first `count` records, or a refusal that leaves `out` as it is: 1
/// to 6, 13, 10 or 11.
pub fn write(m: &[u8], table: &[Record], count: u32, stamp: &[u8], control: u32, out: &mut [u8]) -> (u8, u64) {
    told(Ack::listing(m, table, count, stamp, control), out)
}

/// What the relay does: the message is graded into the lent table, and what was found there is written.
pub fn relay(m: &[u8], book: &[u8], stamp: &[u8], control: u32, table: &mut [Record], out: &mut [u8]) -> (u8, u64) {
    match records::grade(m, book, table) {
        (0, count) => write(m, table, count as u32, stamp, control, out),
        refusal => refusal,
    }
}

/// The call that A2 gives up, by its definition: refusals 1 to 11 or the ACK, without a table. Grading and then writing is
/// held against it, and no program asks it.
pub fn answer(m: &[u8], book: &[u8], stamp: &[u8], control: u32, out: &mut [u8]) -> (u8, u64) {
    told(Ack::of(m, &Book::read(book), stamp, control, out.len() as u64), out)
}

fn told(ack: Result<Ack, Refusal>, out: &mut [u8]) -> (u8, u64) {
    match ack.and_then(|ack| join(&[ack], out)) {
        Ok(length) => (0, length),
        Err(refusal) => refusal,
    }
}

/// The length of the ACKs, which then stand one after the other in the first bytes of `out`, or refusal 11.
pub fn join(acks: &[Ack], out: &mut [u8]) -> Result<u64, Refusal> {
    let length = acks.iter().map(|ack| ack.length).sum();
    if length > out.len() as u64 {
        return Err((11, length));
    }
    let mut rest = out;
    for ack in acks {
        let (own, later) = rest.split_at_mut(ack.length as usize);
        ack.write(own);
        rest = later;
    }
    Ok(length)
}

/// An ACK that is ready to be written.
pub struct Ack<'a> {
    pub length: u64,
    head: Head<'a>,
    code: &'static str,
    findings: Vec<Finding>,
}

impl<'a> Ack<'a> {
    /// The ACK that lists the first so many records. What they say is not compared with the message.
    fn listing(m: &'a [u8], table: &[Record], count: u32, stamp: &'a [u8], control: u32) -> Result<Self, Refusal> {
        let Answerable { message, header } = Answerable::of(m)?;
        let counted = table.get(..count as usize).ok_or((13, 0))?;
        let findings: Option<Vec<Finding>> = counted.iter().map(Record::finding).collect();
        let findings = findings.ok_or((13, 0))?;
        expect_stamp(stamp)?;
        let head = Head::new(message, &header, stamp, control);
        let mut length = Length(0);
        head.write("AA", &mut length);
        findings.iter().for_each(|finding| write_err(finding, &mut length));
        let rejected = findings.iter().any(|finding| matches!(finding.code, 200..=203));
        let grave = findings.iter().any(|finding| finding.severity.is_grave());
        Ok(Ack { length: length.0, head, code: verdict(rejected, grave), findings })
    }

    /// The ACK of a message that meets none of refusals 1 to 10. It can be written where it fits into `room`;
    /// otherwise only its length is of use.
    pub fn of(
        m: &'a [u8],
        book: &Result<Book, Refusal>,
        stamp: &'a [u8],
        control: u32,
        room: u64,
    ) -> Result<Self, Refusal> {
        let Accepted { message, header, section } = Accepted::stamped(m, book, stamp)?;
        let head = Head::new(message, &header, stamp, control);
        let mut length = Length(0);
        head.write("AA", &mut length);
        // Findings are kept while they still fit; those of an ACK that is too long are only measured.
        let mut kept: Vec<Finding> = Vec::new();
        let mut grave = false;
        let Continue(rejected) = findings::grade(message, &header, &section, |finding| {
            grave |= finding.severity.is_grave();
            write_err(&finding, &mut length);
            if length.0 <= room {
                kept.push(finding);
            }
            Continue::<Infallible>(())
        });
        Ok(Ack { length: length.0, head, code: verdict(rejected, grave), findings: kept })
    }

    fn write(&self, out: &mut [u8]) {
        let mut output = Output { out, written: 0, own: self.head.message.own };
        self.head.write(self.code, &mut output);
        for finding in &self.findings {
            write_err(finding, &mut output);
        }
    }
}

/// MSA-1.
fn verdict(rejected: bool, grave: bool) -> &'static str {
    match (rejected, grave) {
        (true, _) => "AR",
        (false, true) => "AE",
        (false, false) => "AA",
    }
}

/// What the ACK's layout is written to: the output, or a mere count of its bytes.
trait Sink {
    fn bytes(&mut self, bytes: &[u8]);
    /// A text in which a bar and a caret stand for the message's own.
    fn layout(&mut self, text: &[u8]);
    fn number(&mut self, number: u32);
}

struct Length(u64);

impl Sink for Length {
    fn bytes(&mut self, bytes: &[u8]) {
        self.0 += bytes.len() as u64;
    }

    fn layout(&mut self, text: &[u8]) {
        self.bytes(text);
    }

    fn number(&mut self, number: u32) {
        self.0 += u64::from(number.checked_ilog10().unwrap_or(0)) + 1;
    }
}

struct Output<'o> {
    out: &'o mut [u8],
    written: usize,
    own: Delimiters,
}

impl Sink for Output<'_> {
    fn bytes(&mut self, bytes: &[u8]) {
        self.out[self.written..self.written + bytes.len()].copy_from_slice(bytes);
        self.written += bytes.len();
    }

    fn layout(&mut self, text: &[u8]) {
        let start = self.written;
        self.bytes(text);
        for b in &mut self.out[start..self.written] {
            *b = match *b {
                b'|' => self.own.bar,
                b'^' => self.own.caret,
                other => other,
            };
        }
    }

    fn number(&mut self, number: u32) {
        let mut digits = [0; 10];
        let mut first = digits.len();
        let mut rest = number;
        loop {
            first -= 1;
            digits[first] = b'0' + (rest % 10) as u8;
            rest /= 10;
            if rest == 0 {
                break;
            }
        }
        self.bytes(&digits[first..]);
    }
}

/// What MSH and MSA of the ACK are made of.
struct Head<'a> {
    message: Message<'a>,
    stamp: &'a [u8],
    control: u32,
    /// MSH-5, 6, 3 and 4.
    parties: [&'a [u8]; 4],
    processing: &'a [u8],
    control_id: &'a [u8],
}

impl<'a> Head<'a> {
    fn new(message: Message<'a>, header: &Fields, stamp: &'a [u8], control: u32) -> Self {
        let field = |field| message.text(header.field(field));
        let parties = [5, 6, 3, 4].map(field);
        Head { message, stamp, control, parties, processing: field(11), control_id: field(10) }
    }

    fn write(&self, code: &str, sink: &mut impl Sink) {
        sink.bytes(self.message.beginning());
        for party in self.parties {
            sink.bytes(party);
            sink.layout(b"|");
        }
        sink.bytes(self.stamp);
        sink.layout(b"||ACK^V04^ACK|");
        sink.number(self.control);
        sink.layout(b"|");
        sink.bytes(self.processing);
        sink.layout(b"|2.5.1|||NE|NE|||||Z23^CDCPHINVS\rMSA|");
        sink.bytes(code.as_bytes());
        sink.layout(b"|");
        sink.bytes(self.control_id);
        sink.bytes(b"\r");
    }
}

fn write_err(finding: &Finding, sink: &mut impl Sink) {
    sink.layout(b"ERR||");
    match finding.place {
        Place::End => {}
        Place::Segment { name, number } => {
            sink.bytes(name.bytes());
            caret_number(number, sink);
        }
        Place::Value { name, number, field, repetition, component } => {
            sink.bytes(name.bytes());
            caret_number(number, sink);
            caret_number(field.into(), sink);
            caret_number(repetition, sink);
            if component != 0 {
                caret_number(component.into(), sink);
            }
        }
    }
    sink.layout(b"|");
    sink.number(finding.code.into());
    sink.layout(b"^");
    sink.bytes(findings::code_text(finding.code));
    sink.layout(b"^HL70357|");
    sink.bytes(finding.severity.letter());
    sink.layout(b"|");
    sink.number(finding.rule.into());
    sink.layout(b"^^L\r");
}

fn caret_number(number: u32, sink: &mut impl Sink) {
    sink.layout(b"^");
    sink.number(number);
}

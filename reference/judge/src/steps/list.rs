//! Steps and their bytes: "A step is one byte, 1 to 6 in that order, then
//! its numbers as in the image, kind before span; for a text its width, four
//! bytes of length, the text."

/// One step. A text need not be UTF-8: that is for the writer to test.
#[derive(Clone, Debug, PartialEq, Eq)]
pub enum Step {
    Comment { start: u32, end: u32 },
    Open { kind: u8, start: u32, end: u32 },
    Text { width: u16, text: Vec<u8> },
    Payload(u8),
    Absent,
    Close,
}

impl Step {
    /// Its bytes.
    pub fn bytes(&self) -> Vec<u8> {
        let mut out = Vec::new();
        self.put(&mut out);
        out
    }

    fn put(&self, out: &mut Vec<u8>) {
        match self {
            Step::Comment { start, end } => {
                out.push(1);
                out.extend(start.to_be_bytes());
                out.extend(end.to_be_bytes());
            }
            Step::Open { kind, start, end } => {
                out.extend([2, *kind]);
                out.extend(start.to_be_bytes());
                out.extend(end.to_be_bytes());
            }
            Step::Text { width, text } => {
                let length = u32::try_from(text.len()).expect("four bytes");
                out.push(3);
                out.extend(width.to_be_bytes());
                out.extend(length.to_be_bytes());
                out.extend(text);
            }
            Step::Payload(byte) => out.extend([4, *byte]),
            Step::Absent => out.push(5),
            Step::Close => out.push(6),
        }
    }

    /// The step at the front of these bytes and how many it takes, if it is
    /// whole.
    pub fn first(bytes: &[u8]) -> Result<(Step, usize), Unread> {
        let mut rest = Rest(bytes);
        let step = match rest.byte()? {
            1 => Step::Comment {
                start: rest.four()?,
                end: rest.four()?,
            },
            2 => Step::Open {
                kind: rest.byte()?,
                start: rest.four()?,
                end: rest.four()?,
            },
            3 => {
                let width = u16::from_be_bytes(rest.take()?);
                let length = rest.four()?;
                let text = rest.bytes(length as usize)?.to_vec();
                Step::Text { width, text }
            }
            4 => Step::Payload(rest.byte()?),
            5 => Step::Absent,
            6 => Step::Close,
            _ => return Err(Unread::Unknown),
        };
        Ok((step, bytes.len() - rest.0.len()))
    }
}

/// Why no step stands at the front.
#[derive(Clone, Copy, Debug, PartialEq, Eq)]
pub enum Unread {
    /// Its first byte isn't 1 to 6.
    Unknown,
    /// The bytes end within it.
    CutOff,
}

/// Bytes still to be read.
struct Rest<'b>(&'b [u8]);

impl<'b> Rest<'b> {
    fn bytes(&mut self, count: usize) -> Result<&'b [u8], Unread> {
        let parts = self.0.split_at_checked(count);
        let (front, rest) = parts.ok_or(Unread::CutOff)?;
        self.0 = rest;
        Ok(front)
    }

    fn take<const N: usize>(&mut self) -> Result<[u8; N], Unread> {
        Ok(self.bytes(N)?.try_into().expect("so many"))
    }

    fn byte(&mut self) -> Result<u8, Unread> {
        Ok(self.take::<1>()?[0])
    }

    fn four(&mut self) -> Result<u32, Unread> {
        Ok(u32::from_be_bytes(self.take()?))
    }
}

/// The bytes of steps, one after the other.
pub fn joined(steps: &[Step]) -> Vec<u8> {
    let mut out = Vec::new();
    for step in steps {
        step.put(&mut out);
    }
    out
}

/// The whole steps at the front of a list.
pub fn split(list: &[u8]) -> Vec<Step> {
    let mut steps = Vec::new();
    let mut rest = list;
    while let Ok((step, length)) = Step::first(rest) {
        steps.push(step);
        rest = &rest[length..];
    }
    steps
}

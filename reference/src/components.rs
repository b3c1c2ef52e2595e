//! Components read (01, Coding and the syntax rules of Invocation states).

use crate::coding::{self, Frame};
use crate::pieces::Pieces;
use crate::problems::Problem;
use std::ops::Range;

#[derive(Clone, Copy, PartialEq, Debug)]
pub enum Kind {
    Invoke = 0xA1,
    ResultLast = 0xA2,
    Error = 0xA3,
    Reject = 0xA4,
    ResultNotLast = 0xA7,
}

/// A sound component: where it lies, and its pieces. Its parameter is an empty run where it has none.
pub struct Component {
    pub kind: Kind,
    pub run: Range<usize>,
    pub id: Option<i8>,
    pub linked: Option<i8>,
    pub problem: Option<Problem>,
    pub parameter: Range<usize>,
}

/// A component with a syntax fault: the general code, what can be relied on, and where it lies (0..0 without a frame).
pub struct Faulty {
    pub code: u8,
    pub kind: Option<Kind>,
    pub run: Range<usize>,
    pub id: Option<i8>,
    pub names_invoke_problem: bool,
}

const UNRECOGNISED: u8 = 0;
const MISTYPED: u8 = 1;
const BADLY_STRUCTURED: u8 = 2;

impl Kind {
    pub fn of(tag: u8) -> Option<Kind> {
        use Kind::*;
        [Invoke, ResultLast, Error, Reject, ResultNotLast].into_iter().find(|kind| *kind as u8 == tag)
    }
}

impl Faulty {
    /// A component whose end is not found, or an empty 6C (which has no kind).
    pub fn without_frame(kind: Option<Kind>) -> Faulty {
        Faulty { code: BADLY_STRUCTURED, kind, run: 0..0, id: None, names_invoke_problem: false }
    }

    fn framed(octets: &[u8], frame: &Frame, code: u8) -> Faulty {
        let tag = octets[frame.whole.start];
        let contents = &octets[frame.contents.clone()];
        let id = match contents {
            [0x02, 0x01, id, ..] if coding::is_constructor(tag) => Some(*id as i8),
            _ => None,
        };
        Faulty {
            code,
            kind: Kind::of(tag),
            run: frame.whole.clone(),
            id,
            names_invoke_problem: id.is_some() && contents.get(3) == Some(&0x81),
        }
    }
}

/// The component at a position; the octets end where their 6C does.
pub fn read(octets: &[u8], at: usize) -> Result<Component, Faulty> {
    let Some(frame) = coding::frame(octets, at, 1) else {
        return Err(Faulty::without_frame(Kind::of(octets[at])));
    };
    let faulty = |code| Faulty::framed(octets, &frame, code);
    let kind = Kind::of(octets[at]).ok_or_else(|| faulty(UNRECOGNISED))?;
    if !coding::are_elements(octets, &frame.contents, 2) {
        return Err(faulty(BADLY_STRUCTURED));
    }
    let parts = Pieces::of(octets, &frame.contents).parts(kind).ok_or_else(|| faulty(MISTYPED))?;
    Ok(Component {
        kind,
        run: frame.whole.clone(),
        id: parts.id,
        linked: parts.linked,
        problem: parts.problem,
        parameter: parts.parameter,
    })
}

/// The components of a 6C one after another, up to a syntax fault.
pub fn read_all(octets: &[u8], contents: &Range<usize>) -> Vec<Result<Component, Faulty>> {
    if contents.is_empty() {
        return vec![Err(Faulty::without_frame(None))];
    }
    let octets = &octets[..contents.end];
    let mut at = contents.start;
    let mut readings = Vec::new();
    while at < contents.end {
        let reading = read(octets, at);
        at = reading.as_ref().map_or(contents.end, |component| component.run.end);
        readings.push(reading);
    }
    readings
}

/// The parameter of the component that is the given run; an empty run where there is none or no sound component.
pub fn parameter(octets: &[u8], start: usize, length: usize) -> Range<usize> {
    let Some(end) = start.checked_add(length).filter(|end| length > 0 && *end <= octets.len()) else {
        return 0..0;
    };
    match read(&octets[..end], start) {
        Ok(component) if component.run.end == end => component.parameter,
        _ => 0..0,
    }
}

/// Whether octets are whole sound components one after another; each is shown to a test.
pub fn all_sound(octets: &[u8], test: impl Fn(&Component) -> bool) -> bool {
    let mut at = 0;
    while at < octets.len() {
        match read(octets, at) {
            Ok(component) if test(&component) => at = component.run.end,
            _ => return false,
        }
    }
    true
}

/// Whether octets are an operation or an error: 02 with 1 to 4 octets, or 06 with at least 1.
pub fn is_code(octets: &[u8]) -> bool {
    coding::is_element(octets, 2) && Pieces::of(octets, &(0..octets.len())).code().is_some()
}

#[derive(Default)]
struct Parts {
    id: Option<i8>,
    linked: Option<i8>,
    problem: Option<Problem>,
    parameter: Range<usize>,
}

impl Pieces<'_> {
    fn id(&mut self, tag: u8) -> Option<i8> {
        self.octet(tag).map(|octet| octet as i8)
    }

    /// An operation or an error.
    fn code(&mut self) -> Option<()> {
        let tag = self.next_tag()?;
        let length = self.take()?.contents.len();
        let sound = match tag {
            0x02 => (1..=4).contains(&length),
            0x06 => length >= 1,
            _ => false,
        };
        sound.then_some(())
    }

    fn optional_parameter(&mut self) -> Range<usize> {
        self.take().map_or(0..0, |frame| frame.whole)
    }

    fn parts(mut self, kind: Kind) -> Option<Parts> {
        let parts = match kind {
            Kind::Invoke => self.invoke(),
            Kind::ResultLast | Kind::ResultNotLast => self.result(),
            Kind::Error => self.error(),
            Kind::Reject => self.reject(),
        }?;
        self.finished().then_some(parts)
    }

    fn invoke(&mut self) -> Option<Parts> {
        let id = Some(self.id(0x02)?);
        let linked = match self.next_tag() {
            Some(0x80) => Some(self.id(0x80)?),
            _ => None,
        };
        self.code()?;
        Some(Parts { id, linked, parameter: self.optional_parameter(), ..Parts::default() })
    }

    fn result(&mut self) -> Option<Parts> {
        let id = Some(self.id(0x02)?);
        if self.finished() {
            return Some(Parts { id, ..Parts::default() });
        }
        let mut inner = self.inside(0x30)?;
        inner.code()?;
        let parameter = inner.take()?.whole;
        inner.finished().then_some(Parts { id, parameter, ..Parts::default() })
    }

    fn error(&mut self) -> Option<Parts> {
        let id = Some(self.id(0x02)?);
        self.code()?;
        Some(Parts { id, parameter: self.optional_parameter(), ..Parts::default() })
    }

    fn reject(&mut self) -> Option<Parts> {
        let id = match self.take_tagged(0x05) {
            Some(none) if none.contents.is_empty() => None,
            Some(_) => return None,
            None => Some(self.id(0x02)?),
        };
        let kind = self.next_tag()?.checked_sub(0x80)?;
        let problem = Problem { kind, code: self.octet(kind + 0x80)? };
        problem.sender()?;
        Some(Parts { id, problem: Some(problem), ..Parts::default() })
    }
}

//! The format of vectors: calls read and written, and what they give (vectors/README.md).

use crate::calls::{self, Call, Reply, Request};
use crate::components::{self, Component};
use crate::given::Given;
use crate::portion;
use crate::reader;
use crate::requests::Answer;
use crate::rows;
use crate::shares::SERVICES;
use crate::table::Table;
use std::fmt;

/// One line with a call: on the table, or of a reader.
pub enum Line {
    Call(Call),
    Parameter { octets: Vec<u8>, start: usize, length: usize },
    Components { octets: Vec<u8> },
    Portion { octets: Vec<u8>, start: u64, length: u64 },
}

/// Whether a line of a vector is one that its player computes.
pub fn is_expectation(line: &str) -> bool {
    matches!(line.split(' ').next(), Some("=" | "r" | "c"))
}

/// Makes the call and writes what it gives, one line after another.
pub fn expectation(table: &mut Table, line: &Line) -> String {
    match line {
        Line::Call(call) => answer_text(&calls::call(table, call)),
        Line::Parameter { octets, start, length } => {
            let run = components::parameter(octets, *start, *length);
            format!("= {} {} {}\n", run.start, run.len(), hex(&octets[run.clone()]))
        }
        Line::Components { octets } => {
            let components = reader::components(octets);
            let lines: String = components.iter().map(component_line).collect();
            format!("= {}\n{lines}", components.len())
        }
        Line::Portion { octets, start, length } => {
            format!("={}\n", numbers_text(&portion::read(octets, *start, *length).numbers()))
        }
    }
}

/// What a call on the table gave.
pub fn answer_text(answer: &Answer) -> String {
    match answer {
        Ok(reply) => reply_text(reply),
        Err(answer) => format!("= {answer} - - 0\n"),
    }
}

fn reply_text(reply: &Reply) -> String {
    let dialogue = reply.dialogue.map_or("-".to_string(), |local_id| format!("{local_id:08X}"));
    let mut text = format!("= 0 {dialogue} {} {}\n", hex(&reply.message), reply.rows.len());
    for row in &reply.rows {
        text += &format!("r{}\n", numbers_text(&row.numbers()));
    }
    text
}

fn numbers_text(numbers: &[u32; 8]) -> String {
    numbers.iter().map(|number| format!(" {number}")).collect()
}

fn component_line(component: &Component) -> String {
    let id = rows::id_number(component.id);
    let linked = rows::id_number(component.linked);
    let problem = rows::problem_number(component.problem.map(|problem| problem.number()));
    let (run, parameter) = (&component.run, &component.parameter);
    format!(
        "c {:02X} {} {} {id} {linked} {problem} {} {}\n",
        component.kind as u8,
        run.start,
        run.len(),
        parameter.start,
        parameter.len()
    )
}

fn hex(octets: &[u8]) -> String {
    if octets.is_empty() {
        return "-".to_string();
    }
    octets.iter().map(|octet| format!("{octet:02X}")).collect()
}

impl fmt::Display for Line {
    fn fmt(&self, out: &mut fmt::Formatter) -> fmt::Result {
        match self {
            Line::Call(Call::Fresh { guarantees, limits }) => {
                write!(out, "fresh {} {}", sixteen_text(guarantees), sixteen_text(limits))
            }
            Line::Call(Call::Open { service }) => write!(out, "open {service}"),
            Line::Call(Call::Receive { service, octets }) => write!(out, "recv {service} {}", hex(octets)),
            Line::Call(Call::OnDialogue { service, local_id, request }) => {
                let (verb, rest) = request_text(request);
                write!(out, "{verb} {service} {local_id:08X}{rest}")
            }
            Line::Parameter { octets, start, length } => write!(out, "parameter {} {start} {length}", hex(octets)),
            Line::Components { octets } => write!(out, "components {}", hex(octets)),
            Line::Portion { octets, start, length } => write!(out, "portion {} {start} {length}", hex(octets)),
        }
    }
}

fn sixteen_text(numbers: &[u32; SERVICES]) -> String {
    numbers.map(|number| number.to_string()).join(",")
}

/// The verb of a request, and what follows its dialogue.
fn request_text(request: &Request) -> (&'static str, String) {
    match request {
        Request::Invoke { id, linked, class, operation, parameter } => {
            let linked = linked.map_or("-".to_string(), |linked| linked.to_string());
            ("invoke", format!(" {id} {linked} {class} {} {}", hex(operation), hex(parameter)))
        }
        Request::Result { id, last, operation, parameter } => {
            let which = if *last { "L" } else { "N" };
            ("result", format!(" {id} {which} {} {}", hex(operation), hex(parameter)))
        }
        Request::Error { id, error, parameter } => ("error", format!(" {id} {} {}", hex(error), hex(parameter))),
        Request::Reject { id, problem } => ("reject", format!(" {id} {problem}")),
        Request::Cancel { id } => ("cancel", format!(" {id}")),
        Request::Timeout { id } => ("timeout", format!(" {id}")),
        Request::RejectTimeout { id } => ("rejtimeout", format!(" {id}")),
        Request::Abort { portion } => ("abort", format!(" {}", hex(portion))),
        Request::Begin(given) => ("begin", given_text(given)),
        Request::Continue(given) => ("continue", given_text(given)),
        Request::End(given) => ("end", given_text(given)),
        Request::Prearranged => ("prearranged", String::new()),
        Request::Unidirectional(given) => ("uni", given_text(given)),
        Request::NoReaction => ("noreaction", String::new()),
    }
}

fn given_text(given: &Given) -> String {
    format!(" {} {}", hex(&given.name), hex(&given.information))
}

/// The call of a line; none where it is not of the format.
pub fn parse(line: &str) -> Option<Line> {
    let mut fields = Fields(line.split(' '));
    let parsed = match fields.text()? {
        "parameter" => Line::Parameter { octets: fields.octets()?, start: fields.number()?, length: fields.number()? },
        "components" => Line::Components { octets: fields.octets()? },
        "portion" => Line::Portion { octets: fields.octets()?, start: fields.number()?, length: fields.number()? },
        verb => Line::Call(fields.call(verb)?),
    };
    fields.0.next().is_none().then_some(parsed)
}

/// The fields of a line, taken one after another.
struct Fields<'a>(std::str::Split<'a, char>);

impl<'a> Fields<'a> {
    fn text(&mut self) -> Option<&'a str> {
        self.0.next()
    }

    fn number<N: std::str::FromStr>(&mut self) -> Option<N> {
        self.text()?.parse().ok()
    }

    fn local_id(&mut self) -> Option<u32> {
        self.text().filter(|text| text.len() == 8).and_then(|text| u32::from_str_radix(text, 16).ok())
    }

    fn linked(&mut self) -> Option<Option<i8>> {
        match self.text()? {
            "-" => Some(None),
            text => text.parse().ok().map(Some),
        }
    }

    fn octets(&mut self) -> Option<Vec<u8>> {
        match self.text()? {
            "-" => Some(Vec::new()),
            text => octets_of(text),
        }
    }

    fn sixteen(&mut self) -> Option<[u32; SERVICES]> {
        let numbers: Option<Vec<u32>> = self.text()?.split(',').map(|number| number.parse().ok()).collect();
        numbers?.try_into().ok()
    }

    fn last(&mut self) -> Option<bool> {
        match self.text()? {
            "L" => Some(true),
            "N" => Some(false),
            _ => None,
        }
    }

    fn call(&mut self, verb: &str) -> Option<Call> {
        Some(match verb {
            "fresh" => Call::Fresh { guarantees: self.sixteen()?, limits: self.sixteen()? },
            "open" => Call::Open { service: self.number()? },
            "recv" => Call::Receive { service: self.number()?, octets: self.octets()? },
            verb => {
                Call::OnDialogue { service: self.number()?, local_id: self.local_id()?, request: self.request(verb)? }
            }
        })
    }

    fn given(&mut self) -> Option<Given> {
        Some(Given { name: self.octets()?, information: self.octets()? })
    }

    fn request(&mut self, verb: &str) -> Option<Request> {
        Some(match verb {
            "invoke" => Request::Invoke {
                id: self.number()?,
                linked: self.linked()?,
                class: self.number()?,
                operation: self.octets()?,
                parameter: self.octets()?,
            },
            "result" => Request::Result {
                id: self.number()?,
                last: self.last()?,
                operation: self.octets()?,
                parameter: self.octets()?,
            },
            "error" => Request::Error { id: self.number()?, error: self.octets()?, parameter: self.octets()? },
            "reject" => Request::Reject { id: self.number()?, problem: self.number()? },
            "cancel" => Request::Cancel { id: self.number()? },
            "timeout" => Request::Timeout { id: self.number()? },
            "rejtimeout" => Request::RejectTimeout { id: self.number()? },
            "abort" => Request::Abort { portion: self.octets()? },
            "begin" => Request::Begin(self.given()?),
            "continue" => Request::Continue(self.given()?),
            "end" => Request::End(self.given()?),
            "prearranged" => Request::Prearranged,
            "uni" => Request::Unidirectional(self.given()?),
            "noreaction" => Request::NoReaction,
            _ => return None,
        })
    }
}

fn octets_of(hex: &str) -> Option<Vec<u8>> {
    if hex.len() % 2 == 1 || !hex.is_ascii() {
        return None;
    }
    (0..hex.len()).step_by(2).map(|at| u8::from_str_radix(&hex[at..at + 2], 16).ok()).collect()
}

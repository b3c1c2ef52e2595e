//! The reader that gives a message's components one after another up to a syntax fault (01, Rows).

use crate::calls;
use crate::components::{self, Component};
use crate::message::{self, Reading};

/// The sound components; none where the message is refused, dropped for its form or at fault. It looks at no table.
pub fn components(octets: &[u8]) -> Vec<Component> {
    if !calls::has_message_size(octets) {
        return Vec::new();
    }
    match message::read(octets) {
        Reading::Sound(message) => {
            let readings = message.components.map_or(Vec::new(), |run| components::read_all(octets, &run));
            readings.into_iter().filter_map(Result::ok).collect()
        }
        Reading::Dropped | Reading::Faulty(_) => Vec::new(),
    }
}

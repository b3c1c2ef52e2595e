//! Cancel, and the timers as events from the host (01, Dialogue states and Invocation states).

use crate::calls::{refuse_unless, Reply, WRONG_ID, WRONG_STATE};
use crate::dialogue;
use crate::invocations::State;
use crate::requests::{Answer, Held};
use crate::rows::Row;

impl Held<'_> {
    /// To Idle, from the one state that the event needs.
    fn release(&mut self, id: i8, state: State) -> Result<(), u8> {
        refuse_unless(self.dialogue.invocations.is_in(id, state), WRONG_ID)?;
        self.dialogue.invocations.release(id);
        Ok(())
    }

    pub fn cancel(mut self, id: i8) -> Answer {
        self.release(id, State::Sent)?;
        Ok(self.kept(Vec::new()))
    }

    /// L-CANCEL, but in class 4.
    pub fn timeout(mut self, id: i8) -> Answer {
        let tells = self.dialogue.invocations.find(id).is_some_and(|invocation| invocation.class != 4);
        self.release(id, State::Sent)?;
        let row = tells.then(|| Row::l_cancel(self.local_id, id));
        Ok(Reply { rows: row.into_iter().collect(), ..self.kept(Vec::new()) })
    }

    pub fn reject_timeout(mut self, id: i8) -> Answer {
        self.release(id, State::Wait)?;
        Ok(self.kept(Vec::new()))
    }

    pub fn no_reaction(self) -> Answer {
        refuse_unless(self.dialogue.state == dialogue::State::Sent, WRONG_STATE)?;
        let row = Row::p_abort(self.local_id, None);
        Ok(Reply { rows: vec![row], ..self.freed(Vec::new()) })
    }
}

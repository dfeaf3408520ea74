//! A run of calls on a model that nobody else touches in between.

use crate::answer::{Refusal, Reply};
use crate::call::Call;
use crate::gauge::Gauge;
use crate::parts::Parts;
use crate::raw::{self, Answer, Known, Request};

/// A run of calls on a model, begun by [`Model::run`](crate::Model::run). It has
/// the model to itself until it ends.
///
/// Every answer, and all that is stored after it, is what single calls of
/// [`Model::ask`](crate::Model::ask) give; this is proved. So if something stored
/// is out of range, every call is [`Refusal::OutOfRange`] here too, up to a reset.
#[derive(Debug)]
pub struct Run<'a> {
    lent: &'a mut Parts,
    known: Known,
}

impl<'a> Run<'a> {
    pub(crate) fn begin(lent: &'a mut Parts) -> Run<'a> {
        let known = raw::begin(lent);
        Run { lent, known }
    }

    /// Asks the run's next call, any call.
    pub fn ask(&mut self, call: &Call) -> Result<Reply, Refusal> {
        self.ask_raw(call.into()).reply(call)
    }

    /// Asks the run's next call in the library's own numbers.
    pub fn ask_raw(&mut self, request: Request) -> Answer {
        let next = raw::next(self.lent, self.known, request);
        self.known = next.known;
        // At once: however the run ends, the model's gauge is right.
        self.lent.gauge = next.known.gauge;
        next.answer
    }

    /// The gauge after the last accepted call.
    pub fn gauge(&self) -> Gauge {
        self.known.gauge
    }

    /// Ends the run, as a drop does. The model may then be asked by itself again,
    /// and has the run's gauge.
    pub fn end(self) {}
}

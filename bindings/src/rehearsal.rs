//! A plan of calls, tried on a clone.

use std::error::Error;
use std::fmt::{self, Display, Formatter};

use crate::answer::{Refusal, Reply};
use crate::call::Call;
use crate::model::Model;

/// What a plan comes to if every call of it is accepted.
#[non_exhaustive]
#[derive(Clone, Debug, PartialEq)]
pub struct Rehearsal {
    /// The clone, after the last call. Whoever carries the plan out adopts it.
    pub model: Model,
    /// What each call answers.
    pub replies: Vec<Reply>,
}

/// The first call of a plan that is refused.
#[non_exhaustive]
#[derive(Clone, Copy, Debug, PartialEq)]
pub struct Refused {
    /// Which call of the plan it is, from 0 on.
    pub index: usize,
    /// The call.
    pub call: Call,
    /// Why it is refused.
    pub refusal: Refusal,
}

impl Refused {
    /// The line of the call, if the plan is a script: lines begin with 1.
    pub fn line(&self) -> usize {
        self.index + 1
    }
}

impl Display for Refused {
    fn fmt(&self, f: &mut Formatter<'_>) -> fmt::Result {
        let (line, number) = (self.line(), self.refusal.number());
        write!(f, "line {line} answer {number}: {}", self.refusal)
    }
}

impl Error for Refused {}

impl Model {
    /// Asks a plan of a clone, call by call, up to the first that is refused. The
    /// model itself stays as it is. The plan is one [`Run`](crate::Run), so all
    /// that is stored is checked once, however long the plan is.
    ///
    /// ```
    /// use reefnettle::{Call, Hpa, Key, Model, Refusal, Sizes, Window};
    ///
    /// let mut model = Model::fresh(Window::BASE_LEAST, Sizes::PROGRAM)?;
    /// let domain = Window::BASE_LEAST;
    /// let plan = [Call::Create { frame: domain, key: Key(32) }, Call::KeyConfig { domain }];
    /// let rehearsal = model.rehearse(&plan).unwrap();
    /// assert_eq!(rehearsal.model.gauge().fill, 1.0 / 1024.0);
    /// assert_eq!(model.gauge().fill, 0.0); // not touched
    /// model = rehearsal.model; // adopted
    ///
    /// let refused = model.rehearse(&plan).unwrap_err();
    /// assert_eq!((refused.index, refused.refusal), (0, Refusal::WrongFrame));
    /// # Ok::<(), Refusal>(())
    /// ```
    pub fn rehearse<'a>(
        &self,
        plan: impl IntoIterator<Item = &'a Call>,
    ) -> Result<Rehearsal, Refused> {
        let mut model = self.clone();
        let mut run = model.run();
        let ask = |(index, call): (usize, &Call)| {
            run.ask(call).map_err(|refusal| Refused {
                index,
                call: *call,
                refusal,
            })
        };
        let replies = plan
            .into_iter()
            .enumerate()
            .map(ask)
            .collect::<Result<_, _>>()?;
        Ok(Rehearsal { model, replies })
    }
}

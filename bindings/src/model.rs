//! The model: buffers of its own, and a method for each call.

use crate::answer::{Entry, Page, Refusal, Reply};
use crate::call::Call;
use crate::gauge::Gauge;
use crate::parts::Parts;
use crate::raw::{self, Answer, Request};
use crate::run::Run;
use crate::sizes::Sizes;
use crate::units::{Gpa, Hpa, Key, Level, Window};

/// The ownership tables and the gauge, with a method for each call.
///
/// In every call `domain` is the address of the domain's TDR, `frame` that of a
/// frame. A domain is live when its keys are configured, it has four control
/// pages, and it is initialized or runnable. A refused call changes nothing. An
/// accepted one, even one that reads, stores the fill and may move the lamp.
///
/// A clone is a model of its own. [`Model::rehearse`] asks a whole plan of one.
/// Many calls in a row cost less in a run, by [`Model::run`].
///
/// ```
/// use reefnettle::{FrameType, Frame, Key, Model, Refusal, Sizes, Window};
///
/// let sizes = Sizes { frames: 1024, records: 4, tables: 12 };
/// let mut model = Model::fresh(Window::BASE_LEAST, sizes)?;
/// let [domain, page] = [0, 1].map(|n| model.window().hpa(Frame(n)).unwrap());
/// model.create(domain, Key(32))?;
/// model.keyconfig(domain)?;
/// model.addcx(domain, page)?;
/// assert_eq!(model.readpage(page)?.kind, FrameType::Tdcx);
/// assert_eq!(model.readpage(page)?.owner, Some(domain));
/// assert_eq!(model.init(domain), Err(Refusal::ControlPages)); // it takes four
/// assert_eq!(model.gauge().fill, 2.0 / 1024.0);
/// # Ok::<(), Refusal>(())
/// ```
#[derive(Clone, Debug, PartialEq)]
pub struct Model {
    lent: Parts,
}

impl Model {
    /// A fresh start: all frames free, all stock unused.
    ///
    /// Frames are a power of two, all sizes from [`Sizes::LEAST`] to
    /// [`Sizes::MOST`], the base a multiple of [`Window::BASE_LEAST`] up to
    /// [`Window::BASE_MOST`]; else [`Refusal::OutOfRange`].
    ///
    /// ```
    /// use reefnettle::{Model, Refusal, Sizes, Window};
    ///
    /// assert!(Model::fresh(Window::BASE_MOST, Sizes::MOST).is_ok());
    /// let uneven = Sizes { frames: 1000, ..Sizes::PROGRAM };
    /// assert_eq!(Model::fresh(Window::BASE_LEAST, uneven), Err(Refusal::OutOfRange));
    /// ```
    pub fn fresh(base: Hpa, sizes: Sizes) -> Result<Model, Refusal> {
        // Nothing is allocated that the library would only refuse.
        if !sizes.allocatable() {
            return Err(Refusal::OutOfRange);
        }
        let mut model = Model::from_parts(Parts {
            base,
            frames: vec![0; sizes.frames_words()],
            domains: vec![0; sizes.domains_words()],
            stock: vec![0; sizes.stock_words()],
            entries: vec![0; sizes.entries_words()],
            gauge: Gauge::FRESH,
        });
        model.reset()?;
        Ok(model)
    }

    /// A model of the tables of a running machine: [`Refusal::OutOfRange`] if the
    /// library finds a length, the base, a stored number or code or a mark out of
    /// range. Tables in range may still contradict one another; then a call that
    /// meets it is refused by [`Refusal::Contradiction`].
    ///
    /// Nothing is changed, the gauge neither: its fill is counted at the next
    /// accepted call.
    ///
    /// ```
    /// use reefnettle::{DomainRecord, Frame, FrameWord, Key, Model, Record, Refusal, Sizes, Window};
    ///
    /// let mut parts = Model::fresh(Window::BASE_LEAST, Sizes::PROGRAM)?.into_parts();
    /// parts.set_frame(Frame(7), FrameWord::tdr(Record(0)))?;
    /// parts.set_record(Record(0), DomainRecord::new(Key(32)))?;
    /// parts.set_record_in_use(Record(0), true)?;
    /// let mut model = Model::import(parts.clone())?;
    /// model.keyconfig(model.window().hpa(Frame(7)).unwrap())?;
    ///
    /// parts.set_record(Record(0), DomainRecord::new(Key(96)))?;
    /// assert_eq!(Model::import(parts), Err(Refusal::OutOfRange)); // no such key
    /// # Ok::<(), Refusal>(())
    /// ```
    pub fn import(parts: Parts) -> Result<Model, Refusal> {
        // What a run checks at its beginning is what answer 13 refuses.
        let known = raw::begin(&parts);
        match known.lent && known.marked {
            true => Ok(Model::from_parts(parts)),
            false => Err(Refusal::OutOfRange),
        }
    }

    /// A model of any contents and any lengths. They aren't judged here, as they
    /// are by [`Model::import`]: each call judges them and refuses what is out of
    /// range.
    ///
    /// ```
    /// use reefnettle::{Model, Refusal, Sizes, Window};
    ///
    /// let mut parts = Model::fresh(Window::BASE_LEAST, Sizes::PROGRAM)?.into_parts();
    /// parts.frames[7] = 5; // there is no type 5
    /// let mut model = Model::from_parts(parts);
    /// assert_eq!(model.readpage(Window::BASE_LEAST), Err(Refusal::OutOfRange));
    /// # Ok::<(), Refusal>(())
    /// ```
    pub fn from_parts(parts: Parts) -> Model {
        Model { lent: parts }
    }

    /// All that is stored, given back.
    pub fn into_parts(self) -> Parts {
        self.lent
    }

    /// All that is stored, to look at: as words, and with types by the functions
    /// of [`Parts`].
    ///
    /// ```
    /// use reefnettle::{Frame, FrameWord, Key, Lifecycle, Model, Record, Sizes, Window};
    ///
    /// let mut model = Model::fresh(Window::BASE_LEAST, Sizes::PROGRAM)?;
    /// model.create(Window::BASE_LEAST, Key(32))?;
    /// assert_eq!(model.parts().frame(Frame(0))?, FrameWord::tdr(Record(0)));
    /// assert_eq!(model.parts().record(Record(0))?.lifecycle, Lifecycle::HkidAssigned);
    /// # Ok::<(), reefnettle::Refusal>(())
    /// ```
    pub fn parts(&self) -> &Parts {
        &self.lent
    }

    /// The gauge after the last accepted call.
    pub fn gauge(&self) -> Gauge {
        self.lent.gauge
    }

    /// The window of frames, which converts between frames and addresses.
    pub fn window(&self) -> Window {
        self.lent.window()
    }

    /// Asks the library in its own numbers.
    ///
    /// ```
    /// use reefnettle::raw::Request;
    /// use reefnettle::{Model, Sizes, Window};
    ///
    /// let mut model = Model::fresh(Window::BASE_LEAST, Sizes::PROGRAM)?;
    /// let request = Request { call: 21, ..Request::default() };
    /// assert_eq!(model.ask_raw(request).number, 15); // there is no call 21
    /// # Ok::<(), reefnettle::Refusal>(())
    /// ```
    pub fn ask_raw(&mut self, request: Request) -> Answer {
        raw::ask(&mut self.lent, request)
    }

    /// Asks any call.
    ///
    /// ```
    /// use reefnettle::{Call, FrameType, Model, Page, Reply, Sizes, Window};
    ///
    /// let mut model = Model::fresh(Window::BASE_LEAST, Sizes::PROGRAM)?;
    /// let reply = model.ask(&Call::ReadPage { frame: Window::BASE_LEAST })?;
    /// assert_eq!(reply, Reply::Page(Page { kind: FrameType::Nda, owner: None }));
    /// # Ok::<(), reefnettle::Refusal>(())
    /// ```
    pub fn ask(&mut self, call: &Call) -> Result<Reply, Refusal> {
        self.ask_raw(call.into()).reply(call)
    }

    /// Begins a run: calls that come to the same as here, and cost less. Each call
    /// by itself looks at all that is stored, for [`Refusal::OutOfRange`]; a run
    /// does so once, here. Until it is dropped nobody else has the model.
    ///
    /// ```
    /// use reefnettle::{Call, Key, Model, Refusal, Sizes, Window};
    ///
    /// let mut model = Model::fresh(Window::BASE_LEAST, Sizes::PROGRAM)?;
    /// let domain = Window::BASE_LEAST;
    /// let mut run = model.run();
    /// run.ask(&Call::Create { frame: domain, key: Key(32) })?;
    /// run.ask(&Call::KeyConfig { domain })?;
    /// assert_eq!(run.ask(&Call::Init { domain }), Err(Refusal::ControlPages));
    /// run.end();
    /// assert_eq!(model.gauge().fill, 1.0 / 1024.0);
    /// # Ok::<(), Refusal>(())
    /// ```
    pub fn run(&mut self) -> Run<'_> {
        Run::begin(&mut self.lent)
    }

    /// Makes all frames NDA, all stock unused and every stored number zero; the
    /// raise mark becomes 1, the clear mark 0. It reads nothing stored, so it is
    /// refused for sizes and base alone.
    pub fn reset(&mut self) -> Result<(), Refusal> {
        self.accept(Call::Reset)
    }

    /// Sets the gauge's marks, and lights the lamp exactly if the fill is at or
    /// above the raise mark. It reads nothing of the old gauge.
    ///
    /// ```
    /// use reefnettle::{Model, Refusal, Sizes, Window};
    ///
    /// let mut model = Model::fresh(Window::BASE_LEAST, Sizes::PROGRAM)?;
    /// model.set_marks(0.75, 0.5)?;
    /// assert_eq!(model.set_marks(0.3, 0.1), Err(Refusal::Operand)); // no whole frames of 1024
    /// # Ok::<(), Refusal>(())
    /// ```
    pub fn set_marks(&mut self, raise: f64, clear: f64) -> Result<(), Refusal> {
        self.accept(Call::SetMarks { raise, clear })
    }

    /// Makes an NDA frame the TDR of a new domain, with a key that no domain
    /// before teardown has.
    pub fn create(&mut self, frame: Hpa, key: Key) -> Result<(), Refusal> {
        self.accept(Call::Create { frame, key })
    }

    /// Configures the key of a domain that has one assigned.
    pub fn keyconfig(&mut self, domain: Hpa) -> Result<(), Refusal> {
        self.accept(Call::KeyConfig { domain })
    }

    /// Makes an NDA frame a control page of a domain with configured keys, up to
    /// the fourth.
    pub fn addcx(&mut self, domain: Hpa, frame: Hpa) -> Result<(), Refusal> {
        self.accept(Call::AddCx { domain, frame })
    }

    /// Initializes a domain with four control pages.
    pub fn init(&mut self, domain: Hpa) -> Result<(), Refusal> {
        self.accept(Call::Init { domain })
    }

    /// Makes an NDA frame a Secure EPT table of a live domain, at level 1 to 3;
    /// the FREE entry there becomes NL_MAPPED.
    pub fn septadd(
        &mut self,
        domain: Hpa,
        gpa: Gpa,
        level: Level,
        frame: Hpa,
    ) -> Result<(), Refusal> {
        self.accept(Call::SeptAdd {
            domain,
            gpa,
            level,
            frame,
        })
    }

    /// Makes an NDA frame a page of an initialized domain; the FREE entry at
    /// level 0 becomes MAPPED.
    pub fn pageadd(&mut self, domain: Hpa, gpa: Gpa, frame: Hpa) -> Result<(), Refusal> {
        self.accept(Call::PageAdd { domain, gpa, frame })
    }

    /// Makes an initialized domain runnable.
    pub fn finalize(&mut self, domain: Hpa) -> Result<(), Refusal> {
        self.accept(Call::Finalize { domain })
    }

    /// Makes an NDA frame a page of a runnable domain; the FREE entry at level 0
    /// becomes PENDING.
    pub fn pageaug(&mut self, domain: Hpa, gpa: Gpa, frame: Hpa) -> Result<(), Refusal> {
        self.accept(Call::PageAug { domain, gpa, frame })
    }

    /// Blocks an entry that is NL_MAPPED, MAPPED or PENDING, at level 0 to 3; its
    /// frame notes the domain's epoch.
    pub fn block(&mut self, domain: Hpa, gpa: Gpa, level: Level) -> Result<(), Refusal> {
        self.accept(Call::Block { domain, gpa, level })
    }

    /// Moves the epoch of a live domain on. What was blocked before is then
    /// tracked; before finalize it is so at once.
    pub fn track(&mut self, domain: Hpa) -> Result<(), Refusal> {
        self.accept(Call::Track { domain })
    }

    /// Unblocks a blocked and tracked entry, at level 0 to 3.
    pub fn unblock(&mut self, domain: Hpa, gpa: Gpa, level: Level) -> Result<(), Refusal> {
        self.accept(Call::Unblock { domain, gpa, level })
    }

    /// Frees a blocked and tracked page.
    pub fn pageremove(&mut self, domain: Hpa, gpa: Gpa) -> Result<(), Refusal> {
        self.accept(Call::PageRemove { domain, gpa })
    }

    /// Frees a blocked, tracked and empty Secure EPT table, at level 1 to 3.
    pub fn septremove(&mut self, domain: Hpa, gpa: Gpa, level: Level) -> Result<(), Refusal> {
        self.accept(Call::SeptRemove { domain, gpa, level })
    }

    /// Blocks a domain for good. It keeps its key.
    pub fn flushdone(&mut self, domain: Hpa) -> Result<(), Refusal> {
        self.accept(Call::FlushDone { domain })
    }

    /// Writes the caches back: every blocked domain becomes blocked and written
    /// back, and no other stored word changes. It is refused by
    /// [`Refusal::OutOfRange`] alone. A domain that is blocked later needs a new
    /// one.
    ///
    /// ```
    /// use reefnettle::{Key, Model, Refusal, Sizes, Window};
    ///
    /// let mut model = Model::fresh(Window::BASE_LEAST, Sizes::PROGRAM)?;
    /// let domain = Window::BASE_LEAST;
    /// model.create(domain, Key(32))?;
    /// model.flushdone(domain)?;
    /// assert_eq!(model.keyfree(domain), Err(Refusal::Lifecycle));
    /// model.cachewb()?;
    /// model.keyfree(domain)?;
    /// # Ok::<(), Refusal>(())
    /// ```
    pub fn cachewb(&mut self) -> Result<(), Refusal> {
        self.accept(Call::CacheWb)
    }

    /// Frees the key of a domain that is blocked and written back, which is then
    /// in teardown.
    pub fn keyfree(&mut self, domain: Hpa) -> Result<(), Refusal> {
        self.accept(Call::KeyFree { domain })
    }

    /// Frees a frame of a domain in teardown, the TDR itself last of all.
    pub fn reclaim(&mut self, frame: Hpa) -> Result<(), Refusal> {
        self.accept(Call::Reclaim { frame })
    }

    /// Reads what a frame is, and who owns it.
    pub fn readpage(&mut self, frame: Hpa) -> Result<Page, Refusal> {
        self.judged(Call::ReadPage { frame }).map(Answer::page)
    }

    /// Reads an entry of a live domain, at level 0 to 3.
    ///
    /// ```
    /// use reefnettle::{EntryState, Frame, Gpa, Key, Level, Model, Refusal, Sizes, Window};
    ///
    /// let mut model = Model::fresh(Window::BASE_LEAST, Sizes::PROGRAM)?;
    /// let [domain, a, b, c, d, table] = [0, 1, 2, 3, 4, 5].map(|n| model.window().hpa(Frame(n)).unwrap());
    /// model.create(domain, Key(32))?;
    /// model.keyconfig(domain)?;
    /// for page in [a, b, c, d] {
    ///     model.addcx(domain, page)?;
    /// }
    /// model.init(domain)?;
    /// model.septadd(domain, Gpa(0), Level(3), table)?;
    /// let entry = model.readentry(domain, Gpa(0), Level(3))?;
    /// assert_eq!((entry.state, entry.hpa), (EntryState::NlMapped, Some(table)));
    /// let stopped = Refusal::WalkStopped { level: Level(2), state: EntryState::Free };
    /// assert_eq!(model.readentry(domain, Gpa(0), Level(1)), Err(stopped));
    /// # Ok::<(), Refusal>(())
    /// ```
    pub fn readentry(&mut self, domain: Hpa, gpa: Gpa, level: Level) -> Result<Entry, Refusal> {
        let call = Call::ReadEntry { domain, gpa, level };
        self.judged(call).map(Answer::entry)
    }

    fn judged(&mut self, call: Call) -> Result<Answer, Refusal> {
        self.ask_raw(Request::from(&call)).judged()
    }

    fn accept(&mut self, call: Call) -> Result<(), Refusal> {
        self.judged(call).map(|_| ())
    }
}

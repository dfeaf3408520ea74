//! Every call by its method, and the refusals that carry numbers.

use reefnettle::raw::Request;
use reefnettle::{
    Call, Entry, EntryState, Frame, FrameType, Gauge, Gpa, Hpa, Key, Level, Lifecycle, Model, Page,
    Parts, Record, Refusal, Reply, Sizes, Window,
};

const BASE: Hpa = Window::BASE_LEAST;

fn fresh() -> Model {
    Model::fresh(BASE, Sizes::PROGRAM).unwrap()
}

fn hpa(frame: usize) -> Hpa {
    fresh().window().hpa(Frame(frame)).unwrap()
}

/// A domain with key 32: TDR frame 0, control pages in frames 1 to 4, tables of
/// levels 3, 2 and 1 in frames 5 to 7, a page at gpa 0 in frame 8.
fn built() -> Model {
    let mut model = fresh();
    let domain = hpa(0);
    model.create(domain, Key(32)).unwrap();
    model.keyconfig(domain).unwrap();
    for page in 1..=4 {
        model.addcx(domain, hpa(page)).unwrap();
    }
    model.init(domain).unwrap();
    for (level, table) in [(3, 5), (2, 6), (1, 7)] {
        let level = Level(level);
        model.septadd(domain, Gpa(0), level, hpa(table)).unwrap();
    }
    model.pageadd(domain, Gpa(0), hpa(8)).unwrap();
    model
}

fn entry(level: usize, state: EntryState, hpa: Option<Hpa>) -> Result<Entry, Refusal> {
    let level = Level(level);
    Ok(Entry { level, state, hpa })
}

#[test]
fn a_page_comes_and_goes() -> Result<(), Refusal> {
    let (mut model, domain, gpa, page) = (built(), hpa(0), Gpa(4096), Level(0));
    model.finalize(domain)?;
    model.pageaug(domain, gpa, hpa(9))?;
    let pending = entry(0, EntryState::Pending, Some(hpa(9)));
    assert_eq!(model.readentry(domain, gpa, page), pending);
    model.block(domain, gpa, page)?;
    assert_eq!(model.pageremove(domain, gpa), Err(Refusal::NotTracked));
    model.track(domain)?;
    model.unblock(domain, gpa, page)?;
    assert_eq!(model.readentry(domain, gpa, page), pending);
    model.block(domain, gpa, page)?;
    model.track(domain)?;
    model.pageremove(domain, gpa)?;
    assert_eq!(
        model.readentry(domain, gpa, page),
        entry(0, EntryState::Free, None)
    );
    Ok(())
}

#[test]
fn before_finalize_a_page_goes_untracked() -> Result<(), Refusal> {
    let (mut model, domain, gpa, page) = (built(), hpa(0), Gpa(0), Level(0));
    model.block(domain, gpa, page)?;
    let mut runnable = model.clone();
    model.pageremove(domain, gpa)?;
    assert_eq!(model.readpage(hpa(8))?.kind, FrameType::Nda);
    // The same entry counts as any other once the domain can run.
    runnable.finalize(domain)?;
    let untracked = runnable.pageremove(domain, gpa);
    assert_eq!(untracked, Err(Refusal::NotTracked));
    Ok(())
}

#[test]
fn a_table_goes_when_it_is_empty() -> Result<(), Refusal> {
    let (mut model, domain) = (built(), hpa(0));
    let (table, gpa) = (Level(1), Gpa(2097152));
    model.septadd(domain, gpa, table, hpa(9))?;
    for gpa in [Gpa(0), gpa] {
        model.block(domain, gpa, table)?;
    }
    model.track(domain)?;
    let full = model.septremove(domain, Gpa(0), table);
    assert_eq!(full, Err(Refusal::PagesRemain));
    model.septremove(domain, gpa, table)?;
    assert_eq!(model.readpage(hpa(9))?.kind, FrameType::Nda);
    Ok(())
}

#[test]
fn a_domain_is_wound_down() -> Result<(), Refusal> {
    let (mut model, domain) = (built(), hpa(0));
    model.flushdone(domain)?;
    assert_eq!(model.keyfree(domain), Err(Refusal::Lifecycle));
    model.cachewb()?;
    assert_eq!(model.reclaim(hpa(8)), Err(Refusal::Lifecycle));
    model.keyfree(domain)?;
    for frame in (1..=8).rev() {
        model.reclaim(hpa(frame))?;
    }
    model.reclaim(domain)?;
    let free = Page {
        kind: FrameType::Nda,
        owner: None,
    };
    assert_eq!(model.readpage(domain)?, free);
    assert_eq!(model.gauge().fill, 0.0);
    Ok(())
}

#[test]
fn a_domain_blocked_after_a_write_back_needs_another() -> Result<(), Refusal> {
    let (mut model, first, second) = (built(), hpa(0), hpa(9));
    model.create(second, Key(33))?;
    model.flushdone(first)?;
    model.cachewb()?;
    model.flushdone(second)?;
    let stages = |model: &Model| {
        let record = |number| model.parts().record(Record(number)).unwrap();
        [0, 1].map(|number| record(number).lifecycle)
    };
    assert_eq!(stages(&model), [Lifecycle::WrittenBack, Lifecycle::Blocked]);
    assert_eq!(model.create(hpa(10), Key(32)), Err(Refusal::KeyTaken));
    assert_eq!(model.keyfree(second), Err(Refusal::Lifecycle));
    model.keyfree(first)?;
    assert_eq!(model.ask(&Call::CacheWb)?, Reply::Done);
    model.keyfree(second)?;
    assert_eq!(stages(&model), [Lifecycle::Teardown; 2]);
    // None is blocked any more.
    let before = model.clone();
    model.cachewb()?;
    assert_eq!(model, before);
    Ok(())
}

#[test]
fn refusals_read_out_level_and_state() {
    let (mut model, domain) = (built(), hpa(0));
    let stopped = model.readentry(domain, Gpa(1 << 30), Level(1));
    let (level, state) = (Level(2), EntryState::Free);
    assert_eq!(stopped, Err(Refusal::WalkStopped { level, state }));
    let taken = model.pageadd(domain, Gpa(0), hpa(9));
    let (level, state) = (Level(0), EntryState::Mapped);
    assert_eq!(taken, Err(Refusal::WrongState { level, state }));
    assert_eq!(
        taken.unwrap_err().to_string(),
        "the entry's state is wrong for the call, at level 0 state 2"
    );
}

#[test]
fn marks_light_the_lamp() -> Result<(), Refusal> {
    let mut model = built();
    model.set_marks(9.0 / 1024.0, 8.0 / 1024.0)?;
    assert!(model.gauge().lamp);
    assert_eq!(model.set_marks(0.3, 0.1), Err(Refusal::Operand));
    model.ask(&Call::Reset)?;
    assert_eq!(model.gauge(), Gauge::FRESH);
    Ok(())
}

#[test]
fn fresh_models_keep_to_the_limits() {
    let (least, most) = (Sizes::LEAST, Sizes::MOST);
    let fresh = |sizes| Model::fresh(BASE, sizes).map(|_| ());
    for sizes in [least, most, Sizes::PROGRAM] {
        assert_eq!(fresh(sizes), Ok(()), "{sizes}");
    }
    let frames = |frames| Sizes { frames, ..least };
    let records = |records| Sizes { records, ..least };
    let tables = |tables| Sizes { tables, ..least };
    for sizes in [
        frames(least.frames / 2),
        frames(1000),
        frames(most.frames * 2),
        records(least.records - 1),
        records(most.records + 1),
        tables(least.tables - 1),
        tables(most.tables + 1),
        Sizes {
            frames: usize::MAX,
            records: usize::MAX,
            tables: usize::MAX,
        },
    ] {
        assert_eq!(fresh(sizes), Err(Refusal::OutOfRange), "{sizes}");
    }
}

#[test]
fn bases_keep_to_the_limits() {
    let fresh = |base| Model::fresh(base, Sizes::LEAST).map(|_| ());
    let (least, most) = (Window::BASE_LEAST, Window::BASE_MOST);
    for base in [least, Hpa(2 * least.0), most] {
        assert_eq!(fresh(base), Ok(()), "{base}");
    }
    for base in [Hpa(0), Hpa(least.0 + 4096), Hpa(most.0 + least.0)] {
        assert_eq!(fresh(base), Err(Refusal::OutOfRange), "{base}");
    }
}

#[test]
fn operands_keep_to_the_limits() {
    for key in [Key::LEAST, Key::MOST] {
        assert_eq!(fresh().create(BASE, key), Ok(()), "{key}");
    }
    for key in [Key(Key::LEAST.0 - 1), Key(Key::MOST.0 + 1)] {
        assert_eq!(fresh().create(BASE, key), Err(Refusal::Operand), "{key}");
    }
    let read = |gpa, level| built().readentry(hpa(0), gpa, level).map(|_| ());
    assert_eq!(read(Gpa(0), Level::MOST), Ok(()));
    let above = Level(Level::MOST.0 + 1);
    assert_eq!(read(Gpa(0), above), Err(Refusal::Operand));
    assert_eq!(read(Gpa(Gpa::END.0 - (1 << 39)), Level::MOST), Ok(()));
    assert_eq!(read(Gpa::END, Level::MOST), Err(Refusal::Operand));
}

#[test]
fn threads_ask_at_once_each_its_own_model() {
    let threads = [Key(32), Key(33)].map(|key| {
        std::thread::spawn(move || {
            let mut model = fresh();
            for _ in 0..100 {
                model.create(BASE, key).unwrap();
                model.reset().unwrap();
            }
            model
        })
    });
    for thread in threads {
        assert_eq!(thread.join().unwrap(), fresh());
    }
}

#[test]
fn any_lengths_may_be_lent() {
    let empty = Parts {
        base: BASE,
        frames: vec![],
        domains: vec![],
        stock: vec![],
        entries: vec![],
        gauge: Gauge::FRESH,
    };
    let mut model = Model::from_parts(empty.clone());
    assert_eq!(model.reset(), Err(Refusal::OutOfRange));
    assert_eq!(model.into_parts(), empty);
}

#[test]
fn a_call_that_there_is_not_is_unreadable() {
    let mut model = built();
    let before = model.clone();
    for call in [21, u64::MAX] {
        let request = Request {
            call,
            ..Request::default()
        };
        assert_eq!(model.ask_raw(request).number, Refusal::Unreadable.number());
    }
    assert_eq!(model, before);
}

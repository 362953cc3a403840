//! A journal judged: the engine's replay says whether it agrees with the rules, and what is told beside follows from that.

use engine::relay::{self, Replayed, ALLOWANCES, RECORD};
use peer::grouped;
use server::{Refusal, Tables, PARTNERS};

use super::beginning::Beginning;
use super::entry::Entry;
use super::figures::Figures;
use super::rule::Rule;

pub struct Judgement {
    pub beginning: Beginning,
    /// Bytes of the journal.
    pub length: usize,
    /// Whether the plain replay has judged. Then the other one has judged the same.
    pub plain: bool,
    /// Where the journal is contradicted, if it is.
    pub contradiction: Option<Contradiction>,
    /// What follows is of all records, or of those before that place, which agree.
    pub records: usize,
    pub figures: [Figures; PARTNERS],
    /// Tables of which only the allowances mean anything.
    pub tables: Tables,
}

#[derive(Clone, Copy, Debug, PartialEq, Eq)]
pub struct Contradiction {
    /// The byte at which it begins.
    pub place: usize,
    pub found: Found,
}

/// What a contradiction is found in.
#[derive(Clone, Copy, Debug, PartialEq, Eq)]
pub enum Found {
    /// A record, and the rule that it contradicts; None if this program finds none.
    Record(Entry, Option<Rule>),
    /// What is left at the end, of so many bytes.
    ShortTail(usize),
}

/// Why there is no judgement.
#[derive(Clone, Debug, PartialEq, Eq)]
pub enum Unjudged {
    /// No relay starts so.
    Refused(Refusal),
    /// The engine says what it can't mean.
    Inconsistent(String),
}

pub type Replay = fn(&mut [u8], &[u8], u64, u64) -> Replayed;

/// What a replay says: where the journal is contradicted, if it is, and the tables after all that is before.
pub type Verdict = (Option<usize>, Tables);

impl Judgement {
    pub fn new(journal: &[u8], beginning: Beginning, plain: bool) -> Result<Self, Unjudged> {
        let (place, tables) = match plain {
            true => common_verdict([relay::replay_plain, relay::replay], journal, beginning)?,
            false => verdict(relay::replay, journal, beginning)?,
        };
        let (records, _) = journal[..place.unwrap_or(journal.len())].as_chunks();
        let contradiction = place.map(|place| Contradiction { place, found: Found::at(place, journal, &tables) });
        let (length, figures) = (journal.len(), Figures::of(records));
        Ok(Self { beginning, length, plain, contradiction, records: records.len(), figures, tables })
    }

    /// What a partner has at the time of the latest done record.
    pub fn left(&self, partner: usize) -> u64 {
        self.tables.level(partner, self.tables.clock())
    }
}

impl Found {
    /// What begins at a place of a journal, after records that led to these tables.
    fn at(place: usize, journal: &[u8], before: &Tables) -> Self {
        match journal[place..].first_chunk() {
            Some(record) => {
                let entry = Entry::from(record);
                Self::Record(entry, Rule::contradicted_by(&entry, before))
            }
            None => Self::ShortTail(journal.len() - place),
        }
    }
}

/// The verdict of the first replay, if the other one's is the same.
pub fn common_verdict(replays: [Replay; 2], journal: &[u8], beginning: Beginning) -> Result<Verdict, Unjudged> {
    let at_latest = |(place, tables): &Verdict| {
        let levels: Vec<_> = (0..PARTNERS).map(|partner| tables.level(partner, tables.clock())).collect();
        (*place, tables.clock(), levels)
    };
    let [first, other] = replays.map(|replay| verdict(replay, journal, beginning));
    let (first, other) = (first?, other?);
    match at_latest(&first) == at_latest(&other) {
        true => Ok(first),
        false => Err(Unjudged::Inconsistent("the two replays don't agree on it".into())),
    }
}

/// What a replay says of a journal. A place that it can't mean is an error.
pub fn verdict(replay: Replay, journal: &[u8], beginning: Beginning) -> Result<Verdict, Unjudged> {
    match replayed(replay, journal, beginning)? {
        Ok(tables) => Ok((None, tables)),
        Err(place) => {
            let inconsistent = || Unjudged::Inconsistent(format!("a replay names byte {}, wrongly", grouped(place)));
            let before = usize::try_from(place).ok().filter(|place| place % RECORD == 0 && *place < journal.len());
            let before = before.ok_or_else(inconsistent)?;
            // What is before the place isn't contradicted, so that it has tables.
            let tables = replayed(replay, &journal[..before], beginning)?.map_err(|_| inconsistent())?;
            Ok((Some(before), tables))
        }
    }
}

/// The tables after all records, or the place of a contradiction.
fn replayed(replay: Replay, journal: &[u8], beginning: Beginning) -> Result<Result<Tables, u64>, Unjudged> {
    let mut bytes = [0; Tables::SIZE];
    let allowances = &mut bytes[Tables::SIZE - ALLOWANCES..];
    match replay(allowances, journal, beginning.time, beginning.term) {
        Replayed { number: 0, contradicted: 0, .. } => {
            let tables = Tables::from_bytes(&bytes);
            tables.map(Ok).ok_or_else(|| Unjudged::Inconsistent("the tables have another size".into()))
        }
        Replayed { number: 0, place, .. } => Ok(Err(place)),
        Replayed { number, .. } => Err(Unjudged::Refused(Refusal(number))),
    }
}

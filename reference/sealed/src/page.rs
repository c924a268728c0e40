//! The page of a side: all that it holds but for the secret halves, as bytes.

use std::collections::BTreeMap;

use model::command::Who;
use model::side::{Mark, MOST_PUT_ASIDE};

use crate::chains::Chain;
use crate::fields::Fields;
use crate::secrets::{ChainKey, MessageKey, PublicHalf, RootKey};
use crate::sha256::sha256;
use crate::side::Side;

const VERSION: u8 = 1;

/// Bytes that are no page of this side.
#[derive(Clone, Copy, Debug, PartialEq, Eq)]
pub struct BadPage;

impl BadPage {
    /// The number that such bytes are refused with.
    pub fn number(self) -> u8 {
        7
    }
}

/// The page of a side.
pub fn write(side: &Side) -> Vec<u8> {
    let mut page = vec![VERSION];
    for number in [side.drawn, side.sent(), side.taken(), side.before] {
        page.extend(number.to_be_bytes());
    }
    page.extend(side.half.0);
    page.extend(side.root.0);
    page.extend(value(&side.sending));
    page.extend(value(&side.taking));
    page.extend((side.aside.len() as u16).to_be_bytes());
    for (mark, key) in &side.aside {
        page.extend(mark.link.to_be_bytes());
        page.extend(mark.place.to_be_bytes());
        page.extend(key.0);
    }
    page.extend(sha256(&page).0);
    page
}

/// The value of a chain, and zeros where there is none.
fn value(chain: &Option<Chain>) -> [u8; 32] {
    chain.as_ref().map_or([0; 32], |chain| chain.value.0)
}

/// The side whose page the bytes are.
pub fn read(who: Who, bytes: &[u8]) -> Result<Side, BadPage> {
    let side = whole(bytes).and_then(told).ok_or(BadPage)?;
    if could_be(who, &side) {
        Ok(side)
    } else {
        Err(BadPage)
    }
}

/// The bytes before the digest, if the digest is right.
fn whole(bytes: &[u8]) -> Option<&[u8]> {
    let (page, digest) = bytes.split_last_chunk()?;
    (sha256(page).0 == *digest).then_some(page)
}

/// The side that the fields tell of, with no byte left over.
fn told(page: &[u8]) -> Option<Side> {
    let mut fields = Fields(page);
    if fields.bytes()? != [VERSION] {
        return None;
    }
    let drawn = fields.number()?;
    let (sent, taken, before) = (fields.number()?, fields.number()?, fields.number()?);
    let half = PublicHalf(fields.bytes()?);
    let root = RootKey(fields.bytes()?);
    let sending = chain(drawn >= 1, sent, fields.bytes()?)?;
    let taking = chain(drawn >= 2, taken, fields.bytes()?)?;
    let aside = aside(&mut fields)?;
    fields.0.is_empty().then_some(Side {
        drawn,
        before,
        half,
        root,
        sending,
        taking,
        aside,
    })
}

/// A chain where there is such a link; where there is none, place and value are zeros.
fn chain(there_is_a_link: bool, place: u32, value: [u8; 32]) -> Option<Option<Chain>> {
    if there_is_a_link {
        let value = ChainKey(value);
        return Some(Some(Chain { place, value }));
    }
    (place == 0 && value == [0; 32]).then_some(None)
}

/// The keys put aside, whose marks rise.
fn aside(fields: &mut Fields) -> Option<BTreeMap<Mark, MessageKey>> {
    let count = fields.short_number()?;
    let mut aside = BTreeMap::new();
    for _ in 0..count {
        let mark = Mark {
            link: fields.number()?,
            place: fields.number()?,
        };
        let key = MessageKey(fields.bytes()?);
        if aside
            .last_key_value()
            .is_some_and(|(last, _)| *last >= mark)
        {
            return None;
        }
        aside.insert(mark, key);
    }
    Some(aside)
}

/// Whether the numbers are such as this side can have.
fn could_be(who: Who, side: &Side) -> bool {
    let is_odd = side.drawn % 2 == 1;
    is_odd == (who == Who::First)
        && (side.drawn > 2 || side.before == 0)
        && (side.drawn < 2 || side.taken() != 0)
        && side.aside.len() as u64 <= MOST_PUT_ASIDE
        && side.aside.keys().all(|mark| could_be_aside(side, *mark))
}

/// Whether a mark is of a link that the side took on, or of a place that it is past on the one it takes on.
fn could_be_aside(side: &Side, mark: Mark) -> bool {
    let Some(taking_link) = side.drawn.checked_sub(2) else {
        return false;
    };
    let is_past = mark.link < taking_link || mark.link == taking_link && mark.place < side.taken();
    is_past && mark.link % 2 == side.drawn % 2
}

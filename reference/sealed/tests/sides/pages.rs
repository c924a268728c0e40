//! Pages: what is written is read back, and nothing else is read.

use model::command::Who;
use sealed::page;
use sealed::sha256::sha256;

use crate::pair::Pair;

/// A page, field by field; `aside` has links and places.
#[derive(Clone)]
struct Draft {
    version: u8,
    drawn: u32,
    sent: u32,
    taken: u32,
    before: u32,
    sending: [u8; 32],
    taking: [u8; 32],
    aside: Vec<(u32, u32)>,
    /// How many the page says are put aside, where that is not how many there are.
    count: Option<u16>,
}

const NONE: [u8; 32] = [0; 32];
const SOME: [u8; 32] = [5; 32];

impl Draft {
    /// A page as the side with this last key has it when it holds the least.
    fn new(drawn: u32) -> Draft {
        Draft {
            version: 1,
            drawn,
            sent: 0,
            taken: u32::from(drawn >= 2),
            before: 0,
            sending: if drawn >= 1 { SOME } else { NONE },
            taking: if drawn >= 2 { SOME } else { NONE },
            aside: Vec::new(),
            count: None,
        }
    }

    fn bytes(&self) -> Vec<u8> {
        let mut bytes = vec![self.version];
        for number in [self.drawn, self.sent, self.taken, self.before] {
            bytes.extend(number.to_be_bytes());
        }
        bytes.extend([3; 32]);
        bytes.extend([4; 32]);
        bytes.extend(self.sending);
        bytes.extend(self.taking);
        let count = self.count.unwrap_or(self.aside.len() as u16);
        bytes.extend(count.to_be_bytes());
        for (link, place) in &self.aside {
            bytes.extend(link.to_be_bytes());
            bytes.extend(place.to_be_bytes());
            bytes.extend([6; 32]);
        }
        with_digest(bytes)
    }

    /// The page with one change.
    fn with(&self, change: impl FnOnce(&mut Draft)) -> Draft {
        let mut draft = self.clone();
        change(&mut draft);
        draft
    }

    /// The side that has odd or even keys, as the last key is.
    fn who(&self) -> Who {
        if self.drawn % 2 == 1 {
            Who::First
        } else {
            Who::Second
        }
    }

    fn is_read(&self) -> bool {
        is_read(self.who(), &self.bytes())
    }
}

fn with_digest(mut bytes: Vec<u8>) -> Vec<u8> {
    bytes.extend(sha256(&bytes).0);
    bytes
}

/// Whether the bytes are read; if so they are written back as they are, and else they are refused with 7.
fn is_read(who: Who, bytes: &[u8]) -> bool {
    match page::read(who, bytes) {
        Ok(side) => {
            assert_eq!(page::write(&side), bytes);
            true
        }
        Err(refused) => {
            assert_eq!(refused.number(), 7);
            false
        }
    }
}

/// A pair whose sides have both put keys aside.
fn talked() -> Pair {
    let mut pair = Pair::new();
    for _ in 0..2 {
        for who in [Who::First, Who::Second] {
            pair.post(who).send(b"passed over").unwrap();
            pair.pass(who, b"opened");
        }
    }
    pair
}

#[test]
fn a_page_of_a_talk_is_read_back_by_its_own_side_alone() {
    let mut pair = talked();
    for who in [Who::First, Who::Second] {
        let post = pair.post(who);
        assert_eq!(post.side().aside.len(), 2);
        assert_eq!(page::write(&post.side()), post.page);
        assert!(!is_read(who.other(), &post.page));
    }
}

#[test]
fn a_page_damaged_at_any_byte_is_refused() {
    for post in [Pair::new().first, Pair::new().second, talked().second] {
        for at in 0..post.page.len() {
            for bit in 0..8 {
                let mut page = post.page.clone();
                page[at] ^= 1 << bit;
                assert!(!is_read(post.who, &page), "byte {at}, bit {bit}");
            }
        }
    }
}

#[test]
fn a_page_cut_or_made_longer_is_refused() {
    let post = talked().second;
    for end in 0..post.page.len() {
        assert!(!is_read(post.who, &post.page[..end]), "cut at {end}");
        if let Some(body) = end.checked_sub(32) {
            let page = with_digest(post.page[..body].to_vec());
            assert!(!is_read(post.who, &page), "cut at {end}, with a digest");
        }
    }
    let body = &post.page[..post.page.len() - 32];
    assert!(is_read(post.who, &with_digest(body.to_vec())));
    assert!(!is_read(post.who, &with_digest([body, &[0]].concat())));
    assert!(!is_read(post.who, &[post.page.as_slice(), &[0]].concat()));
}

#[test]
fn only_version_1_is_read() {
    for version in 0..=255 {
        let page = Draft::new(3).with(|page| page.version = version);
        assert_eq!(page.is_read(), version == 1, "{version}");
    }
}

#[test]
fn the_first_has_the_odd_keys_and_the_second_the_even_ones() {
    for drawn in [0, 1, 2, 3, 4, 5, u32::MAX - 1, u32::MAX] {
        let bytes = Draft::new(drawn).bytes();
        assert_eq!(is_read(Who::First, &bytes), drawn % 2 == 1, "{drawn}");
        assert_eq!(is_read(Who::Second, &bytes), drawn % 2 == 0, "{drawn}");
    }
}

#[test]
fn with_key_0_alone_there_is_nothing() {
    let page = Draft::new(0);
    assert!(page.is_read());
    assert!(!page.with(|page| page.sent = 1).is_read());
    assert!(!page.with(|page| page.taken = 1).is_read());
    assert!(!page.with(|page| page.before = 1).is_read());
    assert!(!page.with(|page| page.sending[31] = 1).is_read());
    assert!(!page.with(|page| page.taking[0] = 1).is_read());
    assert!(!page.with(|page| page.aside = vec![(0, 0)]).is_read());
}

#[test]
fn with_key_1_alone_there_is_only_what_was_sent() {
    let page = Draft::new(1);
    assert!(page.is_read());
    assert!(page.with(|page| page.sent = u32::MAX).is_read());
    assert!(!page.with(|page| page.taken = 1).is_read());
    assert!(!page.with(|page| page.before = 1).is_read());
    assert!(!page.with(|page| page.taking[31] = 1).is_read());
    assert!(!page.with(|page| page.aside = vec![(1, 0)]).is_read());
}

#[test]
fn from_key_2_on_something_was_taken() {
    for drawn in 2..8 {
        let page = Draft::new(drawn);
        assert!(page.with(|page| page.taken = u32::MAX).is_read());
        assert!(page.with(|page| page.sent = u32::MAX).is_read());
        assert!(!page.with(|page| page.taken = 0).is_read(), "{drawn}");
    }
}

#[test]
fn with_key_2_nothing_was_sent_on_a_link_before() {
    for drawn in 2..8 {
        let page = Draft::new(drawn).with(|page| page.before = 1);
        assert_eq!(page.is_read(), drawn != 2, "{drawn}");
    }
}

#[test]
fn keys_are_put_aside_of_links_that_the_side_took_on() {
    let page = Draft::new(6).with(|page| page.taken = 5);
    for link in 0..10 {
        let page = page.with(|page| page.aside = vec![(link, 4)]);
        assert_eq!(page.is_read(), [0, 2, 4].contains(&link), "{link}");
    }
}

#[test]
fn on_the_link_taken_on_keys_are_put_aside_before_the_next_place() {
    let page = Draft::new(6).with(|page| page.taken = 5);
    for place in 0..10 {
        let of_this_link = page.with(|page| page.aside = vec![(4, place)]);
        assert_eq!(of_this_link.is_read(), place < 5, "{place}");
        assert!(page.with(|page| page.aside = vec![(2, place)]).is_read());
    }
}

#[test]
fn marks_rise_by_link_and_then_place() {
    let page = Draft::new(6).with(|page| page.taken = 5);
    let with = |marks: &[(u32, u32)]| page.with(|page| page.aside = marks.to_vec()).is_read();
    assert!(with(&[(0, 1), (0, 2), (2, 0), (4, 0), (4, 4)]));
    assert!(!with(&[(0, 1), (0, 1)]));
    assert!(!with(&[(0, 2), (0, 1)]));
    assert!(!with(&[(2, 0), (0, 1)]));
    assert!(!with(&[(0, 1), (2, 0), (0, 2)]));
}

#[test]
fn at_most_512_keys_are_put_aside() {
    let page = Draft::new(2).with(|page| page.taken = 1_000);
    for count in [511, 512, 513, 600] {
        let aside = (0..count).map(|place| (0, place)).collect();
        let page = page.with(|page| page.aside = aside);
        assert_eq!(page.is_read(), count <= 512, "{count}");
    }
}

#[test]
fn the_length_is_that_of_the_count() {
    let page = Draft::new(2).with(|page| page.taken = 5);
    let page = page.with(|page| page.aside = vec![(0, 1), (0, 2)]);
    for count in 0..600 {
        let page = page.with(|page| page.count = Some(count));
        assert_eq!(page.is_read(), count == 2, "{count}");
    }
}

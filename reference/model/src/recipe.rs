//! Secrets as recipes, and the working-out of all that can be made from those that were read.

use std::collections::HashMap;

use crate::side::{Mark, Side};

/// A recipe in the book, by its page.
#[derive(Clone, Copy, Debug, PartialEq, Eq, PartialOrd, Ord, Hash)]
struct Page(usize);

/// How a secret is made.
#[derive(Clone, Copy, Debug, PartialEq, Eq, Hash)]
enum Recipe {
    /// What both sides have shared from the start.
    Shared,
    /// The secret half of key n.
    Own(u32),
    /// The joint secret of keys n and n + 1, made from either one's secret half.
    Joint { lower: Page, upper: Page },
    /// A root and a joint secret worked together.
    Mix { root: Page, joint: Page },
    /// The next root, out of a mix.
    Root { mix: Page },
    /// The first chain of a link, out of a mix.
    Chain { mix: Page },
    /// The chain at the next place, out of a chain.
    Next { chain: Page },
    /// The key of a message, out of the chain at its place.
    Key { chain: Page },
}

/// All recipes that are spoken of; what a recipe is made of always stands on earlier pages.
#[derive(Default)]
struct Book {
    recipes: Vec<Recipe>,
    pages: HashMap<Recipe, Page>,
    /// The roots, by number.
    roots: Vec<Page>,
    /// The chains of each link, by place.
    chains: HashMap<u32, Vec<Page>>,
}

impl Book {
    fn page(&mut self, recipe: Recipe) -> Page {
        let recipes = &mut self.recipes;
        *self.pages.entry(recipe).or_insert_with(|| {
            recipes.push(recipe);
            Page(recipes.len() - 1)
        })
    }

    fn own(&mut self, n: u32) -> Page {
        self.page(Recipe::Own(n))
    }

    /// What link n is made from: root n and the joint secret of keys n and n + 1.
    fn mix(&mut self, n: u32) -> Page {
        let root = self.root(n);
        let (lower, upper) = (self.own(n), self.own(n + 1));
        let joint = self.page(Recipe::Joint { lower, upper });
        self.page(Recipe::Mix { root, joint })
    }

    fn root(&mut self, n: u32) -> Page {
        if self.roots.is_empty() {
            let shared = self.page(Recipe::Shared);
            self.roots.push(shared);
        }
        while self.roots.len() <= n as usize {
            let mix = self.mix(self.roots.len() as u32 - 1);
            let root = self.page(Recipe::Root { mix });
            self.roots.push(root);
        }
        self.roots[n as usize]
    }

    fn chain(&mut self, at: Mark) -> Page {
        let mix = self.mix(at.link);
        let start = self.page(Recipe::Chain { mix });
        let mut chains = self.chains.remove(&at.link).unwrap_or_else(|| vec![start]);
        while chains.len() <= at.place as usize {
            let chain = chains[chains.len() - 1];
            chains.push(self.page(Recipe::Next { chain }));
        }
        let chain = chains[at.place as usize];
        self.chains.insert(at.link, chains);
        chain
    }

    fn key(&mut self, of: Mark) -> Page {
        let chain = self.chain(of);
        self.page(Recipe::Key { chain })
    }

    /// What a side holds: its own secret half, its root, its two chains at the next place, the keys put aside.
    fn held_by(&mut self, side: &Side) -> Vec<Page> {
        let mut held = vec![self.own(side.drawn), self.root(side.drawn)];
        if let Some(link) = side.sending_link() {
            held.push(self.chain(Mark {
                link,
                place: side.sent,
            }));
        }
        if let Some(link) = side.taking_link() {
            held.push(self.chain(Mark {
                link,
                place: side.taken,
            }));
        }
        held.extend(side.aside.iter().map(|mark| self.key(*mark)));
        held
    }
}

/// What somebody knows who has read some sides, closed under all that can be worked out from it.
#[derive(Default)]
pub struct Knowledge {
    book: Book,
    /// Whether each recipe of the book is known.
    known: Vec<bool>,
}

impl Knowledge {
    /// Adds all that a side holds.
    pub fn read(&mut self, side: &Side) {
        let held = self.book.held_by(side);
        self.known.resize(self.book.recipes.len(), false);
        for page in held {
            self.known[page.0] = true;
        }
    }

    /// For each message, whether its key can be worked out.
    pub fn of_keys(&mut self, marks: impl Iterator<Item = Mark>) -> Vec<bool> {
        let keys: Vec<Page> = marks.map(|mark| self.book.key(mark)).collect();
        self.work_out();
        keys.into_iter().map(|key| self.known[key.0]).collect()
    }

    /// Goes through the book once; that is enough, as nothing is made from what stands on a later page.
    fn work_out(&mut self) {
        self.known.resize(self.book.recipes.len(), false);
        for (index, recipe) in self.book.recipes.iter().enumerate() {
            self.known[index] = self.known[index] || self.can_be_made(*recipe);
        }
    }

    fn can_be_made(&self, recipe: Recipe) -> bool {
        let known = |page: Page| self.known[page.0];
        match recipe {
            Recipe::Shared | Recipe::Own(_) => false,
            Recipe::Joint { lower, upper } => known(lower) || known(upper),
            Recipe::Mix { root, joint } => known(root) && known(joint),
            Recipe::Root { mix } | Recipe::Chain { mix } => known(mix),
            Recipe::Next { chain } | Recipe::Key { chain } => known(chain),
        }
    }
}

#[cfg(test)]
mod tests {
    use super::*;

    #[test]
    fn nothing_is_made_from_a_later_page() {
        let mut book = Book::default();
        book.key(Mark { link: 3, place: 2 });
        book.held_by(&Side {
            drawn: 7,
            sent: 2,
            taken: 1,
            ..Side::first()
        });
        for (index, recipe) in book.recipes.iter().enumerate() {
            let parts = match *recipe {
                Recipe::Shared | Recipe::Own(_) => vec![],
                Recipe::Joint { lower, upper } => vec![lower, upper],
                Recipe::Mix { root, joint } => vec![root, joint],
                Recipe::Root { mix } | Recipe::Chain { mix } => vec![mix],
                Recipe::Next { chain } | Recipe::Key { chain } => vec![chain],
            };
            assert!(parts.iter().all(|part| part.0 < index), "{recipe:?}");
        }
    }

    #[test]
    fn nothing_is_worked_out_backwards() {
        let mut knowledge = Knowledge::default();
        knowledge.read(&Side {
            drawn: 3,
            sent: 1,
            taken: 2,
            ..Side::first()
        });
        let marks = [(0, 0), (1, 1), (1, 2), (2, 0), (2, 1), (3, 0), (4, 0)];
        let known = knowledge.of_keys(marks.into_iter().map(|(link, place)| Mark { link, place }));
        assert_eq!(known, [false, false, true, false, true, true, false]);
    }
}

//! Makes streams of every sort.

pub mod chains;
pub mod damage;
pub mod grammar;
pub mod limits;
pub mod malform;
pub mod noise;
pub mod towers;

use crate::{dress, random::Random, token::Token};

/// The sorts of streams.
#[derive(Debug, Clone, Copy, PartialEq, Eq, Hash)]
pub enum Family {
    Grammatical,
    Damaged,
    Noise,
    Tower,
    Chain,
    ShortChain,
    Malformed,
    /// Those every run has: the marked scripts and the streams of the greatest length.
    Fixed,
}

impl Family {
    pub const ALL: [Family; 8] = [
        Family::Grammatical,
        Family::Damaged,
        Family::Noise,
        Family::Tower,
        Family::Chain,
        Family::ShortChain,
        Family::Malformed,
        Family::Fixed,
    ];

    /// Whether both rankings must accept every stream of the family: its scripts are made by the
    /// grammar, and are not deep.
    pub fn is_of_the_grammar(self) -> bool {
        matches!(
            self,
            Family::Grammatical | Family::Chain | Family::ShortChain
        )
    }
}

/// Makes streams one after another; holds what is costly to make anew.
pub struct Generator {
    towers: towers::Builder,
}

impl Generator {
    #[allow(clippy::new_without_default)]
    pub fn new() -> Self {
        Generator {
            towers: towers::Builder::new(),
        }
    }

    /// Stream `number` of a run. The first numbers go through all short chains in turn.
    pub fn stream(&self, number: u64, random: &mut Random) -> (Family, Vec<u64>) {
        if let Some(tokens) = chains::short_chain(number) {
            return (Family::ShortChain, dress::stream(&tokens, random));
        }
        if random.percent(8) {
            let (_, tokens) = self.tokens(random);
            let mut words = dress::stream(&tokens, random);
            malform::malform(&mut words, random);
            return (Family::Malformed, words);
        }
        let (family, tokens) = self.tokens(random);
        (family, dress::stream(&tokens, random))
    }

    fn tokens(&self, random: &mut Random) -> (Family, Vec<Token>) {
        match random.below(100) {
            0..=24 => (Family::Grammatical, grammar::script(random)),
            25..=66 => {
                let mut tokens = match random.below(100) {
                    0 => self.towers.tower(random),
                    1..=14 => chains::script(random),
                    15..=24 => grammar::script_with_wrong_targets(random),
                    _ => grammar::script(random),
                };
                if random.percent(95) {
                    damage::damage(&mut tokens, random);
                }
                (Family::Damaged, tokens)
            }
            67..=76 => (Family::Noise, noise::noise(random)),
            77..=79 => (Family::Tower, self.towers.tower(random)),
            _ => (Family::Chain, chains::script(random)),
        }
    }
}

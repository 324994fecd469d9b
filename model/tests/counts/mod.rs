//! How often the cases of a comparison reach what they are meant to reach: each
//! number, each place of refusal, each kind of answer, and the edges at which a
//! rule of paper 01 just lets a message pass. All by the model.

use std::collections::BTreeMap;

use model::answers::{open, refusal};
use model::calls::Answers;
use model::cases::Case;
use model::format::{read, Kind, Message, MOST_PER_TRANSFER};
use model::place::Place;
use model::weights::Config;

/// What a case may reach, besides the places of refusal in a message.
const WORDS: [&str; 31] = [
    "number 1",
    "number 2",
    "number 3",
    "number 4",
    "number 5",
    "number 14",
    "number 15",
    "15 for a list beside a message that would be refused",
    "15 for a list beside a server or map out of bounds",
    "1 for the house beside a list that is not lawful",
    "1 for the house: n is 0",
    "1 for the house: n is over 16",
    "1 for the house: 2f is n or more",
    "1 for a server",
    "1 for a map",
    "accepted request",
    "accepted reply",
    "accepted share",
    "accepted message of 1,111 bytes",
    "accepted where servers start level",
    "accepted where they do not",
    "accepted where W is 16,000",
    "quorum above 0",
    "quorum 0",
    "quorum below 0",
    "seats",
    "edge: a row's total is its count",
    "edge: a row's total is 16,000 times its count",
    "edge: with one less a weight would be light",
    "edge: a map just below half of the weight",
    "edge: a map just above half of the weight",
];

pub struct Counts {
    places: BTreeMap<Place, u64>,
    words: BTreeMap<&'static str, u64>,
}

impl Counts {
    pub fn new() -> Counts {
        Counts {
            places: Place::ALL.iter().map(|&place| (place, 0)).collect(),
            words: WORDS.iter().map(|&words| (words, 0)).collect(),
        }
    }

    /// Counts what the case reached, given the model's answers.
    pub fn add(&mut self, case: &Case, answers: &Answers) {
        let refused = |number| answers.contains(&refusal(number));
        self.reach_if(refused(1), "number 1");
        self.reach_if(refused(2), "number 2");
        self.reach_if(refused(3), "number 3");
        self.reach_if(refused(4), "number 4");
        self.reach_if(refused(5), "number 5");
        self.reach_if(refused(14), "number 14");
        self.reach_if(refused(15), "number 15");
        self.reach_if(answers[3] >= 0, "seats");
        match open(case.n, case.f, &case.starts, &case.message) {
            Ok((config, message)) => {
                self.add_accepted(case, config, &message, answers);
                self.add_edges(config, &message, answers);
            }
            Err(fault) => {
                *self.places.entry(fault.place).or_default() += 1;
                if fault.place == Place::House {
                    self.reach(match case.n {
                        0 => "1 for the house: n is 0",
                        1..=16 => "1 for the house: 2f is n or more",
                        _ => "1 for the house: n is over 16",
                    });
                    self.reach_if(
                        case.starts.len() as u64 != case.n,
                        "1 for the house beside a list that is not lawful",
                    );
                }
                if fault.number == 15 {
                    self.add_bad_list(case);
                }
            }
        }
    }

    /// What else there is to refuse where the list is not lawful.
    fn add_bad_list(&mut self, case: &Case) {
        let config = Config::level(case.n, case.f);
        self.reach_if(
            read(config, &case.message).is_err(),
            "15 for a list beside a message that would be refused",
        );
        self.reach_if(
            case.server >= case.n || !config.names_servers(case.map),
            "15 for a list beside a server or map out of bounds",
        );
    }

    fn add_accepted(&mut self, case: &Case, config: Config, message: &Message, answers: &Answers) {
        let [_, weight, quorum, _] = *answers;
        self.reach(match message.kind {
            Kind::Request => "accepted request",
            Kind::Reply => "accepted reply",
            Kind::Share => "accepted share",
        });
        self.reach_if(
            case.message.len() == 1_111,
            "accepted message of 1,111 bytes",
        );
        self.reach(match config.is_level() {
            true => "accepted where servers start level",
            false => "accepted where they do not",
        });
        self.reach_if(config.total() == 16_000, "accepted where W is 16,000");
        self.reach_if(weight == refusal(1), "1 for a server");
        self.reach_if(quorum == refusal(1), "1 for a map");
        self.reach_if(quorum > 0, "quorum above 0");
        self.reach_if(quorum == 0, "quorum 0");
        self.reach_if((-config.total()..0).contains(&quorum), "quorum below 0");
    }

    fn add_edges(&mut self, config: Config, message: &Message, answers: &Answers) {
        let [_, _, quorum, _] = *answers;
        let ledger = &message.ledger;
        let rows = ledger.counts.iter().zip(&ledger.cells);
        let totals = rows.filter(|(&count, _)| count != 0).map(|(&count, row)| {
            let total: u64 = row.iter().map(|&cell| u64::from(cell)).sum();
            (u64::from(count), total)
        });
        self.reach_if(
            totals.clone().any(|(count, total)| total == count),
            "edge: a row's total is its count",
        );
        self.reach_if(
            totals
                .clone()
                .any(|(count, total)| total == MOST_PER_TRANSFER * count),
            "edge: a row's total is 16,000 times its count",
        );
        let weights = ledger.weights(config);
        self.reach_if(
            weights[..config.n()]
                .iter()
                .any(|&weight| !config.above_floor(weight - 1)),
            "edge: with one less a weight would be light",
        );
        // A margin is even where W is.
        self.reach_if(
            (-2..0).contains(&quorum),
            "edge: a map just below half of the weight",
        );
        self.reach_if(
            (1..=2).contains(&quorum),
            "edge: a map just above half of the weight",
        );
    }

    fn reach(&mut self, words: &'static str) {
        *self.words.get_mut(words).expect("the words are listed") += 1;
    }

    fn reach_if(&mut self, reached: bool, words: &'static str) {
        if reached {
            self.reach(words);
        }
    }

    /// Every count with its words.
    pub fn lines(&self) -> Vec<(String, u64)> {
        let words = WORDS.map(|words| (words.to_string(), self.words[words]));
        let places = Place::ALL.iter();
        let places = places.map(|&place| (place_words(place), self.places[&place]));
        words.into_iter().chain(places).collect()
    }
}

/// A place with its number and its words.
pub fn place_words(place: Place) -> String {
    format!("{} {place:?}: {}", place.number(), place.words())
}

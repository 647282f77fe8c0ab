//! An independent reader and writer of spectrum cards, and builder of sequences from them.
//!
//! It is written from the scope document and requests 1, 2, 11 and 12 alone.
//! Tests and comparisons set it beside the proved code, so it shares nothing
//! with that one and takes its own way through the same rules:
//!
//! * [`numbers`]: every number of the card, each in one place;
//! * [`letters`]: the letters of words, builds and records;
//! * [`refusal`]: why a call is refused, and at which place;
//! * [`check`]: the two sums of a block;
//! * [`block`]: the block fetch, its companion and the seal;
//! * [`profile`]: kind, l and m, each within its limits;
//! * [`entry`]: one entry as stored, and as allowed places;
//! * [`reader`]: admitting a card, entry fetch, the reading head, the lists;
//! * [`given`]: three lists as a call is given them, and their tests;
//! * [`writer`]: writing a card from lists;
//! * [`probe_list`]: importing a list of the older readers as a card, and exporting a card as a list;
//! * [`fasta`]: writing letters as a FASTA record, and reading it back;
//! * [`verdict`]: what is found of the builds of a card;
//! * [`walk`]: the walk on span cards, as the scope document words it;
//! * [`pairs`]: the verdict on pair cards, by rings of choices;
//! * [`layers`]: the verdict on cards of narrow spans, place by place;
//! * [`build`]: building from a card;
//! * [`settle`]: building from a card of narrow spans, or from its lists, with no budget;
//! * [`count`]: how many builds a pair card has, from the card or from lists;
//! * [`report`]: what the programs print: `build` and `settle` for a card, the line of its count, a list or a card for the other, and a record;
//! * [`arrangements`]: the builds of small cards, by trying every arrangement;
//! * [`matching`]: whether words are a build, without a look at how it was found;
//! * [`tables`]: the small tables of the scope document;
//! * [`cards`]: sound and damaged cards for tests, drawn from a seed;
//! * [`lists`]: sound and damaged lists for tests, drawn from a seed;
//! * [`texts`]: sound and damaged lists of the older readers, drawn from a seed;
//! * [`records`]: sound and damaged FASTA records, drawn from a seed;
//! * [`spans`]: span lists for tests of the walk, drawn from a seed;
//! * [`pair_lists`]: pair lists for tests of their verdict, drawn from a seed;
//! * [`known_counts`]: pair lists whose number of builds is known, part by part;
//! * [`neighbours`]: pair lists whose two places are neighbours, and the span lists that they become;
//! * [`narrow`]: lists of narrow spans, drawn from a seed;
//! * [`late`]: span lists with one build after a long walk, changed step by step;
//! * [`for_builds`]: lists of either kind, rooms and budgets, drawn from a seed;
//! * [`stored`]: what programs that store calls share;
//! * [`vectors`]: the stored vectors.

pub mod arrangements;
pub mod block;
pub mod build;
pub mod cards;
pub mod check;
pub mod count;
pub mod entry;
#[cfg(test)]
mod examples;
pub mod fasta;
pub mod for_builds;
pub mod given;
pub mod known_counts;
pub mod late;
pub mod layers;
pub mod letters;
pub mod lists;
pub mod matching;
pub mod narrow;
pub mod neighbours;
pub mod numbers;
pub mod pair_lists;
pub mod pairs;
pub mod probe_list;
pub mod profile;
pub mod reader;
pub mod records;
pub mod refusal;
pub mod report;
pub mod settle;
pub mod spans;
pub mod stored;
pub mod tables;
pub mod texts;
pub mod vectors;
pub mod verdict;
pub mod walk;
pub mod writer;

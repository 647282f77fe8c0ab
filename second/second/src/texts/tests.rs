//! Tests of texts that are drawn.

use super::*;
use crate::probe_list::import;

#[test]
fn the_texts_of_sound_lists_mean_their_card() {
    let mut random = Random::new(1);
    for _ in 0..300 {
        let lists = any_sound_lists(&mut random);
        let card = lists.card().expect("sound lists");
        for text in [text_of(&lists), text_with_bare(&mut random, &lists)] {
            let mut out = vec![0; card.len()];
            assert_eq!(import(&text, &mut out), Ok(card.len()));
            assert_eq!(out, card);
        }
    }
}

#[test]
fn damage_brings_every_refusal_of_a_text() {
    let mut random = Random::new(2);
    let mut came = [0; 27];
    for _ in 0..4000 {
        let mut text = any_text(&mut random);
        for _ in 0..random.between(1, 2) {
            damage(&mut random, &mut text);
        }
        let answer = import(&text, &mut [0; 5000]);
        let number = answer.map_or_else(|refusal| refusal.number(), |_| 0);
        came[usize::from(number)] += 1;
    }
    for number in [0, 6, 7, 11, 23, 24, 25, 26] {
        assert!(came[number] > 0, "{number} of {came:?}");
    }
}

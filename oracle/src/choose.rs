//! Chooses a sample of cards: choose TIMES FOLDER SIZES. The folder has a file for each mutant
//! with the cards that tell it apart, and SIZES has the cards to choose from with their lines: a
//! card is two words, `near SEED` or `far SEED`, its lines a third. Near and far cards are taken
//! by turns, each time the one that tells the most mutants apart for its length, until each
//! mutant is told apart by as many cards as TIMES, or by all there are. Prints the cards.

use std::collections::HashMap;
use std::fs;

/// A card: near or far, and its seed.
type Card = (String, u64);

fn main() {
    let arguments: Vec<String> = std::env::args().skip(1).collect();
    let [times, folder, sizes] = &arguments[..] else {
        eprintln!("usage: choose TIMES FOLDER SIZES");
        std::process::exit(2);
    };
    let times: usize = times.parse().expect("a number of times");
    let sizes = fs::read_to_string(sizes).expect("the sizes can be read");
    let sizes: HashMap<Card, u64> = sizes.lines().map(sized).collect();
    // For each card, the mutants that it tells apart; for each mutant, how many cards it lacks.
    let mut tells: HashMap<Card, Vec<usize>> = HashMap::new();
    let mut lacks = Vec::new();
    for file in fs::read_dir(folder).expect("the folder can be read") {
        let path = file.expect("the folder can be read").path();
        let told = fs::read_to_string(path).expect("the mutant's cards can be read");
        let told: Vec<Card> = told.lines().map(|line| card(line).0).collect();
        let told: Vec<Card> = told
            .into_iter()
            .filter(|card| sizes.contains_key(card))
            .collect();
        let mutant = lacks.len();
        lacks.push(told.len().min(times));
        for card in told {
            tells.entry(card).or_default().push(mutant);
        }
    }
    let mut turn = ["near", "far"].into_iter().cycle();
    while lacks.iter().any(|&lack| lack > 0) {
        let turn = turn.next().expect("turns have no end");
        // The gain for each line, in parts of 2^20; the least seed where it is the same.
        let gain = |(card, mutants): &(&Card, &Vec<usize>)| {
            let gain = mutants.iter().filter(|&&mutant| lacks[mutant] > 0).count() as u64;
            (
                (gain << 20) / (sizes[*card] + 10),
                std::cmp::Reverse(card.1),
            )
        };
        let mine = tells.iter().filter(|(card, _)| card.0 == turn);
        let Some(best) = mine.max_by_key(gain).map(|(card, _)| card.clone()) else {
            continue;
        };
        let mutants = tells.remove(&best).expect("it was there");
        if mutants.iter().all(|&mutant| lacks[mutant] == 0) {
            continue;
        }
        for mutant in mutants {
            lacks[mutant] = lacks[mutant].saturating_sub(1);
        }
        println!("{} {}", best.0, best.1);
    }
}

/// The card that a line names, and what follows.
fn card(line: &str) -> (Card, Option<u64>) {
    let mut words = line.split(' ');
    let times = words.next().expect("near or far");
    let mut numbers = words.map(|word| word.parse().expect("a number"));
    let seed = numbers.next().expect("a seed");
    ((times.into(), seed), numbers.next())
}

fn sized(line: &str) -> (Card, u64) {
    let (card, size) = card(line);
    (card, size.expect("a size"))
}

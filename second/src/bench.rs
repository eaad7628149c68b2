//! The proved reader timed against the ordinary one, on the same words in one
//! run.

use crate::long::LONG;
use crate::ordinary;
use crate::proved::read_long;
use crate::random::Random;
use std::hint::black_box;
use std::time::{Duration, Instant};

const QUESTIONS: usize = 1 << 16;
const ROUNDS: usize = 200;
/// Words kept of each class.
const WORDS_KEPT: usize = 4096;

type Question = (u32, u32);

/// Words of a class spread over its enumeration.
fn words_of_class(class: u8) -> Vec<u32> {
    let mut records = 0;
    LONG.records_of_class(class, &mut |_, _, _| records += 1);
    let step = usize::div_ceil(records, WORDS_KEPT);
    let mut words = Vec::new();
    let mut index = 0;
    LONG.records_of_class(class, &mut |_, word, _| {
        if index % step == 0 {
            words.push(word);
        }
        index += 1;
    });
    words
}

/// By turns a random word and a word that some edition has, the classes of
/// the latter equally often.
fn questions() -> Vec<Question> {
    let mut random = Random::seeded(5);
    let classes: Vec<Vec<u32>> = LONG.every_class().map(words_of_class).collect();
    let mut questions = Vec::with_capacity(QUESTIONS);
    while questions.len() < QUESTIONS {
        let class = random.below(classes.len() as u64) as usize;
        let valid = random.pick(&classes[class]);
        for word in [random.word(), valid] {
            questions.push((random.below(LONG.editions.into()) as u32, word));
        }
    }
    questions
}

fn time<T>(questions: &[Question], read: impl Fn(u32, u32) -> T) -> Duration {
    let start = Instant::now();
    for &(edition, word) in questions {
        black_box(read(black_box(edition), black_box(word)));
    }
    start.elapsed()
}

/// Prints the best round of each reader and their ratio.
pub fn bench() {
    let questions = questions();
    let mut best = [Duration::MAX; 2];
    for _ in 0..ROUNDS {
        best[0] = best[0].min(time(&questions, read_long));
        best[1] =
            best[1].min(time(&questions, |edition, word| ordinary::read(edition, word.into())));
    }
    let [proved, ordinary] = best.map(|time| time.as_secs_f64() * 1e9 / QUESTIONS as f64);
    println!("{QUESTIONS} words, half of them valid, best of {ROUNDS} rounds");
    println!("proved reader    {proved:7.2} ns a word");
    println!("ordinary reader  {ordinary:7.2} ns a word");
    println!("ratio            {:7.2}", proved / ordinary);
}

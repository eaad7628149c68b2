//! The proved decoder of A32 loads and stores against the patterns, on all words.

use crate::a32::{find, forms, Form};
use crate::compare::THREADS;
use crate::proved::{a32_form, a32_rewrite, REFUSED};
use std::thread;
use std::time::Instant;

/// Words taken by the code of each form, and the words that the proved code answers
/// otherwise.
struct Tally {
    taken: [u64; 64],
    different: Vec<u32>,
}

/// Compares every `stride`-th word; true when there was no difference, and where
/// all were compared, when each form took as many as its free bits give.
pub fn compare(stride: usize) -> bool {
    let start = Instant::now();
    let forms = forms();
    let share = u32::MAX / THREADS + 1;
    let tallies: Vec<Tally> = thread::scope(|scope| {
        let shares: Vec<_> = (0..THREADS)
            .map(|number| {
                let forms = &forms;
                let words = number * share..=number * share + (share - 1);
                scope.spawn(move || compare_words(forms, words.step_by(stride)))
            })
            .collect();
        shares.into_iter().map(|share| share.join().expect("a share compared")).collect()
    });
    let mut counts_agree = true;
    println!("\nA32 words taken by form:");
    for form in &forms {
        let taken: u64 = tallies.iter().map(|tally| tally.taken[form.code() as usize]).sum();
        let all = form.words();
        println!("{:<18} {taken:>11} of {all:>11}", form.name);
        counts_agree &= stride != 1 || taken == all;
    }
    let different: Vec<u32> = tallies.into_iter().flat_map(|tally| tally.different).collect();
    println!("A32 words compared in {:.1} s", start.elapsed().as_secs_f64());
    println!("\ndifferences: {}", different.len());
    different.iter().take(10).for_each(|word| println!("{word:08x}: {:x}", a32_form(*word)));
    counts_agree && different.is_empty()
}

fn compare_words(forms: &[Form], words: impl Iterator<Item = u32>) -> Tally {
    let mut tally = Tally { taken: [0; 64], different: Vec::new() };
    for word in words {
        let form = find(forms, word);
        let expected = form.map_or((REFUSED, REFUSED), |form| (form.code(), word.into()));
        if let Some(form) = form {
            tally.taken[form.code() as usize] += 1;
        }
        if (a32_form(word), a32_rewrite(word)) != expected {
            tally.different.push(word);
        }
    }
    tally
}

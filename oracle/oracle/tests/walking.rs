//! The second walker against what was written down by hand from 02, and what its questions reach.
use oracle::reading::read;
use oracle::walking::{walk, Run};
use oracle::walks::{edges, mazes, random};

#[test]
fn every_edge_gives_what_is_due() {
    let edges = edges::all();
    let wrong: Vec<String> = edges
        .iter()
        .filter(|e| walk(&e.question.image, &e.question.run, e.question.lent) != e.due)
        .map(|e| e.name.clone())
        .collect();
    assert!(wrong.is_empty(), "{} of {}:\n{}", wrong.len(), edges.len(), wrong.join("\n"));
    assert!(edges.len() > 400, "{}", edges.len());
}

#[test]
fn mazes_are_taken() {
    for k in 0..2000 {
        let maze = mazes::any(&mut oracle::rng::Rng::for_case(3, k));
        assert!(read(&maze).is_ok(), "maze {k}");
    }
}

/// Random walks reach every answer and ending, often with the budget's last step at the end; a walk is as long as it is said to be.
#[test]
fn random_walks_reach_everything() {
    let (mut numbers, mut endings, mut last, mut long) = ([0; 30], [0; 5], [0; 5], 0);
    for k in 0..20_000 {
        let question = random::any(7, k);
        let Run { budget, .. } = question.run;
        let walked = walk(&question.image, &question.run, question.lent);
        let [number, _, steps, index, ending] = walked.numbers;
        numbers[number as usize] += 1;
        assert_eq!(walked.visited.len(), question.lent);
        if number != 0 {
            assert!(walked.numbers[2..] == [0; 3] && walked.visited.iter().all(|byte| *byte == 0));
            continue;
        }
        assert!(steps <= budget && walked.visited[index as usize] == 1 && walked.visited[0] == 1);
        assert!(walked.visited.iter().filter(|byte| **byte == 1).count() as u64 <= steps + 1);
        endings[ending as usize] += 1;
        last[ending as usize] += u32::from(steps == budget);
        long += u32::from(steps > 300);
    }
    assert!([0, 19, 20, 22, 23, 25, 29].iter().all(|n| numbers[*n] > 100), "{numbers:?}");
    assert!(
        endings.iter().all(|n| *n > 100) && last[..3].iter().all(|n| *n > 300) && last[3..] == [0, 0] && long > 50,
        "{endings:?} {last:?} {long}"
    );
}

/// One step less in the budget ends one step earlier, by the budget, where the path had a step.
#[test]
fn a_budget_one_short() {
    for k in 0..5000 {
        let question = random::any(8, k);
        let walked = walk(&question.image, &question.run, question.lent);
        let [number, _, steps, ..] = walked.numbers;
        if number == 0 && steps > 0 {
            let run = Run { budget: steps - 1, ..question.run };
            let shorter = walk(&question.image, &run, question.lent);
            assert_eq!((shorter.numbers[2], shorter.numbers[4]), (steps - 1, 2));
            assert!(shorter.visited.iter().zip(&walked.visited).all(|(less, more)| less <= more));
        }
    }
}

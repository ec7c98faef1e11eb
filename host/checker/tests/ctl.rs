//! The states in which formulas hold, against paths written out one by one.

mod samples;

use std::array::from_fn;

use checker::bytes::{Formula, SIDES};
use checker::ctl::{Model, States};
use checker::generate::{formulas, Random, Shape};
use checker::joined::{holds, Labels};
use samples::with_zeros;

/// Every path of `steps` steps from a state.
fn paths(next: &[Vec<usize>], state: usize, steps: usize) -> Vec<Vec<usize>> {
    if steps == 0 {
        return vec![vec![state]];
    }
    let mut all = Vec::new();
    for &follower in &next[state] {
        for mut path in paths(next, follower, steps - 1) {
            path.insert(0, state);
            all.push(path);
        }
    }
    all
}

/// The states in which each formula holds, from all paths with as many steps
/// as there are states. Such a path meets some state twice, so that a path
/// which hasn't met b by its end can go on without it for ever.
fn by_paths(labels: &[Labels], next: &[Vec<usize>], formulas: &[Formula]) -> Vec<States> {
    let mut holding: Vec<States> = Vec::new();
    for &formula in formulas {
        let comes_true = |state: usize| {
            let paths = paths(next, state, next.len());
            match formula {
                Formula::True => true,
                Formula::False => false,
                Formula::Proposition(p) => holds(labels[state], p),
                Formula::NotProposition(p) => !holds(labels[state], p),
                Formula::And(a, b) => holding[a].contains(&state) && holding[b].contains(&state),
                Formula::Or(a, b) => holding[a].contains(&state) || holding[b].contains(&state),
                Formula::Next(a) => paths.iter().all(|path| holding[a].contains(&path[1])),
                Formula::Until(a, b) => paths.iter().all(|path| {
                    let met = path.iter().position(|state| holding[b].contains(state));
                    met.is_some_and(|met| {
                        path[..met].iter().all(|state| holding[a].contains(state))
                    })
                }),
                Formula::Always(a) => {
                    paths.iter().flatten().all(|state| holding[a].contains(state))
                }
            }
        };
        let states = (0..next.len()).filter(|&state| comes_true(state)).collect();
        holding.push(states);
    }
    holding
}

#[test]
fn random_models_against_paths() {
    let mut random = Random::new(1);
    let mut decided = [0, 0];
    for _ in 0..2_000 {
        let states = random.from_to(1, 5);
        let labels: Vec<Labels> =
            (0..states).map(|_| from_fn(|_| random.below(8) as u16)).collect();
        let next: Vec<Vec<usize>> = (0..states)
            .map(|_| (0..random.from_to(1, 2)).map(|_| random.below(states)).collect())
            .collect();
        let formulas = formulas(&mut random, &Shape::SMALL, 16);
        let holding = Model::new(labels.clone(), next.clone()).holding(&formulas);
        assert_eq!(
            holding,
            by_paths(&labels, &next, &formulas),
            "{labels:?} {next:?} {formulas:?}"
        );
        for (formula, states) in formulas.iter().zip(&holding) {
            if matches!(formula, Formula::Until(..)) {
                decided[0] += states.len();
                decided[1] += next.len() - states.len();
            }
        }
    }
    assert!(decided.iter().all(|&states| states > 1_000), "both answers come: {decided:?}");
}

/// Four states in a row: 0 to 1, 1 to itself or 2, 2 to 3, 3 to itself.
/// In state 2 proposition 17 holds, in state 3 both 0 and 17, in the others none.
fn row() -> Model {
    let labels = [[0, 0], [0, 0], [0, 2], [1, 2]].map(with_zeros).to_vec();
    Model::new(labels, vec![vec![1], vec![1, 2], vec![3], vec![3]])
}

#[test]
fn a_row_of_states() {
    let formulas = [
        Formula::Proposition(0),
        Formula::Proposition(17),
        Formula::NotProposition(17),
        Formula::Next(1),
        Formula::Always(1),
        Formula::True,
        // Every path meets 17: not where state 1 may stay.
        Formula::Until(5, 1),
        // 17 up to 0.
        Formula::Until(1, 0),
        Formula::False,
        // Nothing before 17, so at once.
        Formula::Until(8, 1),
        Formula::Always(3),
    ];
    let expected: [&[usize]; 11] = [
        &[3],
        &[2, 3],
        &[0, 1],
        &[2, 3],
        &[2, 3],
        &[0, 1, 2, 3],
        &[2, 3],
        &[2, 3],
        &[],
        &[2, 3],
        &[2, 3],
    ];
    let holding = row().holding(&formulas);
    for (number, states) in expected.iter().enumerate() {
        assert_eq!(holding[number], states.iter().copied().collect(), "formula {number}");
    }
}

#[test]
fn until_holds_where_its_second_part_holds_at_once() {
    let stuck = Model::new(vec![with_zeros([1])], vec![vec![0]]);
    let formulas =
        [Formula::False, Formula::Proposition(0), Formula::Until(0, 1), Formula::Until(1, 0)];
    let holding = stuck.holding(&formulas);
    assert!(holding[2].contains(&0));
    assert!(!holding[3].contains(&0));
}

#[test]
fn a_long_row_of_states() {
    // State n leads to n + 1, the last to itself; 0 holds in the last alone.
    let states = 65_536;
    let mut labels = vec![[0; SIDES]; states];
    labels[states - 1][0] = 1;
    let next = (0..states).map(|state| vec![(state + 1).min(states - 1)]).collect();
    let formulas =
        [Formula::True, Formula::Proposition(0), Formula::Until(0, 1), Formula::Always(2)];
    let holding = Model::new(labels, next).holding(&formulas);
    assert_eq!(holding[1], States::from([states - 1]));
    assert_eq!(holding[2].len(), states);
    assert_eq!(holding[3].len(), states);
}

//! Why no converter exists: designs whose answer was worked out by hand, and random ones against the second checker.

#[path = "../../checker/tests/samples/mod.rs"]
mod samples;

use checker::bytes::{self, positions, Formula, StateKind};
use checker::generate::{progress_design, ruled_design, sides, Random, Shape};
use checker::search::find;
use desk::design::{from_bytes, Design, Rule, Side, State, Transition};
use desk::formulas;
use desk::library;
use desk::why::{why, Change, ChangeKind, Why};
use gorzhani::Refused;
use samples::{
    handshake, next_sixteen_next_seventeen, rings, ruled_handshake, state, thumbnails, two_inputs,
    viewer,
};

const SENDS_AT_ONCE: ChangeKind = ChangeKind::SendsAtOnce;
const WAITS: ChangeKind = ChangeKind::Waits;

fn answer(design: &Design) -> Result<Option<Why>, Refused> {
    why(design, &mut |_| ())
}

fn change((side, state, kind): (usize, usize, ChangeKind)) -> Change {
    Change { side, state, kind }
}

/// What is expected: sets of rules, counted from 0, and changes.
fn expect(design: &Design, sets: &[&[usize]], changes: &[(usize, usize, ChangeKind)]) {
    let why = answer(design).expect("it is searched").expect("there is no converter");
    assert_eq!(why.sets, sets, "{}", design.title);
    let changes: Vec<Change> = changes.iter().copied().map(change).collect();
    assert_eq!(why.changes, changes, "{}", design.title);
}

fn example(name: &str) -> Design {
    let path = format!("{}/../../examples/{name}.design", env!("CARGO_MANIFEST_DIR"));
    from_bytes(&std::fs::read(path).expect("the example is there"), name)
}

fn named(design: &bytes::Design) -> Design {
    from_bytes(&design.to_bytes(), "")
}

#[test]
fn a_converter_exists() {
    assert_eq!(answer(&named(&handshake(vec![], vec![]))), Ok(None));
    assert_eq!(answer(&named(&ruled_handshake(false))), Ok(None));
    assert_eq!(answer(&example("lock")), Ok(None));
}

#[test]
fn refused() {
    let large = named(&rings(Formula::Until(14, 4)));
    assert_eq!(answer(&large), Err(Refused::POSITIONS));
}

/// s0 may wait for ever, and sends at once without its tick. What s1 and the host do doesn't matter.
#[test]
fn a_side_that_waits() {
    let waiting = vec![Formula::True, Formula::Proposition(1), Formula::Until(0, 1)];
    expect(&named(&handshake(waiting, vec![2])), &[&[0]], &[(0, 0, SENDS_AT_ONCE)]);
}

/// The host reads one of two signals; a tick of h0 leads to neither label.
#[test]
fn either_and_not_both() {
    let design = named(&two_inputs(next_sixteen_next_seventeen(), vec![2, 3]));
    expect(&design, &[&[0, 1]], &[]);
    // Twice the same rule: either of the two stands against the other.
    let design = named(&two_inputs(next_sixteen_next_seventeen(), vec![2, 3, 2]));
    expect(&design, &[&[0, 1], &[1, 2]], &[]);
}

#[test]
fn examples() {
    // A job is begun for rule 4 or for rule 5, the user presses during it, and it goes on for ever: the drag can't
    // begin without the lock for rule 1, and has to for rule 3. Rule 2 asks nothing during a job. No
    // job is begun where rules 4 and 5 are left out, the drag begins without the lock or never where the
    // first or the third is. Without the tick of job it is the lock; without that of idle a drag waits or drags again and again, and no job
    // is wanted. That a drag ends at once doesn't help: a user who rests wants a job.
    let changes = [(0, 2, SENDS_AT_ONCE), (1, 0, SENDS_AT_ONCE)];
    expect(&example("lock-none"), &[&[0, 2, 3], &[0, 2, 4]], &changes);
    // (s1, t0) is always reached: by the first request, or from (s1, t1), which serial leaves. There
    // rule 3 wants (s0, t1) at the grant, where rule 4 breaks. If the grant comes at once, both sides
    // go from (s0, t0) to (s1, t1) and back. If t1 waits, it waits in (s1, t1) for the grant.
    let changes = [(0, 1, SENDS_AT_ONCE), (1, 1, WAITS)];
    expect(&example("handshake-printed"), &[&[2, 3]], &changes);
    // A service that asks and a user who rests may do so for ever, which breaks rule 3. For the
    // first two the example's page says why, and no change is against both.
    expect(&example("thumbnails-none"), &[&[2], &[0, 1]], &[]);
    // Access lasts two ticks or more, a grant one; rule 3 can't be broken.
    expect(&example("arbiter-consumer"), &[&[0, 1]], &[]);
}

/// A thumbnail that waits for ever keeps the viewer from showing; how it begins doesn't matter.
#[test]
fn a_third_side() {
    let design = named(&viewer(thumbnails(true)));
    expect(&design, &[&[0, 1]], &[(2, 1, SENDS_AT_ONCE)]);
    let text = answer(&design).unwrap().unwrap().text(&design);
    let change = "    Third, s1: without its tick (it then sends 'x2' at once)";
    assert_eq!(text.lines().last(), Some(change));
}

/// A state with as many transitions as there may be gets no tick.
#[test]
fn a_ninth_transition_is_no_change() {
    for (inputs, changes) in [(7, vec![(1, 0, WAITS)]), (8, vec![])] {
        let places: Vec<(i8, u8)> = (1..=inputs).map(|event| (event, 1)).collect();
        let host = vec![state(&[0], &places), state(&[], &[(0, 1)])];
        let formulas = vec![Formula::Proposition(16), Formula::Next(0)];
        let design = samples::design([vec![state(&[], &[(0, 0)])], host], formulas, vec![1]);
        expect(&named(&design), &[&[0]], &changes);
    }
}

/// A state of a page.
fn page_state(name: &str, label_word: u16, transitions: &[(i8, usize)]) -> State {
    let transition = |&(event, target): &(i8, usize)| Transition { event, target };
    let transitions = transitions.iter().map(transition).collect();
    State { name: name.to_string(), label_word, transitions }
}

/// A side of a page.
fn page_side(labels: &[&str], states: Vec<State>) -> Side {
    let labels = labels.iter().map(|label| label.to_string()).collect();
    Side { title: String::new(), states, labels }
}

/// A formula that holds if all of the next states do one thing: a label holds, or doesn't, or
/// another one does.
fn next(list: &mut formulas::Formulas, label: u8, holds: bool, or: Option<u8>) -> usize {
    let mut own = list.add(formulas::Formula::Label(label));
    if !holds {
        own = list.add(formulas::Formula::Not(own));
    }
    if let Some(other) = or {
        let other = list.add(formulas::Formula::Label(other));
        own = list.add(formulas::Formula::Or(other, own));
    }
    list.add(formulas::Formula::Next(own))
}

/// A design as a page gives it.
fn page(
    sides: Vec<Side>,
    signals: &[&str],
    formulas: formulas::Formulas,
    rules: &[(&str, usize)],
) -> Design {
    let rule = |&(sentence, formula): &(&str, usize)| Rule { sentence: sentence.into(), formula };
    let mut design = Design {
        sides,
        signals: signals.iter().map(|signal| signal.to_string()).collect(),
        formulas,
        rules: rules.iter().map(rule).collect(),
        ..Design::default()
    };
    design.blocks = library::rules(&design.typed()).expect("the rules are read").0;
    design
}

/// The kernel may rest for ever, and the host has to go or to halt at once.
#[test]
fn a_page() {
    let kernel = page_side(
        &["ready"],
        vec![page_state("rest", 0, &[(0, 0), (-1, 1)]), page_state("ready", 1, &[(0, 1)])],
    );
    let host = page_side(
        &["goes", "halts"],
        vec![
            page_state("reading", 0, &[(2, 1), (3, 2)]),
            page_state("going", 1, &[(0, 1)]),
            page_state("halted", 2, &[(0, 2)]),
        ],
    );
    let mut list = formulas::Formulas::default();
    let anything = list.add(formulas::Formula::True);
    let only_ready = next(&mut list, 16, false, Some(0));
    let not_halted = next(&mut list, 17, false, None);
    let design = page(
        vec![kernel, host],
        &["done", "go", "halt"],
        list,
        &[
            ("Anything goes.", anything),
            ("The host goes only with the kernel ready.", only_ready),
            ("The host isn't halted.", not_halted),
        ],
    );
    expect(&design, &[&[1, 2]], &[(0, 0, SENDS_AT_ONCE), (1, 0, WAITS)]);
    let mut said = Vec::new();
    let why = why(&design, &mut |line| said.push(line.to_string())).unwrap().unwrap();
    assert_eq!(said.len(), 2);
    assert_eq!(
        why.text(&design),
        "\
No converter of any size keeps these rules (the library's search: 16).
Rules 2 and 3 can't be kept together; each of them can without the other.
    2. The host goes only with the kernel ready.
       AX (ready | !goes)
    3. The host isn't halted.
       AX !halts
A converter exists if one thing is changed:
    Kernel, rest: without its tick (it then sends 'done' at once)
    Host, reading: with a tick (it may then wait)
"
    );
}

/// A kernel that ticks, and a host that reads one of some signals, each of which leads to a state
/// with some labels; as rules, that each label holds next.
fn fork(label_words: &[u16], labels: u8) -> Design {
    let names = ["a", "b", "c", "d"];
    let reads: Vec<(i8, usize)> = (1..).zip(1..=label_words.len()).collect();
    let mut states = vec![page_state("fork", 0, &reads)];
    for (number, &label_word) in (1..).zip(label_words) {
        states.push(page_state(&format!("end{number}"), label_word, &[(0, number)]));
    }
    let kernel = page_side(&[], vec![page_state("clock", 0, &[(0, 0)])]);
    let mut list = formulas::Formulas::default();
    let rules: Vec<(&str, usize)> =
        (0..labels).map(|label| ("A sentence.", next(&mut list, 16 + label, true, None))).collect();
    let host = page_side(&names[..usize::from(labels)], states);
    page(vec![kernel, host], &["one", "two", "three", "four"], list, &rules)
}

/// What is said of sets of one to four rules: each end of the fork lacks one label.
#[test]
fn sets_in_words() {
    let words = [
        "Rule 1 can't be kept, even alone.",
        "Rules 1 and 2 can't be kept together; each of them can without the other.",
        "Rules 1, 2 and 3 can't be kept together; any two of them can.",
        "Rules 1, 2, 3 and 4 can't be kept together; without any one of them the others can.",
    ];
    for (labels, words) in (1..).zip(words) {
        let all = (1 << labels) - 1;
        let ends: Vec<u16> = (0..labels).map(|label| all & !(1 << label)).collect();
        let design = fork(&ends, labels);
        let why = answer(&design).unwrap().unwrap();
        assert_eq!(why.sets, [(0..usize::from(labels)).collect::<Vec<usize>>()]);
        assert_eq!(why.text(&design).lines().nth(1), Some(words));
    }
}

/// Each end has one label alone, so that no two rules go together; a rule is written out once.
#[test]
fn several_sets() {
    let design = fork(&[1, 2, 4], 3);
    expect(&design, &[&[0, 1], &[0, 2], &[1, 2]], &[]);
    assert_eq!(
        answer(&design).unwrap().unwrap().text(&design),
        "\
No converter of any size keeps these rules (the library's search: 16).
Rules 1 and 2 can't be kept together; each of them can without the other.
    1. A sentence.
       AX a
    2. A sentence.
       AX b
Rules 1 and 3 can't be kept together; each of them can without the other.
    3. A sentence.
       AX c
Rules 2 and 3 can't be kept together; each of them can without the other.
No change of one state helps, be it a delayed state without its tick (it then sends at once) or an input state with a tick (it may then wait).
"
    );
}

/// A design with up to six rules, of any kind.
fn any_rules(random: &mut Random) -> bytes::Design {
    let shape = Shape { states: 3, formulas: 24, rules: 6, ..Shape::SMALL };
    match random.below(3) {
        0 => ruled_design(random, &shape),
        1 => progress_design(random, &Shape { rules: 3, ..shape }),
        _ => short_rules(random, &shape),
    }
}

/// A design with up to six rules that each want something of one label.
fn short_rules(random: &mut Random, shape: &Shape) -> bytes::Design {
    let (mut formulas, mut rules) = (vec![Formula::True], Vec::new());
    for _ in 0..random.from_to(2, shape.rules) {
        let label = (16 * random.below(3) + random.below(shape.propositions)) as u8;
        let literal = [Formula::Proposition(label), Formula::NotProposition(label)];
        formulas.push(*random.pick(&literal));
        let at = formulas.len() - 1;
        let wanted = [Formula::Always(at), Formula::Until(0, at), Formula::Next(at)];
        formulas.push(*random.pick(&wanted));
        if random.once_in(2) {
            formulas.push(Formula::Next(at + 1));
        }
        rules.push((formulas.len() - 1) as u8);
    }
    bytes::Design { sides: sides(random, shape), formulas, rules }
}

/// A design whose rules can be kept one by one.
fn each_alone(random: &mut Random) -> bytes::Design {
    let shape = Shape { states: 4, rules: 6, ..Shape::SMALL };
    let mut made = match random.below(3) {
        0 => any_rules(random),
        _ => short_rules(random, &shape),
    };
    if is_small(&made) {
        let alone =
            |&rule: &u8| find(&bytes::Design { rules: vec![rule], ..made.clone() }).is_some();
        made.rules = made.rules.iter().copied().filter(alone).collect();
    }
    made
}

/// A design that had a converter before a state got a tick or lost it.
fn spoilt(random: &mut Random) -> bytes::Design {
    let mut made = any_rules(random);
    if !is_small(&made) || find(&made).is_none() {
        return made;
    }
    let side = random.below(3);
    let state = random.below(made.sides[side].len());
    let place = bytes::Transition { event: 0, target: state as u8 };
    let kind = made.sides[side][state].kind();
    let transitions = &mut made.sides[side][state].transitions;
    match kind {
        Some(StateKind::OutputOnly) => transitions.insert(random.below(2), place),
        Some(StateKind::Input) if transitions.len() > 1 => transitions.retain(|own| *own != place),
        _ => (),
    }
    made
}

/// A kernel that rests as long as it likes, and a host that reads one of some signals, each of which
/// leads to a state with some of six labels. Each rule wants that a label holds then, or that the
/// kernel doesn't rest any more; or the label alone.
fn forks(random: &mut Random) -> bytes::Design {
    let kernel = vec![state(&[], &[(0, 0), (-1, 1)]), state(&[0], &[(0, 1)])];
    let ends = random.from_to(2, 6) as u8;
    let reads: Vec<(i8, u8)> = (1..=ends).map(|end| (end as i8, end)).collect();
    let mut host = vec![state(&[6], &reads)];
    for end in 1..=ends {
        let labels: Vec<u8> = (0..6).filter(|_| !random.once_in(4)).collect();
        host.push(state(&labels, &[(0, end)]));
    }
    let (mut formulas, mut rules) = (vec![], vec![]);
    for label in 0..6 {
        let at = formulas.len();
        let left = *random.pick(&[Formula::Proposition(0), Formula::False]);
        let right = Formula::Proposition(16 + label);
        formulas.extend([Formula::Proposition(22), left, right, Formula::Or(at + 1, at + 2)]);
        formulas.extend([Formula::Or(at, at + 3), Formula::Always(at + 4)]);
        rules.push((at + 5) as u8);
    }
    samples::design([kernel, host], formulas, rules)
}

/// Whether there are few rules and few positions.
fn is_small(design: &bytes::Design) -> bool {
    design.rules.len() <= 6 && positions(design) <= 4_096
}

/// The same design as a page gives it, each rule with formulas of its own; where it isn't too large.
fn as_a_page(design: &Design) -> Option<Design> {
    let (blocks, _) = library::rules(&design.typed()).ok()?;
    Some(Design { numbers: vec![], blocks, ..design.clone() })
}

/// Whether the second checker finds a converter for some of the rules; bit i of the set is rule i.
fn found(design: &bytes::Design, set: usize) -> bool {
    let rules = design.rules.iter().enumerate().filter(|(rule, _)| set >> rule & 1 == 1);
    let rules = rules.map(|(_, &rule)| rule).collect();
    find(&bytes::Design { rules, ..design.clone() }).is_some()
}

/// The sets that aren't found though each of their parts is, smaller ones first.
fn smallest(design: &bytes::Design) -> Vec<Vec<usize>> {
    let found: Vec<bool> = (0..1 << design.rules.len()).map(|set| found(design, set)).collect();
    let rules = |set: usize| -> Vec<usize> {
        (0..design.rules.len()).filter(|rule| set >> rule & 1 == 1).collect()
    };
    let is_smallest =
        |&set: &usize| !found[set] && rules(set).iter().all(|rule| found[set & !(1 << rule)]);
    let mut sets: Vec<Vec<usize>> = (0..found.len()).filter(is_smallest).map(rules).collect();
    sets.sort_by_key(|set| (set.len(), set.clone()));
    sets
}

/// Every change there is, in order, with whether the second checker finds a converter then.
fn all_changes(design: &bytes::Design) -> Vec<(Change, bool)> {
    let mut all = Vec::new();
    for side in 0..design.sides.len() {
        for state in 0..design.sides[side].len() {
            let mut changed = design.clone();
            let places = &mut changed.sides[side][state].transitions;
            let tick = places.iter().position(|place| place.event == 0);
            let kind = match (design.sides[side][state].kind(), tick) {
                (Some(StateKind::Delayed), Some(tick)) => {
                    places.remove(tick);
                    SENDS_AT_ONCE
                }
                (Some(StateKind::Input), None) if places.len() < 8 => {
                    places.push(bytes::Transition { event: 0, target: state as u8 });
                    WAITS
                }
                _ => continue,
            };
            all.push((Change { side, state, kind }, find(&changed).is_some()));
        }
    }
    all
}

/// What was seen of random designs.
#[derive(Debug, Default)]
struct Seen {
    converters: usize,
    none: usize,
    pages: usize,
    /// Smallest sets by how many rules they have.
    sets: [usize; 7],
    several_sets: usize,
    sends_at_once: usize,
    waits: usize,
    changes_in_vain: usize,
}

/// Tries a design, from a file or as a page.
fn try_design(random: &mut Random, made: &bytes::Design, seen: &mut Seen) {
    let mut design = from_bytes(&made.to_five_blocks(), "");
    let page = as_a_page(&design).filter(|_| random.once_in(2));
    let is_page = page.is_some();
    if let Some(page) = page {
        design = page;
    }
    let why = match answer(&design) {
        Ok(Some(why)) => why,
        Ok(None) => {
            assert!(find(made).is_some(), "{made:?}");
            seen.converters += 1;
            return;
        }
        refused => {
            // On a page formulas aren't shared, so that there may be more of them.
            assert!(is_page && refused == Err(Refused::POSITIONS));
            return;
        }
    };
    assert_eq!(why.sets, smallest(made), "{made:?}");
    let (help, vain): (Vec<_>, Vec<_>) =
        all_changes(made).into_iter().partition(|(_, found)| *found);
    assert_eq!(why.changes, help.iter().map(|(change, _)| *change).collect::<Vec<_>>(), "{made:?}");
    seen.none += 1;
    seen.pages += usize::from(is_page);
    for set in &why.sets {
        seen.sets[set.len()] += 1;
    }
    seen.several_sets += usize::from(why.sets.len() > 1);
    seen.sends_at_once += help.iter().filter(|(change, _)| change.kind == SENDS_AT_ONCE).count();
    seen.waits += help.iter().filter(|(change, _)| change.kind == WAITS).count();
    seen.changes_in_vain += vain.len();
}

#[test]
fn random_designs() {
    let mut random = Random::new(911);
    let mut seen = Seen::default();
    let makers = [
        (any_rules as fn(&mut Random) -> _, 1_500),
        (each_alone, 400),
        (spoilt, 200),
        (forks, 1_500),
    ];
    for (make, count) in makers {
        let until = seen.none + count;
        while seen.none < until {
            let made = make(&mut random);
            if is_small(&made) {
                try_design(&mut random, &made, &mut seen);
            }
        }
    }
    println!("{seen:?}");
    assert!(seen.sets[1..5].iter().all(|&sets| sets > 50), "{seen:?}");
    assert!(seen.several_sets > 500 && seen.pages > 500, "{seen:?}");
    assert!(seen.sends_at_once > 500 && seen.waits > 500, "{seen:?}");
}

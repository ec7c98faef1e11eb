//! Shortest paths over the records of a converter. A path is a list of places: which transition of
//! its record each tick takes. Among paths of one length, earlier transitions come first.

use std::collections::HashMap;

use crate::records::Record;

/// For so many of the nearest records it is tried whether a loop through them is shorter.
const MOST_TRIED: usize = 500;

/// A shortest path to a record that is an end, over records that are inside.
pub fn shortest(
    records: &[Record],
    from: usize,
    inside: impl Fn(usize) -> bool,
    end: impl Fn(usize) -> bool,
) -> Option<Vec<usize>> {
    if end(from) {
        return Some(Vec::new());
    }
    Tree::grown(records, from, inside, end).path()
}

/// A path and a loop at its end, over records that are inside: the shortest together, if the loop
/// begins near enough. There is one where each record that is inside has a transition to another
/// such record or to itself.
pub fn into_loop(
    records: &[Record],
    from: usize,
    inside: impl Fn(usize) -> bool,
) -> Option<(Vec<usize>, Vec<usize>)> {
    let mut best = first_loop(records, from, &inside)?;
    let near = Tree::grown(records, from, &inside, |_| false);
    for &record in near.order.iter().take(MOST_TRIED) {
        let path = if record == from { Vec::new() } else { near.path_to(record) };
        let left = (best.0.len() + best.1.len()).saturating_sub(path.len());
        if left < 2 {
            break;
        }
        let around = Tree::grown(records, record, &inside, |next| next == record).path();
        if let Some(around) = around.filter(|around| around.len() < left) {
            best = (path, around);
        }
    }
    Some(best)
}

/// The path that takes the first transition that stays inside, until a record comes again.
fn first_loop(
    records: &[Record],
    from: usize,
    inside: impl Fn(usize) -> bool,
) -> Option<(Vec<usize>, Vec<usize>)> {
    let mut passed_at = HashMap::new();
    let (mut places, mut record) = (Vec::new(), from);
    loop {
        if let Some(begin) = passed_at.insert(record, places.len()) {
            let around = places.split_off(begin);
            return Some((places, around));
        }
        let links = &records[record].links;
        let place = links.iter().position(|link| inside(usize::from(link.next)))?;
        places.push(place);
        record = usize::from(links[place].next);
    }
}

/// The records around one, by a breadth-first search.
struct Tree {
    from: usize,
    /// The records in the order in which they were reached, the first one in front.
    order: Vec<usize>,
    /// For each record that was reached, the one before it and the place of the transition.
    reached: Vec<Option<(usize, usize)>>,
    /// The first record that is an end.
    end: Option<usize>,
}

impl Tree {
    /// Searches over records that are inside, up to the first that is an end. The record from
    /// which it begins counts as reached only when a transition leads back to it.
    fn grown(
        records: &[Record],
        from: usize,
        inside: impl Fn(usize) -> bool,
        end: impl Fn(usize) -> bool,
    ) -> Tree {
        let reached = vec![None; records.len()];
        let mut tree = Tree { from, order: vec![from], reached, end: None };
        let mut at = 0;
        while let Some(&record) = tree.order.get(at) {
            at += 1;
            for (place, link) in records[record].links.iter().enumerate() {
                let next = usize::from(link.next);
                if tree.reached[next].is_some() || !inside(next) {
                    continue;
                }
                tree.reached[next] = Some((record, place));
                if end(next) {
                    tree.end = Some(next);
                    return tree;
                }
                if next != from {
                    tree.order.push(next);
                }
            }
        }
        tree
    }

    /// The path to the end.
    fn path(&self) -> Option<Vec<usize>> {
        self.end.map(|end| self.path_to(end))
    }

    /// The path to a record that was reached, of a tick at least.
    fn path_to(&self, record: usize) -> Vec<usize> {
        let (mut places, mut at) = (Vec::new(), record);
        while let Some((before, place)) = self.reached[at] {
            places.push(place);
            at = before;
            if at == self.from {
                break;
            }
        }
        places.reverse();
        places
    }
}

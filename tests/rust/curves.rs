//! The reference for curves. It sees a bucket as the point (rate, burst) of a plane. A bucket is
//! needed, being the only lowest one at some positive time, exactly if its point is a corner of the
//! lower left hull of all points. So normal form is a walk over the sorted points that drops what
//! is no corner, and the sum of two curves is that of all their buckets added one to one: no list is
//! merged here.

use super::rules::*;
use std::cmp::Ordering;

/// The edge from a bucket to a flatter one that has more burst: the two cross at rise/fall.
#[derive(Clone, Copy)]
pub struct Edge {
    pub fall: u64,
    pub rise: u64,
}

pub fn edge(fall: u64, rise: u64) -> Edge {
    Edge { fall, rise }
}

impl Edge {
    pub fn between(steeper: Bucket, flatter: Bucket) -> Edge {
        edge(steeper.rate - flatter.rate, flatter.burst - steeper.burst)
    }

    /// By slope, which is the time of the crossing.
    pub fn order(&self, other: &Edge) -> Ordering {
        let mine = u128::from(self.rise) * u128::from(other.fall);
        mine.cmp(&(u128::from(other.rise) * u128::from(self.fall)))
    }
}

/// Which way the path a, b, c turns at b: below 0 to the right, 0 not at all, above 0 to the left.
fn turn(a: Bucket, b: Bucket, c: Bucket) -> i128 {
    let [ax, ay, bx, by, cx, cy] = [a.rate, a.burst, b.rate, b.burst, c.rate, c.burst].map(i128::from);
    (bx - ax) * (cy - by) - (by - ay) * (cx - bx)
}

/// The corners of the lower left hull by falling rates: the normal form.
pub fn hull(raw: &[Bucket]) -> Vec<Bucket> {
    let mut sorted = raw.to_vec();
    sorted.sort_by_key(|b| (u64::MAX - b.rate, b.burst));
    sorted.dedup_by_key(|b| b.rate);
    let mut corners: Vec<Bucket> = Vec::new();
    for next in sorted {
        // The path leads left and up, and turns right at each corner.
        while let Some(&top) = corners.last() {
            let before = corners.len().checked_sub(2).map(|place| corners[place]);
            let higher = top.burst < next.burst;
            if higher && before.map_or(true, |before| turn(before, top, next) < 0) {
                break;
            }
            corners.pop();
        }
        corners.push(next);
    }
    corners
}

/// All buckets (r+r', b+b').
pub fn all_pairs(f: &[Bucket], g: &[Bucket]) -> Vec<Bucket> {
    let row = |a: &Bucket| g.iter().map(|b| a.plus(*b)).collect::<Vec<_>>();
    f.iter().flat_map(row).collect()
}

/// The least of rate * (p/q) + burst, times q.
pub fn least(curve: &[Bucket], p: u128, q: u128) -> u128 {
    curve.iter().map(|b| b.at(p, q)).min().expect("a bucket")
}

/// Whether a list is the normal form of raw buckets, by the definition alone.
pub fn is_normal_form_of(answer: &[Bucket], raw: &[Bucket]) -> bool {
    if answer.is_empty() {
        return false;
    }
    // Time 0 and the crossings, as (p, q) for p/q.
    let mut times: Vec<(u128, u128)> = vec![(0, 1)];
    for two in answer.windows(2) {
        if two[0].rate <= two[1].rate || two[0].burst >= two[1].burst {
            return false;
        }
        let next = Edge::between(two[0], two[1]);
        times.push((next.rise.into(), next.fall.into()));
    }
    // Between p/q and p'/q' lies (p+p')/(q+q'): there the bucket is strictly below all others.
    let useful = |place: usize| {
        let (p, q) = times[place];
        let (more_p, more_q) = times.get(place + 1).copied().unwrap_or((1, 0));
        let height = |b: &Bucket| b.at(p + more_p, q + more_q);
        let lowest = height(&answer[place]);
        (0..answer.len()).all(|other| other == place || lowest < height(&answer[other]))
    };
    // No raw bucket is below the answer: not at 0, not at a crossing, and not in the end.
    let points: Vec<_> = times.iter().map(|&(p, q)| (p, q, least(answer, p, q))).collect();
    let last_rate = answer[answer.len() - 1].rate;
    let covered = |b: &Bucket| last_rate <= b.rate && points.iter().all(|&(p, q, least)| least <= b.at(p, q));
    (0..answer.len()).all(useful) && answer.iter().all(|b| raw.contains(b)) && raw.iter().all(covered)
}

// ---- lines of the refusal table

fn list_lines(list: &[u64], for_each: usize, buckets: &[Bucket]) -> u32 {
    line(LIST, list.is_empty() || list.len() % for_each != 0)
        | line(COUNT, buckets.len() > MOST_BUCKETS)
        | line(RANGE, !buckets.iter().all(Bucket::in_range))
}

pub fn raw_lines(list: &[u64]) -> u32 {
    list_lines(list, RAW_NUMBERS, &raw_buckets(list))
}

pub fn curve_lines(list: &[u64]) -> u32 {
    let curve = curve_buckets(list);
    let lines = list_lines(list, CURVE_NUMBERS, &curve);
    // FORM cannot win where another line holds of the same list.
    lines | line(FORM, lines == 0 && hull(&curve) != curve)
}

/// The exact answer is too large.
pub fn large_lines(answer: &[Bucket]) -> u32 {
    line(LARGE, answer.len() > MOST_BUCKETS || !answer.iter().all(Bucket::in_range))
}

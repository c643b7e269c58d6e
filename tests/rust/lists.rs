//! Pseudo-random buckets, curves and lists: ties and near misses, limits, long ones, damaged ones.

use super::curves::{edge, hull, Edge};
use super::random::Rng;
use super::rules::*;

fn several(count: u64, mut next: impl FnMut() -> Bucket) -> Vec<Bucket> {
    (0..count).map(|_| next()).collect()
}

/// The bucket with its rate or its burst up to 2 higher or lower.
fn nudged(rng: &mut Rng, b: Bucket) -> Bucket {
    let (up, down) = (rng.below(3), rng.below(3));
    let moved = |number: u64, end: u64| (number + up).saturating_sub(down).min(end - 1);
    if rng.one_in(2) {
        bucket(moved(b.rate, RATE_END), b.burst)
    } else {
        bucket(b.rate, moved(b.burst, BURST_END))
    }
}

/// Few and small numbers: ties, copies and useless buckets.
fn few_numbers(rng: &mut Rng) -> Vec<Bucket> {
    let (rates, bursts) = rng.pick(&[(2, 2), (3, 4), (7, 10), (12, 40)]);
    let count = rng.within(1, 8);
    several(count, || bucket(rng.below(rates), rng.below(bursts)))
}

/// Numbers at and near the ends of their ranges.
fn near_the_ends(rng: &mut Rng) -> Vec<Bucket> {
    let count = rng.within(1, 6);
    several(count, || bucket(rng.near(RATE_END), rng.near(BURST_END)))
}

/// Buckets that all meet in one point, or nearly.
fn touching(rng: &mut Rng) -> Vec<Bucket> {
    let steps = rng.within(2, 12);
    let (most_fall, most_rise) = rng.pick(&[(3, 4), (50, 300), (RATE_END, BURST_END)]);
    let fall = rng.within(1, most_fall.min((RATE_END - 1) / steps));
    let rise = rng.within(1, most_rise.min((BURST_END - 1) / steps));
    let (rates_left, bursts_left) = (RATE_END - fall * steps, BURST_END - rise * steps);
    let rate = rng.pick(&[0, rates_left - 1, rates_left / 2]);
    let burst = rng.pick(&[0, bursts_left - 1, bursts_left / 2]);
    let count = rng.within(2, 8);
    let mut list = several(count, || {
        let k = rng.below(steps + 1);
        bucket(rate + fall * (steps - k), burst + rise * k)
    });
    if rng.one_in(2) {
        let place = rng.place(list.len());
        list[place] = nudged(rng, list[place]);
    }
    list
}

/// Two edges whose slopes p/q and p'/q' are as near as can be: p'q - pq' is 1.
fn neighbours(rng: &mut Rng) -> [Edge; 2] {
    let (mut low, mut high) = (edge(1, 0), edge(0, 1));
    let (fall_end, rise_end) = rng.pick(&[(12, 40), (RATE_END / 2, BURST_END / 2)]);
    let mut most = rng.pick(&[1, 1 << 4, 1 << 12, 1 << 19]);
    loop {
        let (times, up) = (rng.within(1, most), rng.one_in(2));
        let (from, to) = if up { (high, low) } else { (low, high) };
        let fall = from.fall.saturating_mul(times).saturating_add(to.fall);
        let rise = from.rise.saturating_mul(times).saturating_add(to.rise);
        if fall >= fall_end / 2 || rise >= rise_end / 2 {
            if low.rise > 0 && high.fall > 0 {
                return [low, high];
            }
            // The first steps were too wide for the second slope: begin again.
            (low, high) = (edge(1, 0), edge(0, 1));
        } else if up {
            low = edge(fall, rise);
        } else {
            high = edge(fall, rise);
        }
        most = 3;
    }
}

/// The path along edges in the order given, down to rate 0 and up from burst 0.
fn path(edges: &[Edge]) -> Vec<Bucket> {
    let mut at = bucket(edges.iter().map(|edge| edge.fall).sum(), 0);
    let mut list = vec![at];
    for edge in edges {
        at = bucket(at.rate - edge.fall, at.burst + edge.rise);
        list.push(at);
    }
    list
}

/// Three or four buckets, of which an inner one is barely useful, useless or neither.
fn barely(rng: &mut Rng) -> Vec<Bucket> {
    let [low, high] = neighbours(rng);
    let between = edge(low.fall + high.fall, low.rise + high.rise);
    match rng.below(6) {
        0 => path(&[low, high]),
        1 => path(&[high, low]),
        2 => path(&[low, low]),
        3 => path(&[low, between, high]),
        4 => path(&[between, low, high]),
        _ => path(&[low, high, between]),
    }
}

fn anywhere(rng: &mut Rng) -> Vec<Bucket> {
    let count = rng.within(1, 12);
    several(count, || bucket(rng.below(RATE_END), rng.below(BURST_END)))
}

pub fn small_list(rng: &mut Rng) -> Vec<Bucket> {
    let mut list = match rng.below(8) {
        0..=2 => few_numbers(rng),
        3 => near_the_ends(rng),
        4..=5 => touching(rng),
        6 => barely(rng),
        _ => anywhere(rng),
    };
    if rng.one_in(4) {
        let copied = rng.pick(&list);
        list.push(copied);
    }
    rng.shuffle(&mut list);
    list
}

/// The same shape with every rate and every burst raised, as far as the ranges go.
pub fn raised(curve: &[Bucket], more_rate: u64, more_burst: u64) -> Vec<Bucket> {
    let (first, last) = (curve[0], curve[curve.len() - 1]);
    let more_rate = more_rate.min(RATE_END - 1 - first.rate);
    let more_burst = more_burst.min(BURST_END - 1 - last.burst);
    let more = bucket(more_rate, more_burst);
    curve.iter().map(|b| b.plus(more)).collect()
}

fn maybe_raised(rng: &mut Rng, curve: Vec<Bucket>) -> Vec<Bucket> {
    if rng.one_in(2) {
        return curve;
    }
    raised(&curve, rng.near(RATE_END), rng.near(BURST_END))
}

/// Edges of different slopes in their order, as many as asked for if so many are found.
fn edges(rng: &mut Rng, count: usize, mut draw: impl FnMut(&mut Rng) -> Edge) -> Vec<Edge> {
    let mut found: Vec<Edge> = Vec::new();
    for _ in 0..6 * count {
        if found.len() < count {
            let next = draw(rng);
            if let Err(place) = found.binary_search_by(|edge| edge.order(&next)) {
                found.insert(place, next);
            }
        }
    }
    found
}

/// A curve of so many buckets, whose edges fall and rise at most so much.
pub fn curve_of(rng: &mut Rng, count: usize, most_fall: u64, most_rise: u64) -> Vec<Bucket> {
    let draw = |rng: &mut Rng| edge(rng.within(1, most_fall), rng.within(1, most_rise));
    path(&edges(rng, count - 1, draw))
}

/// Edges of small numbers: curves that take theirs from the same ones have parallel edges.
fn slopes(rng: &mut Rng, count: usize) -> Vec<Edge> {
    edges(rng, count, |rng| edge(rng.within(1, 12), rng.within(1, 12)))
}

/// A curve of so many buckets, or as many as there are slopes for.
fn curve_from(rng: &mut Rng, slopes: &[Edge], count: usize) -> Vec<Bucket> {
    let mut taken = slopes.to_vec();
    rng.shuffle(&mut taken);
    taken.truncate(count - 1);
    taken.sort_by(Edge::order);
    for edge in &mut taken {
        let times = rng.within(1, 3);
        *edge = Edge { fall: edge.fall * times, rise: edge.rise * times };
    }
    path(&taken)
}

pub fn small_curve(rng: &mut Rng) -> Vec<Bucket> {
    if rng.one_in(2) {
        return hull(&small_list(rng));
    }
    let count = 1 + rng.place(6);
    let (fall, rise) = rng.pick(&[(3, 4), (9, 20), (RATE_END / 8, BURST_END / 8)]);
    let curve = curve_of(rng, count, fall, rise);
    maybe_raised(rng, curve)
}

pub fn large_curve(rng: &mut Rng) -> Vec<Bucket> {
    let some = 20 + rng.place(45);
    let count = rng.pick(&[64, 64, 63, some]);
    let curve = match rng.below(3) {
        0 => curve_of(rng, count, 200, 300),
        1 => curve_of(rng, count, RATE_END / 64, BURST_END / 64),
        _ => {
            let slopes = slopes(rng, 70);
            curve_from(rng, &slopes, count)
        }
    };
    maybe_raised(rng, curve)
}

/// Up to 64 buckets of a curve and near them, in any order.
pub fn large_list(rng: &mut Rng) -> Vec<Bucket> {
    let mut list = large_curve(rng);
    rng.shuffle(&mut list);
    list.truncate(1 + rng.place(64));
    while list.len() < MOST_BUCKETS && !rng.one_in(40) {
        let near = rng.pick(&list);
        list.push(nudged(rng, near));
    }
    rng.shuffle(&mut list);
    list
}

/// One to three changes that may break a rule, in a list of so many numbers for each bucket.
fn damaged(rng: &mut Rng, list: &[u64], for_each: usize) -> Vec<u64> {
    let most = for_each * MOST_BUCKETS;
    let mut list = list.to_vec();
    for _ in 0..rng.within(1, 3) {
        if list.is_empty() {
            return list;
        }
        let last = list.len() - 1;
        let place = if rng.one_in(3) { last - rng.place(2).min(last) } else { rng.place(list.len()) };
        let start = place / for_each * for_each;
        match rng.below(14) {
            0 => list.truncate(place),
            1 => list.push(rng.pick(&[0, 1, RATE_END])),
            2..=3 => {
                let ends = [RATE_END - 1, RATE_END, RATE_END + 1, BURST_END - 1, BURST_END];
                list[place] = rng.pick(&[&ends[..], &[BURST_END + 1, 1 << 63, u64::MAX]].concat());
            }
            4 => list[place] = list[place].saturating_add(rng.below(3)),
            5 => list[place] = list[place].saturating_sub(rng.below(3)),
            6 => {
                let mut shuffled: Vec<Vec<u64>> = list.chunks_exact(for_each).map(<[u64]>::to_vec).collect();
                rng.shuffle(&mut shuffled);
                list = shuffled.concat();
            }
            7 => list.extend_from_within(start..(start + for_each).min(list.len())),
            8 => list.rotate_left(start),
            9 if start >= for_each => list[start] = list[start - for_each],
            10 => {
                let length = rng.pick(&[most - 2, most - 1, most, most + 1, most + 2, most + 3, 200, 1000]);
                list = list.iter().copied().cycle().take(length).collect();
            }
            11 => {
                // In normal form, but for its length.
                let count = rng.pick(&[65, 66, 100]);
                list = curve_list(&(0..count).map(|k| bucket(count - k, k * (k + 1) / 2)).collect::<Vec<_>>());
            }
            12 => list = curve_list(&barely(rng)),
            13 if rng.one_in(3) => list.clear(),
            _ => {}
        }
    }
    list
}

/// A raw list, damaged once in so many times.
pub fn as_raw(rng: &mut Rng, raw: &[Bucket], one_in: u64) -> Vec<u64> {
    let list = raw_list(raw);
    if rng.one_in(one_in) {
        damaged(rng, &list, RAW_NUMBERS)
    } else {
        list
    }
}

/// A curve's list, damaged once in so many times.
pub fn as_curve(rng: &mut Rng, curve: &[Bucket], one_in: u64) -> Vec<u64> {
    let list = curve_list(curve);
    if rng.one_in(one_in) {
        damaged(rng, &list, CURVE_NUMBERS)
    } else {
        list
    }
}

// ---- numbers for a curve

/// A tick within its range: at an end, near a crossing of the curve, or any.
pub fn good_tick(rng: &mut Rng, curve: &[Bucket]) -> u64 {
    match rng.below(5) {
        0 => rng.below(3),
        1 => rng.below(200),
        2 => rng.near(TICK_END),
        _ if curve.len() > 1 => {
            let edge = rng.pick(&curve.windows(2).map(|b| [b[0], b[1]]).collect::<Vec<_>>());
            let rise = edge[1].burst.saturating_sub(edge[0].burst);
            let crossing = rise / edge[0].rate.saturating_sub(edge[1].rate).max(1);
            (crossing + rng.below(2)).min(TICK_END - 1)
        }
        _ => rng.below(TICK_END),
    }
}

/// The frame with which a link of this rate comes up to the curve where two of its buckets meet: at it or above, but with a bit less
/// below it.
fn touching_frame(steeper: Bucket, flatter: Bucket, rate: u64) -> u64 {
    let fall = i128::from(steeper.rate) - i128::from(flatter.rate);
    let rise = i128::from(flatter.burst) - i128::from(steeper.burst);
    let frame = i128::from(steeper.burst) * fall + (i128::from(steeper.rate) - i128::from(rate)) * rise;
    let whole = (frame + fall - 1).div_euclid(fall);
    u64::try_from(whole.clamp(0, i128::from(FRAME_END - 1))).expect("a frame")
}

/// A link in range, which often has something to do with two neighbours of the curve, or with one bucket.
pub fn good_link(rng: &mut Rng, curve: &[Bucket]) -> Link {
    let place = rng.place(curve.len());
    let [steeper, flatter] = [curve[place.saturating_sub(1)], curve[place]];
    let rate = match rng.below(7) {
        0 => rng.within(1, 20),
        1 => curve[0].rate + rng.below(3),
        2 => steeper.rate,
        3 => flatter.rate,
        4 => rng.near(RATE_END),
        _ => rng.within(flatter.rate, steeper.rate),
    };
    let rate = rate.clamp(1, RATE_END - 1);
    let frame = match rng.below(7) {
        0 => 0,
        1 => rng.below(20),
        2 => (flatter.burst + rng.below(3)).saturating_sub(1),
        3 => rng.near(FRAME_END),
        _ if steeper.rate > flatter.rate => (touching_frame(steeper, flatter, rate) + rng.below(3)).saturating_sub(1),
        _ => steeper.burst,
    };
    Link { rate, frame: frame.min(FRAME_END - 1) }
}

/// A link of which a number is out of range.
pub fn bad_link(rng: &mut Rng, good: Link) -> Link {
    match rng.below(2) {
        0 => Link { rate: rng.pick(&[0, RATE_END, RATE_END + 1, u64::MAX]), ..good },
        _ => Link { frame: rng.pick(&[FRAME_END, FRAME_END + 1, 1 << 63, u64::MAX]), ..good },
    }
}

// ---- two curves

/// Two long curves with slopes from one stock: the sum has a bucket more than they take of it.
pub fn large_pair(rng: &mut Rng) -> [Vec<Bucket>; 2] {
    let stock = rng.pick(&[40, 60, 63, 63, 63, 64, 64, 70]);
    let slopes = slopes(rng, stock);
    let some = 30 + rng.place(35);
    let mut counts = [64, rng.pick(&[64, some])];
    rng.shuffle(&mut counts);
    let both = counts.map(|count| curve_from(rng, &slopes, count));
    both.map(|curve| maybe_raised(rng, curve))
}

/// 58 to 68 crossings, of which each is the one curve's, the other's or both's.
pub fn crossings_dealt_out(rng: &mut Rng) -> [Vec<Bucket>; 2] {
    let count = 58 + rng.place(11);
    let (fall, rise) = rng.pick(&[(200, 300), (RATE_END / 512, BURST_END / 512)]);
    let mut dealt: [Vec<Edge>; 2] = Default::default();
    for next in edges(rng, count, |rng| edge(rng.within(1, fall), rng.within(1, rise))) {
        let place = rng.place(3);
        if place < 2 {
            dealt[place].push(next);
        } else {
            dealt[0].push(next);
            let times = rng.within(1, 3);
            dealt[1].push(edge(next.fall * times, next.rise * times));
        }
    }
    dealt.map(|edges| path(&edges))
}

/// Two curves whose crossings all lie within one tick.
pub fn nearly_together(rng: &mut Rng) -> [Vec<Bucket>; 2] {
    let tick = rng.pick(&[0, 1, 2, 1000, 1 << 18]);
    let most = rng.pick(&[3, 8, 1000]);
    [0, 1].map(|_| {
        let count = 1 + rng.place(4);
        let draw = |rng: &mut Rng| {
            let fall = rng.within(2, most);
            edge(fall, tick * fall + rng.within(1, fall - 1))
        };
        let curve = path(&edges(rng, count, draw));
        maybe_raised(rng, curve)
    })
}

/// Two curves whose first rates, last bursts or both add up to the last number of their range, to one less or to one more.
pub fn ends_added(rng: &mut Rng) -> [Vec<Bucket>; 2] {
    let (f, g) = (small_curve(rng), small_curve(rng));
    let rate = (RATE_END - 2 + rng.below(3)).saturating_sub(f[0].rate + g[0].rate);
    let bursts = f[f.len() - 1].burst + g[g.len() - 1].burst;
    let burst = (BURST_END - 2 + rng.below(3)).saturating_sub(bursts);
    let (more_rate, more_burst) = rng.pick(&[(rate, 0), (0, burst), (rate, burst)]);
    [f, raised(&g, more_rate, more_burst)]
}

/// Two curves that have something to do with each other.
pub fn small_pair(rng: &mut Rng) -> [Vec<Bucket>; 2] {
    match rng.below(6) {
        0..=1 => [small_curve(rng), small_curve(rng)],
        2 => {
            // One list dealt out.
            let list = small_list(rng);
            let (f, g): (Vec<Bucket>, Vec<Bucket>) = list.iter().partition(|_| rng.one_in(2));
            let both = [f, g].map(|part| if part.is_empty() { list.clone() } else { part });
            both.map(|part| hull(&part))
        }
        3 => {
            // Parallel edges.
            let slopes = slopes(rng, 5);
            let counts = [1 + rng.place(5), 1 + rng.place(5)];
            counts.map(|count| curve_from(rng, &slopes, count))
        }
        4 => {
            // Nearly parallel edges.
            let mut both = neighbours(rng);
            rng.shuffle(&mut both);
            let curves = both.map(|edge| path(&[edge]));
            curves.map(|curve| maybe_raised(rng, curve))
        }
        _ => ends_added(rng),
    }
}

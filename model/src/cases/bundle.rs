//! Making and opening bundles.

use super::damage;
use super::examples::{
    add, adds, bundle_for, bundle_of, bundle_with, down, file_of, log_of, marked, mutual, p1,
    remove, small_logs, unmet, up, v,
};
use super::issue::{empty, issue_here, issue_there, ops};
use super::world::{full, held_by, Style, World};
use super::Script;
use crate::log::MAX_FILE;
use crate::op::{Op, Vector, OP_LEN, REPLICAS};
use crate::rng::Rng;
use crate::script::{Case, MAX_BUNDLE};
use crate::{open_bundle, Log};

const NOTHING: Vector = [0; REPLICAS];
/// Replicas whose ops two sides hold.
const SIDES: [&[u8]; 2] = [&[1, 2, 3, 4], &[5, 6, 7, 8]];

pub fn write(script: &mut Script) {
    making(script);
    each_head(script);
    unsound(script);
    heads(script);
    lengths(script);
    replicas_of_bodies(script);
    damaged_bundles(script);
    orders(script);
    refused_bodies(script);
    rooms(script);
    held_and_twice(script);
    pairs(script);
    disagreeing(script);
    histories(script);
    large_logs(script);
    full_log(script);
}

fn make(script: &mut Script, counts: Vector, room: usize) {
    script.push(Case::MakeBundle(counts, room as u16));
}

/// A bundle is made with exactly enough lent, with one byte less, and with more.
fn make_around(script: &mut Script, counts: Vector) {
    let length = bundle_for(script.buffer(), counts).len();
    for room in [length - 1, length, length + 3] {
        make(script, counts, room);
    }
}

/// Opens each of these on the same file, with so much room behind it.
fn open_each(
    script: &mut Script,
    file: &[u8],
    room: usize,
    bundles: impl IntoIterator<Item = Vec<u8>>,
) {
    let buffer = [file.to_vec(), vec![0xa5; room]].concat();
    script.load(&buffer);
    for bundle in bundles {
        // Only an accepted one with something new has changed it.
        if script.buffer() != buffer {
            script.load(&buffer);
        }
        script.open(&bundle);
    }
}

fn held(ops: &[Op]) -> Vector {
    log_of(ops).held()
}

/// Counts up to these.
fn below(rng: &mut Rng, counts: Vector) -> Vector {
    counts.map(|count| rng.below(usize::from(count) + 1) as u8)
}

/// Small logs for nobody, for one that has all, and for those around them.
fn making(script: &mut Script) {
    let rng = &mut Rng::new(51);
    for ops in small_logs() {
        let held = held(&ops);
        script.load(&file_of(&ops));
        make_around(script, NOTHING);
        make_around(script, below(rng, held));
        make(script, held, 0);
        make(script, held, 1);
        make(script, [255; REPLICAS], 20);
        for index in (0..REPLICAS).filter(|&index| held[index] > 0) {
            let mut counts = held;
            counts[index] -= 1;
            make(script, counts, 60);
            counts[index] += 2;
            make(script, counts, 60);
        }
        // Bytes past the file end are not read.
        script.resize(300);
        make(script, below(rng, held), 200);
    }
}

/// Replicas in many choices, each with one op; also what opens to them.
fn each_head(script: &mut Script) {
    let ops: Vec<Op> = (1..=8).map(|replica| add(replica, 0, &[])).collect();
    let file = file_of(&ops);
    let counts = |bits: u8| std::array::from_fn(|index| 1 - (bits >> index & 1));
    let choices: Vec<u8> = (0..=255).filter(|bits| bits % 9 == 3).collect();
    script.load(&file);
    for &bits in &choices {
        make(script, counts(bits), 130);
    }
    let bundles = choices.iter().map(|&bits| bundle_for(&file, counts(bits)));
    open_each(script, &file_of(&[]), 112, bundles.step_by(2));
}

/// 1 comes before 8 and before 12.
fn unsound(script: &mut Script) {
    let rng = &mut Rng::new(52);
    let file = file_of(&p1());
    let good = bundle_for(&file, NOTHING);
    for round in 0..40 {
        let damaged = match round % 4 {
            0 => file[..rng.below(file.len())].to_vec(),
            1 => damage::with(&file, rng.below(32), 7),
            _ => damage::random(rng, &file),
        };
        script.load(&damaged);
        script.open(rng.pick(&[&[][..], &[0], &[0, 0], &good]));
        make(script, NOTHING, rng.pick(&[0, 100]));
    }
    for file in [vec![], vec![0; 31], vec![0; 32], file_of(&mutual())] {
        script.load(&file);
        script.open(&[]);
        script.open(&[0]);
        make(script, [255; REPLICAS], 0);
        make(script, [255; REPLICAS], 1);
    }
}

/// No whole head, a count of 0, and what is only a head.
fn heads(script: &mut Script) {
    script.load_in(&file_of(&p1()), 150);
    script.open(&[]);
    script.open(&[0]);
    for bits in (0..REPLICAS)
        .map(|index| 1 << index)
        .chain([0x03, 0x81, 0xfe, 0xff])
    {
        let ones = u8::count_ones(bits) as usize;
        for counts in [0, ones - 1, ones, ones + 1] {
            script.open(&[vec![bits], vec![0; counts]].concat());
            script.open(&[vec![bits], vec![1; counts]].concat());
        }
    }
    // One op of each replica but for one, which has a bit and the count 0.
    for none in 1..=8u8 {
        let others = (1..=8).filter(|&replica| replica != none);
        let ops: Vec<Op> = others.map(|replica| add(replica, 0, &[])).collect();
        let mut bundle = damage::with(&bundle_of(&ops), 0, 0xff);
        bundle.insert(usize::from(none), 0);
        script.open(&bundle);
    }
}

/// A bundle cut at every length, and made longer.
fn lengths(script: &mut Script) {
    let good = bundle_for(&file_of(&p1()), NOTHING);
    let longer = [1, 2, 13, 14, 15, 28].map(|more| [good.clone(), vec![1; more]].concat());
    let of_none = [1, 2, 14, 15].map(|more| vec![0; 1 + more]);
    let bundles = damage::cut(&good).chain(longer).chain(of_none);
    open_each(script, &file_of(&[]), 100, bundles);
    // Heads that do not agree with the bodies, in length or otherwise.
    let heads = [
        [3, 2, 2],
        [3, 1, 3],
        [3, 4, 1],
        [3, 3, 2],
        [1, 3, 1],
        [2, 3, 1],
        [5, 3, 1],
        [7, 3, 1],
    ];
    let bundles = heads.map(|head| [&head[..], &good[3..]].concat());
    open_each(script, &file_of(&[]), 100, bundles);
}

/// The replica of each body set to another.
fn replicas_of_bodies(script: &mut Script) {
    let good = bundle_for(&file_of(&p1()), NOTHING);
    let changed = (0..4).flat_map(|body| {
        let good = &good;
        [0, 1, 2, 3, 8, 9, 255].map(|replica| damage::with(good, 3 + OP_LEN * body + 1, replica))
    });
    open_each(script, &file_of(&[]), 56, changed);
}

/// Every byte of a small bundle with many values, and larger ones at random.
fn damaged_bundles(script: &mut Script) {
    let rng = &mut Rng::new(53);
    let small = bundle_for(&file_of(&p1()), v(&[2]));
    open_each(script, &file_of(&p1()[..2]), 42, damage::changed(&small));
    for (file, had, rounds) in [
        (file_of(&p1()), file_of(&[]), 70),
        (file_of(&marked()), file_of(&unmet()), 60),
    ] {
        let counts = Log::open(&had).map_or(NOTHING, |log| log.held());
        let good = bundle_for(&file, counts);
        let damaged: Vec<Vec<u8>> = (0..rounds).map(|_| damage::random(rng, &good)).collect();
        open_each(script, &had, file.len() - had.len(), damaged);
    }
}

/// All orders of four bodies: early, unless each comes after all it counts.
fn orders(script: &mut Script) {
    let ops = p1();
    let mut bundles = vec![];
    for i in 0..256 {
        let order = [i / 64, i / 16 % 4, i / 4 % 4, i % 4];
        if (0..4).all(|op| order.contains(&op)) {
            bundles.push(bundle_of(&order.map(|op| ops[op])));
        }
    }
    open_each(script, &file_of(&[]), 56, bundles.clone());
    open_each(script, &file_of(&ops[..1]), 42, bundles);
    // File order puts 1:1 before 2:1, which it counts.
    let ops = [add(1, 0, &[0, 1]), add(2, 0, &[])];
    let made = bundle_for(&file_of(&ops), NOTHING);
    open_each(script, &file_of(&[]), 28, [bundle_of(&ops), made]);
}

/// What the receiver has for `refused`: 8:1 counts 7:1.
pub(super) fn receiver() -> Vec<Op> {
    vec![add(7, 0, &[]), add(8, 0, &[0, 0, 0, 0, 0, 0, 1])]
}

/// Bodies that the receiver refuses with 3, 4, 5, 6 and 7, some of each.
pub(super) fn refused() -> Vec<[u8; OP_LEN]> {
    let mut kind = add(6, 0, &[]).bytes();
    kind[0] = 5;
    let mut own_count = add(6, 0, &[]).bytes();
    own_count[11] = 255;
    let ops = [
        add(7, 0, &[1]),
        add(8, 0, &[]),
        add(6, 0, &[0, 0, 0, 0, 1]),
        add(6, 0, &[0, 0, 0, 0, 0, 1]),
        add(6, 0, &[0, 0, 0, 0, 0, 0, 0, 1]),
        add(8, 0, &[0, 0, 0, 0, 0, 0, 0, 1]),
        remove(5, 2049, &[0, 0, 0, 0, 0, 0, 0, 1]),
        add(6, 1793, &[]),
        up(6, 1793, 1793, &[0, 0, 0, 0, 0, 0, 1]),
    ];
    let mut parent = remove(6, 1793, &[0, 0, 0, 0, 0, 0, 1]).bytes();
    parent[5] = 1;
    let mut bodies = vec![kind, own_count, parent];
    bodies.extend(ops.map(|op| op.bytes()));
    bodies
}

/// Each number at each place among bodies that are taken: nothing of them stays.
fn refused_bodies(script: &mut Script) {
    let file = file_of(&receiver());
    let others = p1().iter().map(Op::bytes).collect::<Vec<_>>();
    let mut bundles = vec![];
    for body in refused() {
        for place in 0..=others.len() {
            let mut bodies = others.clone();
            bodies.insert(place, body);
            bundles.push((place, bundle_with(&bodies)));
        }
    }
    open_each(
        script,
        &file,
        100,
        bundles.iter().map(|(_, bundle)| bundle.clone()),
    );
    // Room for those before it, and a byte less, which is 8.
    for (place, bundle) in bundles.iter().step_by(4).filter(|(place, _)| *place > 0) {
        for length in [OP_LEN * place - 1, OP_LEN * place] {
            script.resize(file.len() + length);
            script.open(bundle);
        }
    }
    // Two that are refused: the first gives the number.
    script.load_in(&file, file.len() + 30);
    let (bodies, last) = (refused(), refused().len() - 1);
    for i in 0..last {
        script.open(&bundle_with(&[others[0], bodies[i], bodies[i + 1]]));
        script.open(&bundle_with(&[bodies[i + 1], others[0], bodies[i]]));
        // And 12 before both.
        let mut wrong = bundle_with(&[bodies[i], bodies[i + 1]]);
        wrong.pop();
        script.open(&wrong);
    }
}

/// Room for some of the new bodies; held ones need none.
fn rooms(script: &mut Script) {
    let good = bundle_for(&file_of(&p1()), NOTHING);
    for had in 0..=4 {
        let file = file_of(&p1()[..had]);
        let new = 4 - had;
        let rooms = (0..=new).flat_map(|bodies| [OP_LEN * bodies, OP_LEN * bodies + 13]);
        script.load(&file);
        for room in rooms {
            script.resize(file.len() + room);
            script.open(&good);
        }
    }
}

fn held_and_twice(script: &mut Script) {
    let [first, second] = [add(1, 0, &[]), add(1, 0, &[1])];
    let mut other = second;
    other.parent = 257;
    let bundles = [
        vec![first, first],
        vec![first, second, first, second],
        vec![first, first, second, second],
        vec![second, first, second],
        vec![first, second, other],
        vec![first, other, second],
        vec![first; 255],
    ];
    for room in [28, 14] {
        let bundles = bundles.iter().map(|ops| bundle_of(ops));
        open_each(script, &file_of(&[]), room, bundles);
    }
    // All is held, in whatever order, and no room is needed.
    for ops in small_logs() {
        let reversed: Vec<Op> = ops.iter().rev().copied().collect();
        script.load(&file_of(&ops));
        script.open(&bundle_of(&reversed));
        script.open(&[0]);
        script.open(&[0, 0]);
    }
}

/// Two sides of a small world, by counts that are reached, and by others.
fn pairs(script: &mut Script) {
    for seed in 0..30 {
        let rng = &mut Rng::new(500 + seed);
        let style = Style {
            hear_one_in: 2 + rng.below(4),
            ..Style::mixed(3 + rng.below(6), 8 + rng.below(14))
        };
        let world = World::random(rng, style).ops;
        let [from, to] = SIDES.map(|own| held_by(&world, own));
        let beyond = held(&to).map(|count| count + rng.below(3) as u8);
        let counts = [held(&to), below(rng, held(&to)), beyond];
        let bundles = counts.map(|counts| bundle_for(&file_of(&from), counts));
        let room = OP_LEN * (world.len() - to.len());
        open_each(script, &file_of(&to), room, bundles);
        make(script, below(rng, held(&to)), 300);
    }
}

/// Two that hold different ops of one replica and sequence.
fn disagreeing(script: &mut Script) {
    let base = adds(1, 2);
    let one = [
        base.clone(),
        vec![
            down(2, 257, 258, &[2]),
            add(2, 257, &[2, 1]),
            remove(3, 258, &[2, 1]),
        ],
    ]
    .concat();
    let rivals = [
        down(2, 258, 257, &[2]),
        up(2, 257, 258, &[2]),
        add(2, 0, &[1]),
        add(2, 0, &[]),
    ];
    let file = file_of(&one);
    for rival in rivals {
        let two = file_of(&[base.clone(), vec![rival]].concat());
        let counts = [[0, 0], [1, 0], [2, 0], [2, 1], [1, 1], [2, 2]];
        let bundles = counts.map(|counts| bundle_for(&file, v(&counts)));
        open_each(script, &two, 100, bundles);
    }
}

/// The script's buffer is one replica among others, which it meets by bundles.
fn histories(script: &mut Script) {
    for seed in 0..9 {
        let rng = &mut Rng::new(600 + seed);
        let mut others: Vec<Vec<u8>> = (0..1 + rng.below(5)).map(|_| empty()).collect();
        // What was held here when each was met last.
        let mut known = vec![NOTHING; others.len()];
        script.load_in(&file_of(&[]), 1600);
        for _ in 0..18 {
            let at = rng.below(others.len());
            for _ in 0..2 + rng.below(3) {
                issue_there(rng, &mut others[at], at as u8 + 2);
            }
            issue_here(script, rng, 1);
            if rng.one_in(3) {
                give(script, &mut others[at]);
            } else {
                take(script, rng, &others[at], &mut known[at]);
            }
        }
        // All come together, and then have nothing for each other.
        for other in &others {
            let bundle = bundle_for(other, held_here(script));
            script.open(&bundle);
        }
        let last = &mut others[0];
        give(script, last);
        give(script, last);
        script.push(Case::Judge(2041, 2041));
    }
}

fn held_here(script: &Script) -> Vector {
    held(&ops(script.buffer()))
}

/// A bundle is made here for another, which opens it.
fn give(script: &mut Script, other: &mut [u8]) {
    let counts = held(&ops(other));
    let bundle = bundle_for(script.buffer(), counts);
    make(script, counts, bundle.len());
    open_bundle(other, &bundle);
}

/// Another's bundle is opened here. It is made for true counts, or for older
/// ones: then some of it is held. Now and then a damaged copy comes first.
fn take(script: &mut Script, rng: &mut Rng, other: &[u8], known: &mut Vector) {
    let here = held_here(script);
    let bundle = bundle_for(other, if rng.one_in(4) { *known } else { here });
    *known = here;
    if rng.one_in(3) {
        script.open(&damage::record(rng, &bundle));
    }
    script.open(&bundle);
}

/// Logs of several hundred ops, of which the two sides hold different parts.
fn large_logs(script: &mut Script) {
    for (seed, count) in [200, 700].into_iter().enumerate() {
        let rng = &mut Rng::new(700 + seed as u64);
        let style = Style {
            hear_one_in: 10,
            ..Style::mixed(8, count)
        };
        let world = World::random(rng, style).ops;
        let sides = SIDES.map(|own| held_by(&world, own));
        let all = file_of(&world).len();
        for (from, to) in [(0, 1), (1, 0)] {
            let [from, to] = [&sides[from], &sides[to]];
            let bundle = bundle_for(&file_of(from), held(to));
            script.load_in(&file_of(to), all - 1);
            make_around(script, held(from));
            make(script, below(rng, held(to)), usize::from(MAX_BUNDLE));
            script.open(&bundle);
            script.resize(all);
            script.open(&bundle);
            make(script, held(from), 100);
        }
        script.push(Case::Judge(2041, 2041));
    }
}

/// A log of all ops there can be, by a bundle and a small one after it.
fn full_log(script: &mut Script) {
    let rng = &mut Rng::new(54);
    let ops = full(rng, Style::mixed);
    let file = file_of(&ops);
    let most = &ops[..ops.len() - 60];
    let rest = bundle_for(&file, held(most));
    script.load_in(&file_of(&[]), MAX_FILE - 1);
    script.open(&bundle_for(&file_of(most), NOTHING));
    script.open(&rest);
    make(script, NOTHING, usize::from(MAX_BUNDLE));
    script.resize(MAX_FILE);
    script.open(&rest);
    script.open(&rest);
    make_around(script, NOTHING);
    make_around(script, held(most));
    for _ in 0..6 {
        make(script, below(rng, held(&ops)), usize::from(MAX_BUNDLE));
    }
    // Nothing more can come: held, another, early, or out of form.
    for _ in 0..5 {
        script.open(&damage::random(rng, &rest));
    }
    script.push(Case::Judge(2041, 2041));
}

//! Judging.

use super::damage;
use super::examples::{circle, file_of, longest_chain, mutual, p1, p10, small_logs};
use super::world::{full, Style, World};
use super::Script;
use crate::rng::Rng;
use crate::script::Case;

const TABLE: u16 = 2041;

pub fn write(script: &mut Script) {
    for ops in small_logs() {
        judge(script, &file_of(&ops));
    }
    judge(script, &file_of(&mutual()));
    for maker in 1..=8 {
        judge(script, &file_of(&circle(maker)));
    }
    tables(script);
    damaged_files(script);
    random_logs(script);
    full_logs(script);
}

fn judge(script: &mut Script, file: &[u8]) {
    script.load(file);
    script.push(Case::Judge(TABLE, TABLE));
}

/// Lengths of the tables, on sound and on unsound files.
fn tables(script: &mut Script) {
    let file = file_of(&p10());
    for damaged in [false, true] {
        script.load(&damage::with(&file, 1, file[1] ^ u8::from(damaged)));
        for parents in [0, 1, 2040, 2041, 2042, 2100] {
            for outcomes in [0, 16, 2040, 2041, 2042, 2100] {
                script.push(Case::Judge(parents, outcomes));
            }
        }
    }
    script.resize(file.len() + 100);
    script.push(Case::Judge(TABLE, TABLE));
}

fn damaged_files(script: &mut Script) {
    let file = file_of(&p1());
    for damaged in damage::changed(&file).chain(damage::cut(&file)) {
        judge(script, &damaged);
    }
    let rng = &mut Rng::new(21);
    for ops in small_logs() {
        for _ in 0..40 {
            judge(script, &damage::random(rng, &file_of(&ops)));
        }
    }
}

fn random_logs(script: &mut Script) {
    for seed in 0..120 {
        let rng = &mut Rng::new(200 + seed);
        let replicas = 2 + rng.below(7);
        let count = 10 + rng.below(80);
        let style = if rng.one_in(4) {
            Style::mixed
        } else {
            Style::moves
        };
        judge(
            script,
            &file_of(&World::random(rng, style(replicas, count)).ops),
        );
    }
}

/// Few nodes and many moves as well as many nodes; and the deepest tree.
fn full_logs(script: &mut Script) {
    let rng = &mut Rng::new(22);
    judge(script, &file_of(&full(rng, Style::mixed)));
    judge(script, &file_of(&full(rng, Style::moves)));
    judge(script, &file_of(&longest_chain()));
    let scarce = |replicas, ops| Style {
        nodes: 12,
        hear_one_in: 12,
        ..Style::moves(replicas, ops)
    };
    judge(script, &file_of(&full(rng, scarce)));
}

//! The worked cases of docs/RULES.md, and what must hold of every run.

use std::collections::BTreeMap;

use reference::drill::{self, Files};
use reference::generate::{script, Kind};
use reference::handset::{self, Handset};
use reference::station;

const A_TO_F: &str = "\
0
add 0 1
add 0 2
renew 2
add 1 3
renew 3
renew 0
remove 1 0
";

fn station_prints(script: &str) -> String {
    String::from_utf8(station::play(script.as_bytes())).expect("the station prints ASCII")
}

fn drill_prints(script: &str) -> String {
    let printed = drill::play(script.as_bytes(), &mut Files::None).expect("no file is written");
    String::from_utf8(printed).expect("drill prints ASCII")
}

fn drill_files(script: &[u8]) -> BTreeMap<String, Vec<u8>> {
    let mut files = Files::Memory(BTreeMap::new());
    drill::play(script, &mut files).expect("memory takes every file");
    match files {
        Files::Memory(files) => files,
        _ => BTreeMap::new(),
    }
}

#[test]
fn cases_a_to_f() {
    let expected = "\
1 2 1 0 * 1
2 3 2 0 * 1 * 2 . .
3 1 1 0 * 1 * 2 . .
4 4 2 0 * 1 * 2 . 3
5 2 2 0 * 1 * 2 * 3
6 2 2 0 * 1 * 2 * 3
7 1 1 . . 1 * 2 * 3
";
    assert_eq!(station_prints(A_TO_F), expected);
}

#[test]
fn case_i_a_leaf_taken_again() {
    let script = "0\nadd 0 1\nadd 0 2\nadd 0 3\nadd 0 4\nremove 0 1\nadd 4 5\n";
    let printed = station_prints(script);
    assert_eq!(
        printed.lines().last(),
        Some("6 3 1 0 . 5 *5 2 . 3 * 4 . . . . . .")
    );
}

#[test]
fn case_g_one_exposure_healed() {
    let script = A_TO_F.replace("add 0 2\n", "add 0 2\nread 2\n");
    let expected = "\
0 shut unknown
1 shut unknown
2 open known
3 shut unknown
4 shut unknown
5 shut unknown
6 shut unknown
7 shut unknown
";
    assert_eq!(drill_prints(&script), expected);
}

#[test]
fn case_h_two_exposures() {
    let script = A_TO_F
        .replace("add 0 2\n", "add 0 2\nread 2\n")
        .replace("add 1 3\n", "add 1 3\nread 0\n");
    let expected = "\
0 shut unknown
1 shut unknown
2 open known
3 open unknown
4 open known
5 open known
6 shut unknown
7 shut unknown
";
    assert_eq!(drill_prints(&script), expected);
}

#[test]
fn refused_founders_end_the_programs() {
    for (script, answer) in [("", "1\n"), ("x\nrenew 0\n", "1\n"), ("65535\n", "8\n")] {
        assert_eq!(station_prints(script), answer);
        assert_eq!(drill_prints(script), answer);
    }
    assert_eq!(station_prints("7"), "");
    assert_eq!(drill_prints("7"), "0 shut unknown\n");
}

#[test]
fn refused_lines_are_answered_and_change_nothing() {
    let script = "0\nread 5\nrenew 1\nremove 0 0\nadd 0 0\n\nread 0\nadd 0 65535\n";
    assert_eq!(drill_prints(script), "3\n4\n5\n1\n5\n0 open known\n");
    assert_eq!(station_prints(script), "1\n3\n4\n5\n1\n1\n5\n");
}

#[test]
fn the_orders_of_a_member_and_a_newcomer() {
    let files = drill_files(b"0\nadd 0 1\nadd 0 2\n");
    let orders = |member: &str| {
        let printed = handset::play(
            member.as_bytes(),
            &files["tree-1"],
            [files["letter-2"].as_slice()],
        );
        String::from_utf8(printed).expect("orders are ASCII")
    };
    let member_1 = "\
open 0 2 19
forget 3
lock 19 3
up 19 20
forget 19
lock 20 4
up 20 19
forget 20
mix 1 19 21
forget 19
forget 0
forget 1
seed 21 1
talk 21 0
forget 21

";
    let newcomer_2 = "\
draw 2
public 2
draw 22
public 22
open 2 22 21
forget 22
open 1 2 20
lock 20 4
up 20 19
forget 20
forget 19
seed 21 1
talk 21 0
forget 21

";
    assert_eq!(orders("1"), member_1);
    assert_eq!(orders("2"), newcomer_2);
    assert_eq!(orders("3"), "3\n\n");
    assert_eq!(orders("03"), "1\n");
}

#[test]
fn the_orders_of_the_committer() {
    let files = drill_files(b"0\nadd 0 1\nadd 0 2\n");
    let printed = handset::play(b"0", &files["tree-1"], [files["letter-2"].as_slice()]);
    let leaf_key_of_1 = hex(&files["tree-1"][6 + 35 + 35 + 1 + 2..][..32]);
    let letter = &files["letter-2"];
    let (leaf_key_of_2, init_key_of_2) = (hex(&letter[10..42]), hex(&letter[42..74]));
    let expected = format!(
        "\
forget 2
draw 2
public 2
draw 19
forget 3
seal 19 {leaf_key_of_1}
lock 19 3
public 3
up 19 20
forget 19
seal 20 {leaf_key_of_2}
lock 20 4
public 4
up 20 19
forget 20
mix 1 19 21
forget 19
forget 0
forget 1
seal 21 {init_key_of_2}
seed 21 1
talk 21 0
forget 21

"
    );
    assert_eq!(String::from_utf8_lossy(&printed), expected);
}

fn hex(bytes: &[u8]) -> String {
    bytes.iter().map(|byte| format!("{byte:02x}")).collect()
}

#[test]
fn a_removed_member_forgets_all_and_stands_at_that_epoch() {
    let files = drill_files(b"0\nadd 0 1\nremove 0 1\nrenew 0\nadd 0 1\n");
    let letters: Vec<&[u8]> = ["letter-2", "letter-3", "letter-4"]
        .iter()
        .map(|name| files[*name].as_slice())
        .collect();
    let printed = handset::play(b"1", &files["tree-1"], letters);
    let expected = "forget 0\nforget 1\nforget 2\nforget 3\n\n3\n\n2\n\n";
    assert_eq!(String::from_utf8_lossy(&printed), expected);
}

#[test]
fn a_letter_leads_from_one_tree_file_to_the_next() {
    for (kind, seeds) in [(Kind::Small, 60), (Kind::Dense, 3), (Kind::Churn, 6)] {
        for seed in 0..seeds {
            let files = drill_files(&script(seed, kind));
            for epoch in 0.. {
                let Some(letter) = files.get(&format!("letter-{}", epoch + 1)) else {
                    break;
                };
                let before = &files[&format!("tree-{epoch}")];
                let committer = u16::from_be_bytes([letter[6], letter[7]]).to_string();
                let mut handset =
                    Handset::start(committer.as_bytes(), before).expect("a sound tree file");
                handset.take(letter).expect("a letter of this group");
                assert_eq!(handset.tree_file(), files[&format!("tree-{}", epoch + 1)]);
            }
        }
    }
}

/// `drill` checks every vault's slots after every commit and fails if one is not as the rules say.
#[test]
fn vaults_hold_what_the_rules_say_and_shut_epochs_stay_unknown() {
    let kinds = [
        (Kind::Small, 300),
        (Kind::Dense, 20),
        (Kind::Churn, 30),
        (Kind::Readings, 200),
        (Kind::Committers, 200),
        (Kind::Numbers, 30),
        (Kind::Malformed, 30),
    ];
    for (kind, seeds) in kinds {
        for seed in 0..seeds {
            let script = script(seed, kind);
            let printed = drill::play(&script, &mut Files::None).expect("no file is written");
            let printed = String::from_utf8(printed).expect("drill prints ASCII");
            let broken = printed.lines().any(|line| line.ends_with("shut known"));
            assert!(!broken, "{kind:?} {seed}");
        }
    }
}

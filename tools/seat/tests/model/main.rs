//! Random commands, played with the program on real files and with the model in
//! memory. What the program says, its exit status and every byte in the folder
//! must be what the model makes of it.

mod damage;
mod folder;
mod foreseen;
mod handing;
mod issuing;
mod looking;
mod parts;
mod play;
mod said;
mod tally;

use play::Play;

#[test]
fn does_what_the_model_does() {
    let mut play = Play::new();
    let mut logs = Vec::new();
    for seed in 1..=8 {
        play.history(seed, 300, seed > 4);
        logs.extend(play.logs());
    }
    play.full_seat();
    play.full_tray();
    play.damaged_logs(&logs, 100);
    println!("{:#?}", play.tally);
    play.tally.assert_rich();
}

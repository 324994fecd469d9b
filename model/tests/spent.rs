//! The long run to the end of a server's count, on the compiled program and on
//! the plain machine. TOVRIDSA_CASES names another program.

use model::machine::calls::Right;
use model::machine::program::Program;
use model::machine::transfers::Transfers;
use model::runs::beside::answered;
use model::runs::check::broken;
use model::runs::script::replay;
use model::runs::spent::spent;

#[test]
fn a_server_that_gave_65535_times_is_spent() {
    let mut machine = Program::<Transfers, _>::new(Right);
    let expected = replay(&spent(), &mut machine);
    let turns = answered(&expected, 0);
    for (expected, turn) in expected.iter().zip(&turns) {
        let Some(answer) = &expected.answer else {
            panic!("every line has a word");
        };
        assert_eq!(answer, turn.answer(), "line {}: {}", turn.number, turn.text);
    }
    assert!(broken(&turns).is_empty(), "{:?}", broken(&turns));
    let count = |answer: &str| turns.iter().filter(|turn| turn.answer() == answer).count();
    println!("{} lines", turns.len());
    assert_eq!(count("no 12"), 2);
    assert_eq!(count("no 11"), 1);
    assert_eq!(count("no 10"), 131);
    assert!(turns[turns.len() - 3].answer().contains(" counts 65535 "));
}

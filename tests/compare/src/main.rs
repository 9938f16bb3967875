//! Compares the verified library with the reference, field by field and byte
//! by byte, on random and damaged inputs. Arguments: seed, rounds.

mod checking;
mod dispatching;
mod form;
mod lent;
mod listing;
mod margins;
mod moving;
mod on_time;
mod order;
mod pending_rows;
mod planning;
mod rows;
mod session;
mod stroked;
mod unbroken;

use inputs::Rng;
use session::Session;

fn main() {
    let mut arguments = std::env::args().skip(1).map(|argument| {
        argument
            .parse::<u64>()
            .expect("the arguments are two numbers: seed, rounds")
    });
    let seed = arguments.next().unwrap_or(1);
    let rounds = arguments.next().unwrap_or(20);
    binding::assert_layout();

    let mut session = Session::default();
    for round in 0..rounds {
        let mut rng = Rng::new(seed.rotate_left(32) ^ round);
        checking::round(&mut session, &mut rng);
        planning::round(&mut session, &mut rng);
        dispatching::round(&mut session, &mut rng);
        margins::round(&mut session, &mut rng);
        moving::round(&mut session, &mut rng);
        rows::round(&mut session, &mut rng);
        pending_rows::round(&mut session, &mut rng);
    }
    rows::long(&mut session, &mut Rng::new(seed));

    checking::must_have_seen(&session);
    planning::must_have_seen(&session);
    dispatching::must_have_seen(&session);
    listing::must_have_seen(&session);
    margins::must_have_seen(&session);
    moving::must_have_seen(&session);
    rows::must_have_seen(&session);
    pending_rows::must_have_seen(&session);
    println!("compare: {} cases, 0 differences", session.cases);
}

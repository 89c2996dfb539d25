//! The yardstick gives the answers of the independent implementation: a quick program that does something else measures
//! nothing.

use cells::Registers;
use compare::lent;
use measure::{listing, quick};
use reference::gen::{self, Call, Random};
use reference::Tables;

fn apply(call: &Call, t: &mut Tables, r: &mut Registers) -> (u32, u32, Vec<u8>) {
    let mut t = lent(t);
    let reply = match call {
        Call::Execute { number, x, y, z } => quick::execute(&mut t, *r, [*number, *x, *y, *z]),
        Call::WriteBlock { x, bytes } => quick::write_block(&mut t, *r, *x, bytes),
        Call::View { x, n } => {
            let (number, value, part) = quick::view(&t, *r, *x, *n);
            return (number, value, part.to_vec());
        }
    };
    *r = reply.registers;
    (reply.number, reply.value, Vec::new())
}

fn same_state(seed: u64) {
    let mut random = Random::new(seed);
    let (mut t, mut r) = gen::tables_from(&mut random);
    if random.one_in(3) {
        gen::spoil_any(&mut t, &mut r, &mut random);
    }
    let mut u = t.clone();
    let mut q = Registers { current: r.current, caller: r.caller, place: r.place };
    for _ in 0..30 {
        let call = gen::call(&t, &r, &mut random);
        let expected = gen::apply(&call, &mut t, &mut r);
        assert_eq!(expected, apply(&call, &mut u, &mut q), "seed {seed}, {call:?}");
        assert_eq!((r.current, r.caller, r.place), (q.current, q.caller, q.place), "seed {seed}, {call:?}");
        assert!(t == u, "seed {seed}, {call:?}: the lists differ");
    }
}

#[test]
fn calls() {
    (0..6_000).for_each(same_state);
}

#[test]
fn listings() {
    for seed in 0..6_000 {
        let whole = gen::listing(seed);
        let damaged = gen::damage(&whole, seed);
        for text in [whole, damaged] {
            assert!(reference::run_listing(&text) == listing::run(&text), "listing of seed {seed}");
        }
    }
}

//! Both sides of every case do the same work. Nothing is measured here.

#[cfg(not(no_hecs))]
#[test]
fn both_sides_do_the_same_work() {
    for (_, mut pairs) in bench::cases::all() {
        bench::measure::check(&mut pairs).unwrap();
    }
}

#[cfg(no_hecs)]
#[test]
#[ignore = "the original is missing: give the folder of hecs 0.11.2's src in HECS_SRC"]
fn both_sides_do_the_same_work() {}

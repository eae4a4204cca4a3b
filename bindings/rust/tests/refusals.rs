//! Every refusal that a host can meet, and that a refused command changes nothing. Refusal 1 needs damaged words, which the safe
//! interface does not let through.

use simmerthread::*;

fn tables() -> Tables {
    Tables::new(Room { nodes: 40, links: 64, cells: 80, rows: 2 }).expect("within the limits")
}

#[test]
fn numbers_and_sentences_of_document_01() {
    let numbers: Vec<u8> = Refusal::ALL.iter().map(|refusal| refusal.number()).collect();
    assert_eq!(numbers, [1, 2, 3, 4, 5, 6, 7, 8, 9]);
    assert!(Refusal::ALL.iter().all(|refusal| !refusal.sentence().is_empty()));
}

#[test]
fn unknown_command() {
    assert_eq!(tables().send(&[]), Err(Refusal::Command));
    assert_eq!(tables().send(&[1]), Err(Refusal::Command));
    assert_eq!(tables().send(&[11, 0]), Err(Refusal::Command));
}

#[test]
fn wrong_node() {
    let mut tables = tables();
    assert_eq!(tables.read(Node(0)), Err(Refusal::Node));
    let scope = tables.scope(None).unwrap();
    assert_eq!(tables.read(scope), Err(Refusal::Node));
    assert_eq!(tables.set(scope, 1), Err(Refusal::Node));
    for number in [-1, -2, i64::MIN, 1] {
        assert_eq!(tables.scope(Some(Node(number))), Err(Refusal::Node));
        assert_eq!(tables.effect(Some(Node(number)), 5), Err(Refusal::Node));
    }
}

#[test]
fn gone() {
    let mut tables = tables();
    let scope = tables.scope(None).unwrap();
    tables.dispose(scope).unwrap();
    assert_eq!(tables.dispose(scope), Err(Refusal::Gone));
    assert_eq!(tables.scope(Some(scope)), Err(Refusal::Gone));
}

#[test]
fn bad_formula() {
    let mut tables = tables();
    assert_eq!(tables.computed(Node(7)), Err(Refusal::Formula));
    let deep = (0..16).fold(constant(0), |formula, _| sum(formula, 1));
    assert_eq!(tables.computed(deep), Err(Refusal::Formula));
}

#[test]
fn too_deep() {
    let mut tables = tables();
    let mut owner = None;
    for _ in 0..16 {
        owner = Some(tables.scope(owner).unwrap());
    }
    assert_eq!(tables.scope(owner), Err(Refusal::Height));
}

#[test]
fn no_room() {
    let mut tables = tables();
    for _ in 0..40 {
        tables.signal(0).unwrap();
    }
    assert_eq!(tables.signal(0), Err(Refusal::Room));
}

#[test]
fn no_batch() {
    let mut tables = tables();
    assert_eq!(tables.end(), Err(Refusal::Batch));
    for _ in 0..64 {
        tables.start().unwrap();
    }
    assert_eq!(tables.start(), Err(Refusal::Batch));
}

#[test]
fn short_log_and_nothing_changed() {
    let mut tables = tables();
    let sale = tables.signal(1).unwrap();
    for _ in 0..3 {
        tables.effect(None, sale).unwrap();
    }
    assert_eq!(tables.set(sale, 2), Err(Refusal::Rows));
    assert_eq!(tables.read(sale), Ok(1));
}

#[test]
fn a_clone_goes_its_own_way_and_moves_to_another_thread() {
    let mut one = tables();
    let sale = one.signal(1).unwrap();
    let mut two = one.clone();
    one.set(sale, 2).unwrap();
    let read = std::thread::spawn(move || two.read(sale)).join().unwrap();
    assert_eq!((one.read(sale), read), (Ok(2), Ok(1)));
}

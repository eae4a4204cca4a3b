//! Many commands in one call are answered as the commands one by one, and leave the same engine behind.

use simmerthread::*;

type Told = (Result<i64, Refusal>, Vec<Run>);

fn told(answer: Result<Answer<'_>, Refusal>) -> Told {
    (answer.map(|answer| answer.value), answer.map_or(vec![], |answer| answer.runs().collect()))
}

/// Each by itself.
fn alone(tables: &mut Tables, commands: &[Command]) -> Vec<Told> {
    commands.iter().map(|command| told(tables.command(command))).collect()
}

/// As many in a call as the log has rows for; one that wants more than all of them by itself.
fn together(tables: &mut Tables, commands: &[Command]) -> Vec<Told> {
    let mut all = Vec::new();
    while all.len() < commands.len() {
        let rest = &commands[all.len()..];
        let some: Vec<Told> = tables.commands(rest).iter().map(told).collect();
        if some.is_empty() {
            assert_eq!(tables.command(&rest[0]), Err(Refusal::Rows));
            all.push((Err(Refusal::Rows), vec![]));
        }
        all.extend(some);
    }
    all
}

/// Commands of every kind on few nodes, wrong ones among them.
fn generated(seed: u64, count: usize) -> Vec<Command> {
    let mut state = seed;
    let mut below = |most: i64| {
        state = state.wrapping_mul(6_364_136_223_846_793_005).wrapping_add(1);
        i64::try_from(state >> 33).unwrap() % most
    };
    let mut commands = Vec::new();
    for _ in 0..count {
        let (node, other, k) = (Node(below(24)), Node(below(24)), below(9));
        let owner = (below(2) == 0).then_some(other);
        commands.push(match below(14) {
            0 => Command::Signal { value: k },
            1 => Command::Computed { formula: sum(node, other) },
            2 => Command::Effect { owner, formula: less(node, other) },
            3 => Command::Scope { owner },
            4..=6 => Command::Set { node, value: k },
            7..=9 => Command::Add { node, amount: k },
            10 => Command::Read { node },
            11 => Command::Dispose { node },
            12 => Command::Start,
            _ => Command::End,
        });
    }
    commands
}

#[test]
fn as_one_by_one() {
    let mut ran = 0;
    for seed in 0..200 {
        let room = Room { nodes: 24, links: 64, cells: 80, rows: 4 };
        let mut one = Tables::new(room).unwrap();
        let mut other = Tables::new(room).unwrap();
        let commands = generated(seed, 120);
        let answers = alone(&mut one, &commands);
        assert_eq!(together(&mut other, &commands), answers);
        // Each engine goes on as the other's copy does.
        let more = generated(seed + 1_000, 40);
        assert_eq!(alone(&mut other, &more), alone(&mut one, &more));
        ran += answers.iter().map(|told| told.1.len()).sum::<usize>();
    }
    assert!(ran > 0, "effects ran");
}

#[test]
fn none_at_all() {
    let mut tables = Tables::new(Room::PROGRAM).unwrap();
    assert_eq!(tables.commands(&[]).done(), 0);
}

/// A write wants a row for each live effect, however few it writes: the host's page has these numbers.
#[test]
fn rows_for_more_than_one() {
    let made = (0..40).map(|k| Command::Signal { value: k });
    let paid = (0..40).map(|n| Command::Effect { owner: None, formula: read(Node(n)) });
    let setting: Vec<Command> = made.chain(paid).collect();
    let writes: Vec<Command> =
        (0..300).map(|i| Command::Set { node: Node(i % 40), value: 1_000 + i }).collect();
    for (rows, calls) in [(40, 300), (64, 12), (256, 2), (1_024, 1)] {
        let mut tables = Tables::new(Room { rows, ..Room::HOST }).unwrap();
        assert_eq!(tables.commands(&setting).done(), setting.len());
        let (mut done, mut counted) = (0, 0);
        while done < writes.len() {
            let answers = tables.commands(&writes[done..]);
            assert!(answers.iter().all(|answer| answer.unwrap().runs().len() == 1));
            done += answers.done();
            counted += 1;
        }
        assert_eq!(counted, calls, "{rows} rows");
    }
}

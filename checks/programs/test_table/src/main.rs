//! Rows of the tables of many ends: each call, and behind it what it answered.
#![tactic(auto)]

use std::alloc::{AllocError, Global};
use std::process::ExitCode;
use tcp_table::{Deadlines, Table, Turns};

/// Appends the id that is first, with its time, or `-`.
fn show_first(deadlines: &Deadlines, answers: &mut String) -> Result<(), AllocError> {
    match deadlines.first() {
        Some((time, id)) => write!(answers, "{id} at {time}\n"),
        None => answers.push_str("-\n"),
    }
}

/// Takes all that is due, in order.
fn take_all(deadlines: &mut Deadlines, now: u64, answers: &mut String) -> Result<(), AllocError> {
    for _ in 0..8 {
        let Some((time, id)) = deadlines.take_due(now) else {
            return answers.push_str("no more\n");
        };
        write!(answers, "due {id} at {time}\n")?;
    }
    Ok(())
}

/// Five ids: the third is due before the first, the fifth at the same time as the first; the third is put off, the first isn't
/// due any more, and there is room for more.
fn deadlines(alloc: Global, answers: &mut String) -> Result<(), AllocError> {
    let mut deadlines = Deadlines::new(alloc);
    show_first(&deadlines, answers)?;
    deadlines.reserve(5)?;
    if deadlines.room() == 5 {
        show_first(&deadlines, answers)?;
        deadlines.set(0, Some(50));
        show_first(&deadlines, answers)?;
        deadlines.set(2, Some(20));
        deadlines.set(4, Some(50));
        show_first(&deadlines, answers)?;
        deadlines.set(2, Some(60));
        deadlines.set(0, None);
        show_first(&deadlines, answers)?;
        let is_put_off = deadlines.get(2) == Some(60);
        write!(answers, "{is_put_off} {}\n", deadlines.get(0).is_some())?;
    }
    deadlines.reserve(9)?;
    if deadlines.room() == 9 {
        deadlines.set(8, Some(55));
        take_all(&mut deadlines, 49, answers)?;
        take_all(&mut deadlines, 60, answers)?;
    }
    show_first(&deadlines, answers)
}

/// Appends whose turn is next and whose it is then, or `-`.
fn show_turn(turns: &mut Turns, answers: &mut String) -> Result<(), AllocError> {
    match turns.first() {
        Some(id) => write!(answers, "next {id}: ")?,
        None => write!(answers, "next nobody, {}: ", turns.is_empty())?,
    }
    match turns.next() {
        Some(id) => write!(answers, "turn of {id}\n"),
        None => answers.push_str("-\n"),
    }
}

/// Three ids, of which the second comes first and twice, and again behind the others after its turn.
fn turns(alloc: Global, answers: &mut String) -> Result<(), AllocError> {
    let mut turns = Turns::new(alloc);
    turns.reserve(3)?;
    if turns.room() == 3 {
        turns.add(1);
        turns.add(2);
        turns.add(1);
        show_turn(&mut turns, answers)?;
        write!(answers, "{} {}\n", turns.waits(1), turns.waits(2))?;
        if turns.room() == 3 {
            turns.add(0);
            turns.add(1);
        }
    }
    show_turn(&mut turns, answers)?;
    show_turn(&mut turns, answers)?;
    show_turn(&mut turns, answers)?;
    show_turn(&mut turns, answers)
}

/// Appends the value under a key, or `-`.
fn show_value(table: &Table<u16, u32>, key: u16, answers: &mut String) -> Result<(), AllocError> {
    let held = match table.find(&key) {
        Some(slot) => table.held(slot),
        None => None,
    };
    match held {
        Some(held) => write!(answers, "{key}: {}, number {}\n", held.value, held.number),
        None => write!(answers, "{key}: -\n"),
    }
}

/// Two values; the first goes, and its handle finds nothing, not even the third, which takes its slot.
fn table(alloc: Global, answers: &mut String) -> Result<(), AllocError> {
    let mut table = Table::new_in(alloc);
    if table.find(&80).is_some() {
        return Ok(());
    }
    let Ok(first) = table.insert(80, 1000) else {
        return Err(AllocError);
    };
    if table.find(&443).is_some() {
        return Ok(());
    }
    let Ok(second) = table.insert(443, 2000) else {
        return Err(AllocError);
    };
    show_value(&table, 80, answers)?;
    show_value(&table, 443, answers)?;
    if let Some(value) = table.get_mut(second.slot) {
        *value = 2001;
    }
    let _ = table.remove(first.slot);
    show_value(&table, 80, answers)?;
    show_value(&table, 443, answers)?;
    if table.find(&22).is_some() {
        return Ok(());
    }
    let Ok(third) = table.insert(22, 3000) else {
        return Err(AllocError);
    };
    show_value(&table, 22, answers)?;
    let is_slot_again = third.slot == first.slot;
    let is_first = table.slot_of(first).is_some();
    let is_third = table.slot_of(third).is_some();
    let is_handle = table.id(third.slot) == Some(third);
    write!(answers, "{is_slot_again} {is_first} {is_third} {is_handle}\n")
}

/// All rows.
fn rows(alloc: Global) -> Result<String, AllocError> {
    let mut answers = String::new(alloc);
    deadlines(alloc, &mut answers)?;
    turns(alloc, &mut answers)?;
    table(alloc, &mut answers)?;
    Ok(answers)
}

fn main(rt: HostRuntime) -> ExitCode {
    let Ok(answers) = rows(rt.alloc()) else {
        return ExitCode::from(2);
    };
    match print!(rt; "{answers}") {
        Ok(()) => ExitCode::from(0),
        Err(_) => ExitCode::from(2),
    }
}

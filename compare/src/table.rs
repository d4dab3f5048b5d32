//! What was found, counted by kind.

use crate::{case::KINDS, differences::COUNT};

#[derive(Default, Clone, Copy)]
pub struct Row {
    /// Equal answers that accept.
    pub accepted: u64,
    /// Equal answers that refuse.
    pub refused: u64,
    /// D1 and on.
    pub differences: [u64; COUNT],
    pub unsorted: u64,
}

impl Row {
    pub fn cases(&self) -> u64 {
        self.accepted + self.refused + self.differences.iter().sum::<u64>() + self.unsorted
    }

    fn add(&mut self, other: &Row) {
        self.accepted += other.accepted;
        self.refused += other.refused;
        self.unsorted += other.unsorted;
        self.differences
            .iter_mut()
            .zip(other.differences)
            .for_each(|(sum, more)| *sum += more);
    }
}

#[derive(Default)]
pub struct Table {
    pub rows: [Row; KINDS.len()],
}

impl Table {
    pub fn whole(&self) -> Row {
        let mut whole = Row::default();
        self.rows.iter().for_each(|row| whole.add(row));
        whole
    }

    pub fn print(&self) {
        println!(
            "| call | what | cases | equal | of these refused | different | of these not among D1 to D{COUNT} |"
        );
        println!("|---|---|---|---|---|---|---|");
        let named = KINDS
            .iter()
            .map(|(_, call, name)| (call.to_string(), *name))
            .zip(&self.rows);
        let whole = self.whole();
        let rows = named.chain([((String::new(), "all"), &whole)]);
        for ((call, name), row) in rows.filter(|(_, row)| row.cases() > 0) {
            let different = row.differences.iter().sum::<u64>() + row.unsorted;
            let equal = row.accepted + row.refused;
            let (cases, refused, unsorted) = (row.cases(), row.refused, row.unsorted);
            println!(
                "| {call} | {name} | {cases} | {equal} | {refused} | {different} | {unsorted} |"
            );
        }
        println!();
        println!("| difference | cases | in calls |");
        println!("|---|---|---|");
        for place in 0..COUNT {
            let calls = KINDS
                .iter()
                .zip(&self.rows)
                .filter(|(_, row)| row.differences[place] > 0);
            let calls: Vec<String> = calls
                .map(|((_, call, _), row)| format!("{call}: {}", row.differences[place]))
                .collect();
            println!(
                "| D{} | {} | {} |",
                place + 1,
                whole.differences[place],
                calls.join(", ")
            );
        }
    }
}

//! Ratchets around an answer, and the chunks that a plan takes with each.

use std::ops::RangeInclusive;

use super::super::json::Value;
use super::super::store::RATCHET;
use super::super::text::grouped;
use super::counts::Plan;

/// The rows on each side of the answer, where there are so many.
const AROUND: u32 = 3;

const HEADING: &str = "      N     chunks\n";

pub struct Table<'a> {
    pub plan: &'a Plan,
    /// The row that is marked; without one the last ratchets are shown.
    pub answer: Option<u32>,
}

impl Table<'_> {
    /// Lines with what each ratchet leaves of the card, or how much it lacks.
    pub fn words(&self) -> String {
        let rows = self.ratchets().map(|ratchet| self.row(ratchet));
        HEADING.to_string() + &rows.collect::<String>()
    }

    pub fn json(&self) -> Value {
        let rows = self.ratchets().map(|ratchet| {
            Value::Object(vec![
                ("ratchet", Value::Number(ratchet.into())),
                ("chunks", Value::Number(self.plan.taken(ratchet))),
                ("lasts", Value::Boolean(self.plan.lasts(ratchet))),
            ])
        });
        Value::Array(rows.collect())
    }

    fn ratchets(&self) -> RangeInclusive<u32> {
        let (least, most) = RATCHET.into_inner();
        let middle = self.answer.unwrap_or(most);
        let first = middle.saturating_sub(AROUND).max(least);
        first..=(middle + AROUND).min(most)
    }

    fn row(&self, ratchet: u32) -> String {
        let (taken, chunks) = (self.plan.taken(ratchet), u64::from(self.plan.chunks));
        let mark = if self.answer == Some(ratchet) {
            ">"
        } else {
            " "
        };
        let rest = match self.plan.lasts(ratchet) {
            true => format!("{} left", grouped(chunks - taken)),
            false => format!("{} too many", grouped(taken - chunks)),
        };
        format!("  {mark} {ratchet:>3}  {:>9}  {rest}\n", grouped(taken))
    }
}

#[cfg(test)]
mod tests {
    use super::*;

    fn shown(answer: Option<u32>) -> RangeInclusive<u32> {
        let (counts, chunks) = (vec![], 1);
        let plan = &Plan { counts, chunks };
        Table { plan, answer }.ratchets()
    }

    #[test]
    fn rows_end_where_ratchets_do() {
        let answers = [1, 2, 4, 5, 252, 253, 254, 256];
        let rows = [
            1..=4,
            1..=5,
            1..=7,
            2..=8,
            249..=255,
            250..=256,
            251..=256,
            253..=256,
        ];
        assert_eq!(answers.map(|answer| shown(Some(answer))), rows);
        assert_eq!(shown(None), 253..=256);
    }

    #[test]
    fn largest_numbers_keep_their_columns() {
        let plan = Plan {
            counts: vec![65_536; 64],
            chunks: 1,
        };
        let table = Table {
            plan: &plan,
            answer: Some(1),
        };
        let words = table.words();
        let mut lines = words.lines();
        assert_eq!(lines.next(), Some("      N     chunks"));
        assert_eq!(lines.next(), Some("  >   1  4,194,304  4,194,303 too many"));
    }
}

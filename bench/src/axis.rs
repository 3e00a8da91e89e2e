//! The logarithmic axis of the chart: where a value stands, and which values have a grid line.

use crate::spread::Spread;

pub const RIGHT: f64 = 825.0;

pub struct Axis {
    pub left: f64,
    pub first: u64,
    pub last: u64,
}

impl Axis {
    /// It begins with the last grid line that is not above any value, and ends with the first that is above all.
    pub fn around(left: f64, spreads: &[Spread]) -> Axis {
        let least = spreads.iter().map(|spread| spread.least).min();
        let greatest = spreads.iter().map(|spread| spread.greatest).max();
        let [least, greatest] = [least, greatest].map(|end| end.expect("a value").max(1));
        let first = grid_values().filter(|value| *value <= least).last();
        let last = grid_values().find(|value| *value > greatest);
        Axis {
            left,
            first: first.expect("1 is a grid line"),
            last: last.expect("no measure is as great as the last grid line"),
        }
    }

    pub fn at(&self, value: u64) -> f64 {
        let decades = |from: u64, to: u64| (to as f64).log10() - (from as f64).log10();
        let part = decades(self.first, value.max(1)) / decades(self.first, self.last);
        self.left + (RIGHT - self.left) * part
    }

    pub fn grid(&self) -> impl Iterator<Item = u64> + '_ {
        grid_values().filter(|value| (self.first..=self.last).contains(value))
    }
}

pub fn is_power_of_ten(value: u64) -> bool {
    10u64.pow(value.ilog10()) == value
}

/// The powers of ten, two times and five times each.
fn grid_values() -> impl Iterator<Item = u64> {
    (0..=18).flat_map(|exponent| [1, 2, 5].map(|times| times * 10u64.pow(exponent)))
}

#[cfg(test)]
mod tests {
    use super::{is_power_of_ten, Axis, RIGHT};
    use crate::spread::Spread;

    const LEFT: f64 = 170.0;

    fn axis_of(cells: &[&str]) -> Axis {
        let spreads = cells
            .iter()
            .map(|cell| Spread::from_cell(cell).expect("a cell"));
        Axis::around(LEFT, &spreads.collect::<Vec<Spread>>())
    }

    #[test]
    fn the_axis_holds_the_least_and_the_greatest_values_too() {
        let axis = axis_of(&["3,000 (1,000 to 4,000)", "20,000 (9,000 to 100,000)"]);
        assert_eq!((axis.first, axis.last), (1000, 200_000));
        assert!(axis.at(1000) == LEFT && axis.at(200_000) == RIGHT);
        assert!(axis.at(100_000) < RIGHT);
    }

    #[test]
    fn ten_times_more_is_as_far_everywhere() {
        let axis = axis_of(&["1,000", "250,000"]);
        let step = axis.at(20_000) - axis.at(2000);
        assert!((axis.at(200_000) - axis.at(20_000) - step).abs() < 1e-9);
    }

    #[test]
    fn one_value_alone_has_an_axis() {
        for cell in ["0", "1", "7", "10"] {
            let axis = axis_of(&[cell]);
            assert!(axis.first < axis.last, "{cell}");
        }
    }

    #[test]
    fn grid_lines_are_at_one_two_and_five() {
        let grid: Vec<u64> = axis_of(&["30", "400"]).grid().collect();
        assert_eq!(grid, [20, 50, 100, 200, 500]);
        let tens: Vec<u64> = grid.into_iter().filter(|v| is_power_of_ten(*v)).collect();
        assert_eq!(tens, [100]);
    }
}

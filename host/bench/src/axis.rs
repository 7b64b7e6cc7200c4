//! Where a value stands along an axis, and which values are named there.

/// An axis of the picture.
#[derive(Debug)]
pub struct Axis {
    /// The values at its ends.
    pub values: (f64, f64),
    /// Where its ends stand in the picture.
    pub ends: (f64, f64),
    /// Whether equal ways are equal ratios.
    pub logarithmic: bool,
}

impl Axis {
    /// Where a value stands.
    pub fn at(&self, value: f64) -> f64 {
        let along = |value: f64| match self.logarithmic {
            true => value.ln(),
            false => value,
        };
        let (low, high) = (along(self.values.0), along(self.values.1));
        let (from, to) = self.ends;
        from + (along(value) - low) / (high - low) * (to - from)
    }
}

/// Round numbers in even steps, from 0 to `most` or just beyond it.
pub fn steps(most: f64) -> Vec<f64> {
    let rough = most / 6.0;
    let power = 10f64.powf(rough.log10().floor());
    let round = [1.0, 2.0, 5.0].map(|times| times * power);
    let step = round.into_iter().find(|step| *step >= rough);
    let step = step.unwrap_or(10.0 * power);
    let count = (most / step).ceil() as u32;
    (0..=count).map(|k| f64::from(k) * step).collect()
}

/// The powers of ten from `least` or just below it to `most` or just beyond it, two at least.
pub fn decades(least: f64, most: f64) -> Vec<f64> {
    let low = least.log10().floor() as i32;
    let high = most.log10().ceil() as i32;
    (low..=high.max(low + 1)).map(|k| 10f64.powi(k)).collect()
}

/// A number with commas between its thousands; a part of one as it is.
pub fn numbered(value: f64) -> String {
    if value.fract() != 0.0 {
        return value.to_string();
    }
    let digits = format!("{value:.0}");
    let mut text = String::new();
    for (place, digit) in digits.chars().enumerate() {
        if place > 0 && (digits.len() - place) % 3 == 0 {
            text.push(',');
        }
        text.push(digit);
    }
    text
}

#[cfg(test)]
mod tests {
    use super::*;

    fn near(left: f64, right: f64) -> bool {
        (left - right).abs() < 1e-9
    }

    #[test]
    fn an_even_axis_has_a_value_at_its_part_of_the_way() {
        let axis = Axis {
            values: (0.0, 800.0),
            ends: (400.0, 160.0),
            logarithmic: false,
        };
        assert!(near(axis.at(0.0), 400.0));
        assert!(near(axis.at(200.0), 340.0));
        assert!(near(axis.at(800.0), 160.0));
    }

    #[test]
    fn a_logarithmic_axis_has_equal_ways_for_equal_ratios() {
        let axis = Axis {
            values: (16.0, 4_096.0),
            ends: (100.0, 500.0),
            logarithmic: true,
        };
        for (value, place) in [
            (16.0, 100.0),
            (64.0, 200.0),
            (256.0, 300.0),
            (4_096.0, 500.0),
        ] {
            assert!(near(axis.at(value), place), "{value}");
        }
    }

    #[test]
    fn steps_are_round_and_reach_the_greatest() {
        assert_eq!(steps(906.0), [0.0, 200.0, 400.0, 600.0, 800.0, 1_000.0]);
        assert_eq!(steps(300.0), [0.0, 50.0, 100.0, 150.0, 200.0, 250.0, 300.0]);
        assert_eq!(
            steps(5_500.0),
            [0.0, 1_000.0, 2_000.0, 3_000.0, 4_000.0, 5_000.0, 6_000.0]
        );
    }

    #[test]
    fn decades_enclose_what_is_shown() {
        assert_eq!(decades(0.5, 766.0), [0.1, 1.0, 10.0, 100.0, 1_000.0]);
        assert_eq!(decades(1.0, 100.0), [1.0, 10.0, 100.0]);
        assert_eq!(decades(1.0, 1.0), [1.0, 10.0]);
    }

    #[test]
    fn thousands_have_commas() {
        let texts = [0.1, 0.0, 16.0, 256.0, 4_096.0, 10_000.0, 1_234_567.0].map(numbered);
        assert_eq!(
            texts,
            ["0.1", "0", "16", "256", "4,096", "10,000", "1,234,567"]
        );
    }
}

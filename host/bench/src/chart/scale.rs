//! Where numbers stand on an axis, and which of them are named there.

/// How an axis runs.
#[derive(Clone, Copy, Debug, PartialEq, Eq)]
pub enum Scale {
    /// Equal steps add.
    Linear,
    /// Equal steps multiply.
    Log,
}

/// An axis from its lowest to its highest number.
#[derive(Clone, Copy, Debug)]
pub struct Span {
    scale: Scale,
    low: f64,
    high: f64,
}

impl Span {
    /// The axis that just holds some numbers.
    pub fn holding(scale: Scale, numbers: impl IntoIterator<Item = f64>) -> Self {
        let (low, high) = crate::runs::spread(numbers);
        Self { scale, low, high }
    }

    /// The axis of times that ends on ticks, and its ticks: from 0 on, or powers of ten.
    pub fn of_times(scale: Scale, times: impl IntoIterator<Item = f64>) -> (Self, Vec<f64>) {
        let span = Self::holding(scale, times);
        let ticks = match scale {
            Scale::Linear => steps(span.high),
            Scale::Log => decades(span.low, span.high),
        };
        (Self::holding(scale, ticks.iter().copied()), ticks)
    }

    /// Where a number stands: 0 at the lowest, 1 at the highest.
    pub fn place(&self, number: f64) -> f64 {
        match self.scale {
            Scale::Linear => (number - self.low) / (self.high - self.low),
            Scale::Log => (number / self.low).ln() / (self.high / self.low).ln(),
        }
    }
}

/// About five round steps from 0 to a number or over it.
fn steps(high: f64) -> Vec<f64> {
    let power = 10f64.powf((high / 5.0).log10().floor());
    let round = [1.0, 2.0, 5.0, 10.0].map(|digit| digit * power);
    let step = round.into_iter().find(|step| step * 5.5 >= high);
    let step = step.unwrap_or(high);
    let count = (high / step).ceil() as usize;
    (0..=count).map(|number| number as f64 * step).collect()
}

/// Powers of ten from one below a number to one above another, with 2 and 5 times these between them where they are few.
fn decades(low: f64, high: f64) -> Vec<f64> {
    let first = low.log10().floor() as i32;
    let last = (high.log10().ceil() as i32).max(first + 1);
    let digits: &[f64] = match last - first {
        ..=2 => &[1.0, 2.0, 5.0],
        _ => &[1.0],
    };
    let below =
        (first..last).flat_map(|power| digits.iter().map(move |digit| digit * 10f64.powi(power)));
    below.chain([10f64.powi(last)]).collect()
}

/// A time in the unit that suits it.
pub fn time(ns: f64) -> String {
    let units = [(1e9, "s"), (1e6, "ms"), (1e3, "µs"), (1.0, "ns")];
    match units.iter().find(|(unit, _)| ns >= *unit) {
        Some((unit, name)) => format!("{} {name}", ns / unit),
        None => "0".to_owned(),
    }
}

#[cfg(test)]
mod tests {
    use super::*;

    #[test]
    fn times_are_told_in_the_unit_that_suits_them() {
        let told = [0.0, 200.0, 1_500.0, 1e6, 2e7, 1e10].map(time);
        assert_eq!(told, ["0", "200 ns", "1.5 µs", "1 ms", "20 ms", "10 s"]);
    }

    #[test]
    fn a_linear_axis_of_times_goes_from_zero_in_round_steps() {
        let (span, ticks) = Span::of_times(Scale::Linear, [8_503.0, 156.0]);
        assert_eq!(ticks, [0.0, 2e3, 4e3, 6e3, 8e3, 1e4]);
        assert_eq!(
            [0.0, 5e3, 1e4].map(|time| span.place(time)),
            [0.0, 0.5, 1.0]
        );
    }

    #[test]
    fn a_log_axis_of_times_goes_from_power_to_power() {
        let (_, ticks) = Span::of_times(Scale::Log, [18_059.0, 9e9]);
        assert_eq!(ticks, [1e4, 1e5, 1e6, 1e7, 1e8, 1e9, 1e10]);
        let (span, ticks) = Span::of_times(Scale::Log, [18_059.0, 906_724.0]);
        assert_eq!(ticks, [1e4, 2e4, 5e4, 1e5, 2e5, 5e5, 1e6]);
        assert_eq!(
            [1e4, 1e5, 1e6].map(|time| span.place(time)),
            [0.0, 0.5, 1.0]
        );
    }

    #[test]
    fn every_time_lies_on_its_axis() {
        for high in (1..2_000).map(f64::from) {
            for scale in [Scale::Linear, Scale::Log] {
                let (span, ticks) = Span::of_times(scale, [high, high / 2.0]);
                let place = span.place(high);
                assert!((0.0..=1.0).contains(&place), "{high}: {place}");
                assert!((2..=7).contains(&ticks.len()), "{high}: {ticks:?}");
            }
        }
    }
}

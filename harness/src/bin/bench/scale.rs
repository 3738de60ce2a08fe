//! Where values are on an axis, and which of them are marked.

/// How an axis is spaced: evenly, or so that each doubling takes the same room.
#[derive(Clone, Copy)]
pub enum Spacing {
    Even,
    Doubling,
}

/// An axis: values from one end to the other, and where these ends are in the drawing.
pub struct Scale {
    pub spacing: Spacing,
    pub values: (f64, f64),
    pub places: (f64, f64),
}

impl Scale {
    pub fn place(&self, value: f64) -> f64 {
        let measure = |value: f64| match self.spacing {
            Spacing::Even => value,
            Spacing::Doubling => value.log2(),
        };
        let (low, high) = (measure(self.values.0), measure(self.values.1));
        let share = (measure(value) - low) / (high - low);
        self.places.0 + share * (self.places.1 - self.places.0)
    }
}

/// The most steps between marks.
const STEPS: f64 = 8.0;

/// The values that are marked, up to the first that is not below the greatest value: round numbers from 0, or the
/// powers of two from 1.
pub fn marks(spacing: Spacing, greatest: f64) -> Vec<f64> {
    let step = round_step(greatest);
    let mark = |k: i32| match spacing {
        Spacing::Even => step * f64::from(k),
        Spacing::Doubling => 2f64.powi(k),
    };
    let mut marks = vec![mark(0), mark(1)];
    while marks[marks.len() - 1] < greatest {
        marks.push(mark(marks.len() as i32));
    }
    marks
}

/// The least of 1, 2, 5, 10, 20, 50 and so on that needs few steps.
fn round_step(greatest: f64) -> f64 {
    let mut power = 10f64.powf((greatest / STEPS).log10().floor());
    loop {
        for digit in [1.0, 2.0, 5.0] {
            if greatest <= STEPS * digit * power {
                return digit * power;
            }
        }
        power *= 10.0;
    }
}

/// Places with at least a gap between any two, each as it was or further down. The order is kept.
pub fn spread(places: &[f64], gap: f64) -> Vec<f64> {
    let mut order: Vec<usize> = (0..places.len()).collect();
    order.sort_by(|&a, &b| places[a].total_cmp(&places[b]));
    let mut spread = places.to_vec();
    for pair in order.windows(2) {
        spread[pair[1]] = spread[pair[1]].max(spread[pair[0]] + gap);
    }
    spread
}

#[cfg(test)]
mod tests {
    use super::*;

    #[test]
    fn even_and_doubling_places() {
        let mut scale = Scale {
            spacing: Spacing::Even,
            values: (0.0, 16.0),
            places: (100.0, 260.0),
        };
        assert_eq!(
            [0.0, 4.0, 16.0].map(|v| scale.place(v)),
            [100.0, 140.0, 260.0]
        );
        scale.spacing = Spacing::Doubling;
        scale.values.0 = 1.0;
        assert_eq!(
            [1.0, 4.0, 16.0].map(|v| scale.place(v)),
            [100.0, 180.0, 260.0]
        );
    }

    #[test]
    fn marks_are_round_and_reach_the_greatest() {
        let last_and_step = |greatest: f64| {
            let marks = marks(Spacing::Even, greatest);
            (marks[marks.len() - 1], marks[1])
        };
        assert_eq!(last_and_step(16.0), (16.0, 2.0));
        assert_eq!(last_and_step(117.6), (120.0, 20.0));
        assert_eq!(last_and_step(82.1), (100.0, 20.0));
        assert_eq!(last_and_step(3.0), (3.0, 0.5));
        assert_eq!(marks(Spacing::Doubling, 8.0), [1.0, 2.0, 4.0, 8.0]);
    }

    #[test]
    fn places_are_spread_in_their_order() {
        assert_eq!(spread(&[30.0, 10.0, 12.0], 5.0), [30.0, 10.0, 15.0]);
        assert_eq!(spread(&[10.0, 10.0, 10.0], 5.0), [10.0, 15.0, 20.0]);
    }
}

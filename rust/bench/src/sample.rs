//! Times of runs, and what is shown of many.

use std::time::Duration;

/// One run of a program.
#[derive(Clone, Copy, Debug)]
pub struct Sample {
    /// From start to end.
    pub whole: Duration,
    /// On a processor; the kernel may not tell.
    pub processor: Option<Duration>,
}

/// The best and the median of many runs, in microseconds.
#[derive(Clone, Copy, Debug, PartialEq)]
pub struct Times {
    pub best: f64,
    pub median: f64,
}

/// Do all the runs have a processor time?
pub fn have_processor_time(samples: &[Sample]) -> bool {
    samples.iter().all(|sample| sample.processor.is_some())
}

/// Of the processor times where all the runs have one, else of the times from start to end.
pub fn times(samples: &[Sample], by_processor: bool) -> Times {
    let time = |sample: &Sample| match sample.processor {
        Some(time) if by_processor => time,
        _ => sample.whole,
    };
    let mut sorted: Vec<f64> = samples.iter().map(|one| time(one).as_secs_f64() * 1e6).collect();
    sorted.sort_by(f64::total_cmp);
    let middle = sorted.len() / 2;
    let median = match sorted.len() % 2 {
        0 => (sorted[middle - 1] + sorted[middle]) / 2.0,
        _ => sorted[middle],
    };
    Times { best: sorted[0], median }
}

#[cfg(test)]
mod tests {
    use super::*;

    #[test]
    fn best_and_median() {
        let sample = |whole, processor| Sample {
            whole: Duration::from_micros(whole),
            processor: Some(Duration::from_micros(processor)),
        };
        let mut samples = vec![sample(5, 1), sample(3, 9), sample(4, 2)];
        assert_eq!(times(&samples, true), Times { best: 1.0, median: 2.0 });
        assert_eq!(times(&samples, false), Times { best: 3.0, median: 4.0 });
        samples.push(sample(9, 4));
        assert_eq!(times(&samples, true), Times { best: 1.0, median: 3.0 });
    }
}

//! How often each number was told, so that a trial shows that it met them.

#[derive(Default)]
pub struct Told {
    times: [usize; 32],
}

impl Told {
    pub fn add(&mut self, number: u8) {
        self.times[usize::from(number)] += 1;
    }

    pub fn times(&self, number: u8) -> usize {
        self.times[usize::from(number)]
    }

    /// Each of these numbers was told more often than that.
    pub fn each_above(&self, least: usize, numbers: &[u8]) {
        for &number in numbers {
            let times = self.times(number);
            assert!(times > least, "{number} was told {times} times");
        }
    }
}

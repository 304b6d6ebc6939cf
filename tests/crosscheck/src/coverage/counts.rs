//! How often each corner of a table was reached.

pub struct Counts<const N: usize>([u64; N]);

impl<const N: usize> Default for Counts<N> {
    fn default() -> Counts<N> {
        Counts([0; N])
    }
}

impl<const N: usize> Counts<N> {
    pub fn add(&mut self, reached: [bool; N]) {
        for (count, reached) in self.0.iter_mut().zip(reached) {
            *count += u64::from(reached);
        }
    }

    /// Prints the counts; what is missing comes back.
    pub fn report<F>(&self, table: [(&str, F); N]) -> Vec<String> {
        let mut missing = Vec::new();
        for (count, (name, _)) in self.0.iter().zip(table) {
            println!("{count:9} times {name}");
            if *count == 0 {
                missing.push(name.to_string());
            }
        }
        missing
    }
}

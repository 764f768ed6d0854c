//! Options of different names whose order among each other counts.

use clap::ArgMatches;

/// One option with its value, and the value as it was written.
#[derive(Clone, Debug)]
pub struct Placed<V> {
    pub option: &'static str,
    pub said: String,
    pub value: V,
}

/// Those of these options that a command line has, in its order.
pub fn of<V: Clone + Send + Sync + 'static>(matches: &ArgMatches, options: &[&'static str]) -> Vec<Placed<V>> {
    let mut placed = Vec::new();
    for &option in options {
        let found = (matches.indices_of(option), matches.get_many::<V>(option), matches.get_raw(option));
        let (Some(places), Some(values), Some(raw)) = found else { continue };
        for ((place, value), raw) in places.zip(values).zip(raw) {
            let said = raw.to_string_lossy().into_owned();
            placed.push((place, Placed { option, said, value: value.clone() }));
        }
    }
    placed.sort_by_key(|(place, _)| *place);
    placed.into_iter().map(|(_, option)| option).collect()
}

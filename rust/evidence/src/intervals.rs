//! Interval logs read from their bytes (document 02, note 9): what their receives name, and cuts of intervals that are closed.

use crate::description::{get, worker_count};

/// For each worker of an interval log the peer and the interval that each of its receives names.
#[derive(Clone, Debug)]
pub struct Named(Vec<Vec<(usize, u32)>>);

impl Named {
    /// What the receives in the bytes of an interval log name.
    pub fn of(converted: &[u8]) -> Named {
        let worker = |w| {
            let [count, offset] = [8, 12].map(|field| get(converted, field + 20 * w) as usize);
            let records = converted[offset..offset + 12 * count].chunks(12);
            let named = records.map(|record| (usize::from(record[1]), get(record, 4)));
            named.collect()
        };
        Named((0..worker_count(converted)).map(worker).collect())
    }

    /// The peer and the interval that each receive of a worker names.
    pub fn by(&self, worker: usize) -> &[(usize, u32)] {
        &self.0[worker]
    }

    /// How many receives each worker has.
    pub fn receives(&self) -> Vec<u32> {
        self.0.iter().map(|named| named.len() as u32).collect()
    }

    /// Whether each receive within an interval cut names an interval within it.
    pub fn is_closed(&self, cut: &[u32]) -> bool {
        let mut within = self
            .0
            .iter()
            .zip(cut)
            .flat_map(|(named, &k)| &named[..k as usize]);
        within.all(|&(peer, interval)| interval <= cut[peer])
    }

    /// The least closed cut that has an interval of a worker within it: what the receives within the cut name is added to it until all of
    /// it is there.
    pub fn least_closed(&self, worker: usize, interval: u32) -> Vec<u32> {
        let mut cut = vec![0; self.0.len()];
        cut[worker] = interval;
        let mut read = vec![0; self.0.len()];
        while read != cut {
            for (w, named) in self.0.iter().enumerate() {
                for &(peer, interval) in &named[read[w] as usize..cut[w] as usize] {
                    // Its own worker is no peer, so the receives of this one that are read stay the same.
                    cut[peer] = cut[peer].max(interval);
                }
                read[w] = cut[w];
            }
        }
        cut
    }
}

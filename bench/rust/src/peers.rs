//! Searches that stand beside the engine's besides the Rust's: plain C, and FAISS's exact index where it is installed.

use crate::measure;

unsafe extern "C" {
    fn plain_search(
        vectors: *const f32,
        ids: *const u64,
        count: usize,
        length: usize,
        by_angle: bool,
        query: *const f32,
        k: usize,
        found: *mut u64,
        distances: *mut f32,
    ) -> usize;
}

/// Vectors of one length, one behind the other by rising id, as a table of the engine has them too.
pub struct Vectors {
    pub ids: Vec<u64>,
    pub floats: Vec<f32>,
    pub length: usize,
}

impl Vectors {
    pub fn new(writes: &[(u64, Vec<f32>)]) -> Vectors {
        let mut writes = writes.to_vec();
        writes.sort_by_key(|(id, _)| *id);
        Vectors {
            ids: writes.iter().map(|(id, _)| *id).collect(),
            floats: writes.iter().flat_map(|(_, v)| v.clone()).collect(),
            length: writes[0].1.len(),
        }
    }

    /// How many were found: their ids and distances, nearest first. `found` and `distances` hold k.
    pub fn plain(
        &self,
        by_angle: bool,
        query: &[f32],
        k: usize,
        found: &mut [u64],
        distances: &mut [f32],
    ) -> usize {
        unsafe {
            plain_search(
                self.floats.as_ptr(),
                self.ids.as_ptr(),
                self.ids.len(),
                self.length,
                by_angle,
                query.as_ptr(),
                k,
                found.as_mut_ptr(),
                distances.as_mut_ptr(),
            )
        }
    }
}

impl Vectors {
    /// Plain C finds what the Rust found, to the last bit.
    pub fn same(&self, by_angle: bool, query: &[f32], hits: &[rpc::Neighbor]) {
        let (mut found, mut distances) = (vec![0; hits.len()], vec![0.0; hits.len()]);
        let n = self.plain(by_angle, query, hits.len(), &mut found, &mut distances);
        assert_eq!(n, hits.len());
        for (hit, (id, distance)) in hits.iter().zip(found.iter().zip(&distances)) {
            assert_eq!((hit.id, hit.distance.to_bits()), (*id, distance.to_bits()));
        }
    }
}

#[cfg(feature = "faiss")]
pub mod faiss {
    use super::Vectors;
    use std::ffi::c_void;

    unsafe extern "C" {
        fn faiss_index(
            vectors: *const f32,
            count: usize,
            length: usize,
            by_angle: bool,
        ) -> *const c_void;
        fn faiss_search(
            index: *const c_void,
            query: *const f32,
            k: usize,
            places: *mut i64,
            distances: *mut f32,
        );
    }

    pub struct Index(*const c_void);

    impl Index {
        pub fn new(vectors: &Vectors, by_angle: bool) -> Index {
            let (floats, count) = (vectors.floats.as_ptr(), vectors.ids.len());
            Index(unsafe { faiss_index(floats, count, vectors.length, by_angle) })
        }

        pub fn search(&self, query: &[f32], k: usize, places: &mut [i64], distances: &mut [f32]) {
            assert!(k <= places.len() && k <= distances.len());
            let (places, distances) = (places.as_mut_ptr(), distances.as_mut_ptr());
            unsafe { faiss_search(self.0, query.as_ptr(), k, places, distances) }
        }
    }
}

/// How many neighbours are asked for, in each table of searches.
pub const NEIGHBOURS: [u32; 3] = [10, 100, 1024];

/// A row's name.
pub fn named(by_angle: bool, k: u32) -> String {
    let metric = if by_angle { "Angular" } else { "Euclidean" };
    format!("{metric}, k = {k}")
}

/// One search: by angle or not, the query's number, k.
pub type Search<'a> = &'a mut dyn FnMut(bool, usize, u32);

/// Both metrics, each number of neighbours, the queries one after the other: the engine and a peer in turns.
pub fn table(what: &str, peer: &str, queries: usize, engine: Search, other: Search) {
    measure::head_beside(what, peer);
    for by_angle in [false, true] {
        for k in NEIGHBOURS {
            let (mut i, mut j) = (0, 0);
            let row = measure::row(
                &named(by_angle, k),
                1.0,
                &mut || {
                    i += 1;
                    engine(by_angle, i % queries, k);
                },
                &mut || {
                    j += 1;
                    other(by_angle, j % queries, k);
                },
            );
            measure::print(&row);
        }
    }
}

/// The engine's search beside those of this file, on the same vectors and queries.
pub fn beside(what: &str, vectors: &Vectors, queries: &[Vec<f32>], engine: Search) {
    let (mut found, mut distances) = (vec![0; 1024], vec![0.0; 1024]);
    table(
        what,
        "plain C",
        queries.len(),
        engine,
        &mut |by_angle, q, k| {
            let k = k as usize;
            std::hint::black_box(vectors.plain(
                by_angle,
                &queries[q],
                k,
                &mut found,
                &mut distances,
            ));
        },
    );
    #[cfg(feature = "faiss")]
    {
        let indexes = [false, true].map(|by_angle| faiss::Index::new(vectors, by_angle));
        let mut places = vec![0; 1024];
        table(
            what,
            "FAISS",
            queries.len(),
            engine,
            &mut |by_angle, q, k| {
                let index = &indexes[usize::from(by_angle)];
                index.search(&queries[q], k as usize, &mut places, &mut distances);
            },
        );
    }
}

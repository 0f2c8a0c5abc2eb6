//! tower's ready cache, balancer, load measures and sampler: the root of both builds, as published and with what the reference is handed.
//! The modules in files are copies that ../build.sh makes of tower's sources.
#![allow(clippy::all, dead_code, unexpected_cfgs, rustdoc::all)]

pub type BoxError = Box<dyn std::error::Error + Send + Sync>;

mod sealed {
    pub trait Sealed<T> {}
}

pub mod discover;
pub mod load;

pub mod ready_cache {
    pub mod cache;
    pub mod error;
    pub use self::cache::ReadyCache;
}

pub mod util {
    pub mod rng;
}

pub mod balance {
    pub mod error {
        /// A fault of the feed.
        #[derive(Debug)]
        pub struct Discover(pub crate::BoxError);

        impl std::fmt::Display for Discover {
            fn fmt(&self, f: &mut std::fmt::Formatter<'_>) -> std::fmt::Result {
                write!(f, "feed: {}", self.0)
            }
        }

        impl std::error::Error for Discover {}
    }

    pub mod p2c {
        pub mod service;
    }
}

//! Which of the crate's files are compiled, and which are not. Read by the build step as well.

/// Compiled whole, byte for byte, in the place that they have in the crate.
pub const WHOLE: &[&str] = &[
    "congestion.rs",
    "congestion/bbr/bw_estimation.rs",
    "congestion/bbr/min_max.rs",
    "congestion/bbr/mod.rs",
    "congestion/cubic.rs",
    "congestion/new_reno.rs",
    "connection/pacing.rs",
];

/// A part of a file that is compiled without the rest of it.
pub struct Part {
    /// The file, both in the crate and in the module tree.
    pub file: &'static str,
    /// What is compiled.
    pub item: Item,
    /// Why the rest is not.
    pub without: &'static str,
}

/// What is cut out of a file.
pub enum Item {
    /// A struct with its attributes and its `impl`.
    Struct(&'static str),
    /// A constant, on a line of its own.
    Constant(&'static str),
}

/// Compiled in part.
pub const PARTS: &[Part] = &[
    Part {
        file: "connection/paths.rs",
        item: Item::Struct("RttEstimator"),
        without: "`PathData` and `InFlight` name `MtuDiscovery`, `PacketSpace`, `SentPacket`, \
                  `TransportConfig` and `SpaceId`, from modules that are not compiled here; \
                  `RecoveryMetrics` needs the crate `qlog`; `PathResponses` answers path \
                  challenges and is no part of the sending path",
    },
    Part {
        file: "lib.rs",
        item: Item::Constant("TIMER_GRANULARITY"),
        without: "the rest declares every module of the protocol",
    },
];

/// Files that are not compiled at all, and why.
pub const NOT_BUILT: &[(&str, &str)] = &[
    (
        "varint.rs",
        "needs the crates `bytes` and `thiserror` and the module `coding`; nothing compiled here uses it",
    ),
    (
        "every other file",
        "packets, streams, handshake and endpoints: nothing compiled here uses them",
    ),
];

impl Item {
    /// The name of the item.
    pub fn name(&self) -> &'static str {
        match self {
            Self::Struct(name) | Self::Constant(name) => name,
        }
    }
}

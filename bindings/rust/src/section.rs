/// A section of a pack. They stand in the file in this order, from [`FIRST_SECTION`](crate::FIRST_SECTION) on.
#[derive(Clone, Copy, Debug, PartialEq, Eq, Hash)]
pub enum Section {
    /// The pack's name: a text, start and length.
    Name,
    /// Structs: a list.
    Structs,
    /// Interfaces: a list.
    Interfaces,
    /// Named types with their methods: a list.
    NamedTypes,
    /// Interface tables: a list.
    Itabs,
    /// Runtime types: a list.
    RuntimeTypes,
    /// Ids of well-known types: nine optional ids, and an optional pair of offsets after the first four.
    WellKnown,
    /// Constants: a list.
    Constants,
    /// Globals: a list.
    Globals,
    /// Functions: a list.
    Functions,
    /// Externs: a count, which is 0 in a pack that is taken.
    Externs,
    /// The function that a run enters by: a number.
    Entry,
    /// The function that initialises an island: a number.
    IslandInit,
    /// Artifacts: a list.
    Artifacts,
    /// Source files: a list.
    Files,
    /// Source locations of each function: a list of lists.
    FunctionLocations,
    /// Inline sources: the list of frames, then the list of functions that have some.
    InlineSources {
        /// How many functions the pack has: no more of them can have inline sources.
        functions: u64,
    },
}

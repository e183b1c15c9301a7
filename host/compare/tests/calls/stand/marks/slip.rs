//! What may go wrong with bookmarks.

macro_rules! slips {
    ($($name:ident,)*) => {
        #[derive(Clone, Copy, Debug, PartialEq, Eq)]
        pub enum Slip {
            None,
            $($name,)*
        }

        pub const ALL: &[Slip] = &[$(Slip::$name,)*];
    };
}

slips! {
    // The byte form, written and read.
    LengthBeforeOffset,
    BigEndian,
    ValueBeforeKey,
    BlockLast,
    // What is written.
    RootsBlock,
    OidForBlock,
    ByteForBlock,
    KeyFromTable,
    ValueFromEnd,
    // Which record.
    GhostsCounted,
    GhostsMarked,
    RecordBehindRead,
    CountedFromOne,
    PlaceOf32Bits,
    KindMasked,
    KindRefused,
    KindIgnored,
    IdMasked,
    InodeFirst,
    FourPastTheEnd,
    // The mark's buffer.
    MarkShortFirst,
    MarkShortBeforeScan,
    MarkShortPastTheEnd,
    MarkFullIsShort,
    MarkHalfWritten,
    MarkWiped,
    MarkOnePast,
    // One handed in: its length.
    ShorterTaken,
    LongerTaken,
    LengthBeforeOpening,
    TwoForLength,
    // Its block.
    ByTheCount,
    ByTheCountToo,
    ProductWraps,
    NextWraps,
    EightForProduct,
    TwoForBlock,
    LastBlockRefused,
    PartOfBlockTaken,
    ZeroRefused,
    NodesAlone,
    SoundAlone,
    // Its parts.
    KeyUntested,
    ValueUntested,
    KeyEdgeRefused,
    ValueEdgeRefused,
    KeyOneMore,
    ValueOneMore,
    EndOffsetRefused,
    SumsOf32Bits,
    TwoForParts,
    KeyUntestedWithoutValue,
    // A missing value.
    MissingByOffset,
    MissingByLength,
    MissingByEither,
    MissingRefused,
    MissingAsEmpty,
    EmptyAsMissing,
    MissingKeyTaken,
    // The line and its buffer.
    VolumeOpened,
    ValueShownFirst,
    UpperHex,
    NoLineEnd,
    SixBeforeOne,
    ShortFirst,
    FullIsShort,
    HalfWritten,
    Wiped,
    OnePast,
}

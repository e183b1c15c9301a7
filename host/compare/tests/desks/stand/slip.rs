//! What may go wrong in counting nodes.

macro_rules! slips {
    ($($name:ident,)*) => {
        #[derive(Clone, Copy, Debug, PartialEq, Eq)]
        pub enum Slip {
            None,
            $($name,)*
        }

        pub const ALL: &[Slip] = &[$(Slip::$name,)*];
    };
}

slips! {
    // Which blocks count.
    CountedAfterLevel,
    CountedBeforePassing,
    CountedOnce,
    CountedOnceByTheDock,
    ObjectsCounted,
    // Roots.
    ContainerRootNotLoaded,
    VolumeRootNotLoaded,
    TreeRootNotLoaded,
    RootNotInLookups,
    RootNotInScans,
    // Walks.
    VolumeNotLookedUp,
    MapWalksNotCounted,
    InodeToTheEnd,
    ElementAlone,
    EntriesTwice,
    AttributesTwice,
    FileTwice,
    StreamTwice,
    LinkTwice,
    InodeTwice,
    PackedFileRead,
    ReadPastSizeNotRead,
    MarkToTheEnd,
    MarkOfWholeKind,
    MarkedOpensVolume,
    RootBeforeFive,
    KindReadsInode,
    NoNodesButOpening,
    // Refusals.
    RefusedDropped,
    RefusedOpeningDropped,
    ShortDropped,
    OpeningDropped,
    // Listings.
    ListedAttributesTwice,
    ListedEntriesTwice,
    ListedStreamTwice,
    ListedFileTwice,
    ListedInodeTwice,
    ListedEntriesFirst,
    ListedStreamsWithList,
    ListedDirectoriesAlone,
    ListedPackedRead,
    ListedDeepRead,
    EntriesAfterFault,
    FileAfterFault,
    ShortListDropped,
    ShortListToTheEnd,
    ShortLineNotRead,
    MeasuredTwice,
    MeasuredByRoom,
    MeasureNotCounted,
    // The counts.
    SumWraps,
    StaysBefore,
    CountReplaced,
    DeskModulo8,
    DeskOfOneByte,
    DeskAtMost7,
    NextDesk,
    AllDesks,
    DeskAboveRefused,
    DeskAboveNotAsked,
    // What is asked for.
    CallOfOneByte,
    NoCallOpens,
    NoCallWipes,
    NoCallIsOpen,
    NumberedByOne,
    NumberLookedAt,
    NoNodesOpen,
}

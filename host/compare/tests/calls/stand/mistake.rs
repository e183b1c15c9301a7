//! What a port might get wrong.

macro_rules! mistakes {
    ([$($name:ident),* $(,)?], [$($other:ident),* $(,)?]) => {
        #[derive(Clone, Copy, Debug, PartialEq, Eq)]
        pub enum Mistake {
            None,
            $($name,)*
            $($other),*
        }

        /// In calls that `crates/cases` has records of.
        pub const RECORDED: [Mistake; [$(stringify!($name)),*].len()] = [$(Mistake::$name),*];
        /// In the others.
        pub const UNRECORDED: [Mistake; [$(stringify!($other)),*].len()] = [$(Mistake::$other),*];
    };
}

mistakes!(
    [
        // Trees.
        GhostsTaken,
        GhostEnds,
        LeafAboveRefused,
        LevelIgnored,
        NeverStops,
        NextKeyIgnored,
        // Inodes.
        ShortInodeTaken,
        FieldsAt82,
        FieldsUnrounded,
        FirstCopyCounts,
        FieldPastEndDropped,
        StreamNeeds40,
        LinksUnsigned,
        LastInode,
        NameToTheEnd,
        EmptyNameAbsent,
        // Directories.
        HashedAlone,
        HashedByCase,
        FormsSwapped,
        ToldByLength,
        LengthOf11Bits,
        LengthOf16Bits,
        LengthAtMost,
        LengthAtLeast,
        PlainFrom12,
        ShortKeyRefused,
        KindOf16Bits,
        EntryAlone,
        // Attributes.
        LengthIgnored,
        AttributeToTheEnd,
        StreamByFlag2,
        StreamNeeds48,
        AttributeWantsInode,
        // Streams.
        OverlapTaken,
        StreamPastCount,
        StreamEndsWithExtents,
        StreamGapsClosed,
        StreamChecksLast,
        // Links.
        LinkToTheEnd,
        LastLink,
        LinkWithoutInode,
        LinkOfBytes,
        LinkByStart,
        // Extents and reads.
        LengthUnmasked,
        ExtentsOfId,
        PackedExtents,
        PackedRead,
        DescendingTaken,
        DescendingAfterSize,
        EmptyDropped,
        FromTheFirst,
        HolesRead,
        ReadPastCount,
        CountWhereUntouched,
        PartBlocksRead,
        SizeAllocated,
        NotZeroed,
        ZeroedPast,
        RestOfExtentLost,
        // Paths.
        ExactAlone,
        KeyFirst,
        CaseIgnored,
        CaseKept,
        SlashAlone,
        EmptyParts,
        NineAsAbsent,
        NineAfterEntries,
        NineOnSensitive,
        NineBeforeExact,
        NineBeyondMatch,
        FiveFirst,
        FiveAfterRoot,
        LookupOfEntryId,
        // Numbers of names.
        NumberPastZero,
        NumberOfBytes,
        NumberOfTyped,
        NumberAtMostOne,
        NumberOfFirstCopy,
        NumberOfLinksName,
        NumberByExtent,
        NumberOfContents,
        NumberOfNoName,
        NumberAlone,
        KindTaken,
        KindFirst,
        // Numbers and buffers.
        OverflowAsCorrupt,
        ShortFirst,
        ShortByOne,
        OnePast,
        Wiped,
        UpperHex,
    ],
    [
        // Entries in one call.
        EntriesFromTheFirst,
        EntriesThatFitAlone,
        EntriesByOne,
        EntriesPassedOver,
        EntriesCut,
        EntriesAllOrNone,
        EntriesShortAsNone,
        // Bytes of attributes.
        BytesShortBeforeFaults,
        BytesToZero,
        BytesThatFit,
        BytesAsText,
    ]
);

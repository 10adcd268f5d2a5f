//! Faults that can be switched on in the second program, one at a time.

#[derive(Clone, Copy, PartialEq, Eq, Debug, Default)]
pub enum Fault {
    #[default]
    None,

    // The five slips that look right.
    /// A cycle ended by an in-place tuple leaves that tuple marked.
    LastStaysMarked,
    /// A tuple made in Rest is marked.
    MarkedInRest,
    /// Registers are shaded at the start of marking and never again.
    RootsOnlyAtStart,
    /// A tuple counts in live once for each register that names it.
    CountedPerRegister,
    /// Marking an empty heap goes on to sweep from word 0.
    EmptyHeapSwept,

    // Others.
    /// LOAD doesn't look in the copy register.
    LoadSkipsCopy,
    /// LOAD doesn't look at the new place of words moved already.
    LoadSkipsMoved,
    /// STORE doesn't write to the copy register.
    StoreSkipsCopy,
    /// TAG reads at the entry's address even while the tuple moves.
    TagSkipsMove,
    /// STORE doesn't shade.
    StoreNoShade,
    /// STORE doesn't shade in phase 3.
    StoreNoShadeInAdd,
    /// STORE shades in Rest too.
    StoreShadesInRest,
    /// STORE doesn't set the deep flag.
    StoreNotDeep,
    /// A STORE of data clears the deep flag.
    DataClearsDeep,
    /// Shading a deep tuple doesn't list it.
    DeepNotListed,
    /// The rest of the next list is lost when its head is taken.
    RestLost,
    /// Mark scan leaves the last word of a tuple out.
    LastWordNotScanned,
    /// Zeroing starts one word late.
    ZeroLate,
    /// Sweep read always skips the clearing of the old word.
    NeverCleared,
    /// A tuple made outside Rest doesn't count in live.
    NewNotLive,
    /// A tuple made outside Rest isn't marked.
    NewNotMarked,
    /// A hold fails at the end of the first cycle, even one begun before it.
    HoldFailsEarly,
    /// A hold that doesn't fit is never answered.
    HoldNeverFails,
    /// A freed handle isn't put in the free list.
    HandleLost,
    /// A moved tuple keeps its old address.
    AddressKept,
    /// LOAD past the end is refused, but clears the register.
    RefusalWrites,
    /// A run counts one step too many when it stops.
    RunCountsMore,
}

impl Fault {
    /// Every fault, the five slips first.
    pub const ALL: [Fault; 27] = [
        Fault::LastStaysMarked,
        Fault::MarkedInRest,
        Fault::RootsOnlyAtStart,
        Fault::CountedPerRegister,
        Fault::EmptyHeapSwept,
        Fault::LoadSkipsCopy,
        Fault::LoadSkipsMoved,
        Fault::StoreSkipsCopy,
        Fault::TagSkipsMove,
        Fault::StoreNoShade,
        Fault::StoreNoShadeInAdd,
        Fault::StoreShadesInRest,
        Fault::StoreNotDeep,
        Fault::DataClearsDeep,
        Fault::DeepNotListed,
        Fault::RestLost,
        Fault::LastWordNotScanned,
        Fault::ZeroLate,
        Fault::NeverCleared,
        Fault::NewNotLive,
        Fault::NewNotMarked,
        Fault::HoldFailsEarly,
        Fault::HoldNeverFails,
        Fault::HandleLost,
        Fault::AddressKept,
        Fault::RefusalWrites,
        Fault::RunCountsMore,
    ];
}

/// Faults that can be switched on in the second reader, writer and player of
/// records, one at a time.
#[derive(Clone, Copy, PartialEq, Eq, Debug, Default)]
pub enum RecordFault {
    #[default]
    None,

    // The reader.
    /// A long form is taken.
    LongFormTaken,
    /// A fifth byte up to 7F is taken, and its upper bits are lost.
    FifthByteWraps,
    /// A fifth byte above 7F waits for a sixth, and is cut without one.
    FifthByteWaits,
    /// A field that is too large already is refused before its last byte.
    LargeBeforeCut,
    /// Kind, edition and limits are looked at before the form.
    FormLast,
    /// A 16-bit field loses its upper bits.
    HalfWraps,
    /// The first field of a request, a register, may be up to 7 only.
    RegistersToSeven,
    /// M and H may be up to 8,192 only.
    OpeningInRange,
    /// SETD's value and the number of steps are 16-bit fields.
    WordsAreHalves,
    /// Any edition is taken.
    AnyEdition,
    /// Kind 12 is taken, with no field.
    TwelveTaken,
    /// Any count is taken.
    AnyCount,
    /// The count takes in the end itself.
    EndCounted,
    /// A wrong count is passed over when bytes follow, which are then refused.
    RestBeforeCount,
    /// Bytes after the end are passed over.
    RestPassed,
    /// A string that ends between two records reads well.
    EndNotWanted,
    /// What was read of a record cut short is given too.
    PartGiven,
    /// The end is given too, like a record.
    EndGiven,

    // The writer.
    /// Where the output is full before a fault is met, that counts.
    RoomFirst,
    /// Where the list ends inside a record, that counts before all else.
    InsideFirst,
    /// Kind 0 is taken like any other.
    EndTaken,
    /// An output that is exactly long enough is too short.
    RoomForOneMore,
    /// An output that is too short gets the bytes that fit.
    FilledUp,
    /// Numbers of 7, 14, 21 and 28 bits get a group too many.
    GroupTooMany,

    // The player.
    /// Records are played after a 10 too.
    PlaysAfterTen,
    /// Nothing is read after a 10.
    TenEndsAll,
    /// Steps stop at the one that ends a cycle.
    StepsStop,
    /// Nothing is played of a record that is refused somewhere.
    AllOrNothing,
    /// The opening waits for the first record.
    OpeningLate,
    /// The end prints a 0.
    EndPrinted,
}

impl RecordFault {
    pub const READER: [RecordFault; 18] = [
        RecordFault::LongFormTaken,
        RecordFault::FifthByteWraps,
        RecordFault::FifthByteWaits,
        RecordFault::LargeBeforeCut,
        RecordFault::FormLast,
        RecordFault::HalfWraps,
        RecordFault::RegistersToSeven,
        RecordFault::OpeningInRange,
        RecordFault::WordsAreHalves,
        RecordFault::AnyEdition,
        RecordFault::TwelveTaken,
        RecordFault::AnyCount,
        RecordFault::EndCounted,
        RecordFault::RestBeforeCount,
        RecordFault::RestPassed,
        RecordFault::EndNotWanted,
        RecordFault::PartGiven,
        RecordFault::EndGiven,
    ];

    pub const WRITER: [RecordFault; 6] = [
        RecordFault::RoomFirst,
        RecordFault::InsideFirst,
        RecordFault::EndTaken,
        RecordFault::RoomForOneMore,
        RecordFault::FilledUp,
        RecordFault::GroupTooMany,
    ];

    pub const PLAYER: [RecordFault; 6] = [
        RecordFault::PlaysAfterTen,
        RecordFault::TenEndsAll,
        RecordFault::StepsStop,
        RecordFault::AllOrNothing,
        RecordFault::OpeningLate,
        RecordFault::EndPrinted,
    ];
}

//! Deliberately wrong versions of the engine, one rule each.
//!
//! The engine asks a [`Telling`] at the places where builders slip. The right
//! engine runs with [`Faithful`], which answers `false` as a constant, so all
//! of it is compiled away; a wrong one runs with [`Slipped`].

macro_rules! slips {
    ($($name:ident: $rule:literal,)*) => {
        #[derive(Clone, Copy, PartialEq, Eq, Debug)]
        pub enum Slip { $($name,)* }

        /// Every slip with its name and what it gets wrong.
        pub const ALL: &[(Slip, &str, &str)] =
            &[$((Slip::$name, stringify!($name), $rule),)*];
    };
}

slips! {
    // The file.
    OffsetNotTested: "offsets of the contents are not compared",
    EndNotTested: "a file longer than its last body is accepted",
    CountLowByteOnly: "only the low byte of a count is read",
    StationCountTight: "64 stations are refused",
    RightCountTight: "256 rights are refused",
    LastAtFault: "the last at fault is named, not the first",
    EarlierNeighbourAtFault: "of two stations out of order the earlier is at fault",
    EqualStationNumbers: "equal station numbers are accepted",
    StationZerosNotTested: "a station's zero bytes are not tested",
    OrderNineAccepted: "order 9 is accepted",
    BelowSkipsBadOrders: "a row with an order out of range is not found as row below",
    FindsNoneAccepted: "a row without a row below ends its path instead of being refused",
    LastOrderNotTested: "the last row's order may be other than 1",
    ReservoirZerosNotTested: "a reservoir's zero bytes are not tested",
    CapacityZeroAccepted: "capacity 0 is accepted",
    StartBelowCapacity: "starting storage equal to capacity is refused",
    TableFromAnywhere: "the first table storage need not be 0",
    TableMayStand: "equal table storages are accepted",
    TableWithinCapacity: "table storages above capacity are refused",
    AreasMustRise: "falling areas are refused",
    AreaLimitTight: "area 1,000,000 is refused",
    DepthLimitNotTested: "depths above 1000 are accepted",
    PatternSumModulo: "a pattern's percents are summed in one byte",
    PatternSumNotTested: "a pattern may sum to more than 100",
    PatternBelow100Refused: "a pattern that sums to less than 100 is refused",
    PatternOfZerosRefused: "a pattern of zeros is refused",
    UndatedFirst: "undated rights come first",
    EqualRightsAccepted: "equal date and permit are accepted",
    PermitsUnique: "permits must rise over all rights",
    DateAsCalendar: "dates are judged as a calendar",
    DateAboveRange: "any date up to 99999999 is accepted",
    NoPointsAnyEfficiency: "a right without points may have an efficiency below 100",
    NoPointsAnyPattern: "a right without points may name a pattern",
    UnusedPairsNotTested: "unused return pairs need not be zero",
    ReturnRowAnywhere: "a return row may lie before the right's row",
    ReturnRowOnPath: "a return row must lie on the right's path",
    ReturnPercentZero: "a return point may have 0 percent",
    ReturnSumModulo: "return percents are summed in one byte",
    EfficiencyAbove100: "efficiency above 100 is accepted",
    MonthBitsNotTested: "bits 12-15 of the months word are not tested",
    LimitForAll: "a yearly limit is accepted for every kind",
    AmountLimitFirstOnly: "only the first amount is compared with its limit",
    StorageRowNotCompared: "a storage right need not lie at its reservoir",
    ProjectOffPath: "a project right need not lie on its reservoir's path",
    ProjectBelowLake: "a project right at its reservoir's own row is refused",
    InstreamReservoirNotTested: "an instream right may name a reservoir",
    // The call.
    ReportExact: "a report longer than needed is refused",
    ReportWithoutDeepLoss: "a report without a place for the deep loss is accepted",
    BoardAtLeast: "a board longer than 1226 is accepted",
    RunoffAtLeast: "a runoff list longer than the stations is accepted",
    RunoffLimitTight: "runoff of exactly 1,000,000,000 is refused",
    RunoffLastAtFault: "the last row over the runoff limit is named",
    RunoffBeforeBoard: "runoff over its limit is looked at before the board",
    BoardAnyMonth: "m = 12 is possible",
    BoardStorageAny: "storage above capacity is possible",
    BoardMarksAny: "marks may name reservoirs that do not exist",
    BoardTakenAny: "taken above the yearly limit is possible",
    BoardDueOneLess: "due at k is at most (11 - k) x 256,000,000,000",
    BoardDueFlat: "due at k is at most 11 x 256,000,000,000 for every k",
    BoardEmptyPlacesAny: "places without reservoir, right or row need not be 0",
    BoardShortAny: "bits above that of September are possible",
    BoardShortBit12: "bit 12 of a word is possible",
    BoardShortLowHalfOnly: "only the low half of a word is looked at",
    BoardShortWithoutSeptember: "September's bit is not possible",
    BoardShortRunMonthsOnly: "bits of months that are still to be run are not possible",
    BoardShortOfNoRight: "words of rights that do not exist are possible",
    RefusedStockTold: "a refused stock still tells the sum of storages",
    StockFirstDueOnly: "stock sums only the dues of the next month",
    StockSumsShortWords: "stock counts the words among the dues",
    FreshAddsOntoBoard: "fresh leaves the dues that stand on the board",
    FreshKeepsShortWords: "fresh leaves the words that stand on the board",
    FreshBoardOf970: "fresh accepts a board of 970",
    ReportTailCleared: "places beyond the report are set to 0",
    // Steps 1 and 2.
    OctoberKeepsMarks: "October does not clear the marks",
    OctoberKeepsTaken: "October does not clear taken",
    OctoberKeepsWords: "October does not clear the words of short months",
    OctoberClearsWordsLast: "October clears the words after its rights are served",
    SeptemberClearsWords: "September clears the words when it ends",
    RefusedOctoberClearsWords: "a refused October clears the words",
    PathByNextRow: "the path goes by the next row, not by order",
    DuesNotUsed: "returns due at k = 1 are left out of the flow",
    DuesNotMoved: "the dues do not move one month nearer",
    DueElevenStays: "k = 11 keeps its content when the dues move",
    AvailableWithoutReturns: "available flow starts without the returns due",
    // Step 3.
    MonthBitReversed: "bit 11 - m is looked at for month m",
    MonthsWordZeroMeansAll: "a months word of 0 means every month",
    LimitLeftIgnored: "a storage right's demand has no regard to the limit left",
    CapacityAtMonthsBeginning: "capacity left is that of the month's beginning",
    MarkIgnored: "a filled reservoir is stored into again",
    MarkByZeroGrant: "a grant of 0 marks a full reservoir",
    MarkNextMonth: "a mark counts only from the next month",
    TakenNotKept: "taken is not raised",
    CalledBeforeShort: "a right is called by a senior that is not short",
    CalledIgnored: "no right is ever called",
    CalledByOwnRowNot: "a short right at the same row does not call",
    CalledByUpstream: "a short right upstream calls",
    InstreamDoesNotCall: "a short instream right does not call",
    StorageDoesNotCall: "a short storage right does not call",
    InstreamCalled: "an instream right can be called",
    InstreamLowersPath: "an instream right lowers available flow on its whole path",
    InstreamLowersFlow: "an instream right lowers flow too",
    InstreamLooksDownPath: "an instream right is held by the lowest available flow on its path",
    OwnRowOnly: "only available flow at the right's own row is looked at",
    FlowInsteadOfAvailable: "the river part is measured against flow, not available flow",
    CalledProjectWithoutStorage: "a called project right gets no water from storage",
    StorageFirst: "a project right takes storage first, then the river",
    DrawAboveStorage: "a project right draws more than is stored",
    ReleaseRaisesAvailable: "released water raises available flow",
    ReleaseSkipsLakeRow: "a release leaves out the reservoir's row",
    ReleaseReachesRight: "a release raises flow at the right's row too",
    ShortByRiverOnly: "a right is short if its river part is below its demand",
    StorageShortByAmount: "a storage right is short against its full amount",
    ShortsCountCalled: "the answer counts rights called, not short",
    ShortBitOnlySet: "a month's bit is set and never cleared",
    OtherMonthsForgotten: "a month clears the bits of the others",
    ShortBitOfNextRight: "a right's bit goes to the next right's word",
    ShortBitOfNextMonth: "month m has bit m + 1",
    ShortBitReversed: "month m has bit 11 - m",
    ShortOutOfSeason: "a right out of season is kept as short",
    ShortByNoGrant: "a right is kept as short where it is granted nothing",
    ShortProjectNotKept: "a short project right is not kept as short",
    DemandByNumberOfRights: "every demand is halved in a basin of more than 8 rights",
    LaterRightsCallFirst: "a later right that was short in the month before calls an elder one",
    StorageKeptForLater: "a project right leaves in the reservoir what later ones ask of it",
    // Returns.
    SharesFlooredAlone: "each share is floored alone",
    SharesRoundedUp: "running shares are rounded up, not down",
    MonthsBeforePoints: "returns are split over months, then over points",
    ConsumptionRoundsUp: "consumption is rounded up",
    EfficiencyReturns: "the efficient part returns, the rest is consumed",
    RiverPartReturnsOnly: "only the river part returns water",
    FirstPointTakesAll: "the first return point gets everything",
    ReturnFlowOnly: "a return of this month raises flow only",
    ReturnTwice: "a return of this month is added to available flow twice",
    ReturnAtRowOnly: "a return raises its own row only",
    ReturnUsedBySenior: "a return is used by a senior already served",
    DueOneMonthLate: "month k adds to due at k + 1",
    DeepLossFloored: "the deep loss is floored by itself",
    DeepLossReturns: "what a pattern leaves returns after eleven months",
    DeepLossOfWholeReturn: "the deep loss is that of the whole return, not of each point's part",
    DeepLossOfFirstPoint: "only the first point's part has a deep loss",
    DeepLossOfLastRight: "the deep loss is that of the last diversion alone",
    DeepLossWithoutPoints: "what an instream or storage right is granted counts as deep loss",
    // Reasons.
    CalledBeforeStorageLow: "a called short project right gets reason 1",
    ProjectNamesOwnRow: "reason 3 names the right's station",
    RiverLowNamesLastRow: "reason 2 names the last row of the path",
    RiverLowNamesLastOfLow: "of several lowest rows reason 2 names the last",
    RiverLowNamesOwnRow: "reason 2 names the right's own row",
    CalledNamesLastCaller: "of several short rows reason 1 names the last",
    CalledByOwnShortage: "reason 1 counts the right's own shortage, and names its own row",
    // Steps 4 and 5, the report.
    EvaporationNotCapped: "evaporation may be more than is stored",
    EvaporationFromOldStorage: "evaporation is reckoned from the storage before step 3",
    AreaInSteps: "area is the lower pair's up to the next pair",
    AreaFlooredFromAbove: "a falling area is floored from the upper pair",
    AreaCarriedOn: "the last line is carried on above the last pair",
    DepthOfNextMonth: "the depth of the next month is used",
    MonthTwelve: "m goes on from 11 to 12",
    FlowsThenAvailable: "the report holds all flows, then all available flows",
    DeepLossFlowsOut: "what goes deep flows out at the last row",
    DeepLossBeforeEvaporation: "the deep loss stands before the evaporations",
    // The short months of a right.
    ShortMonthsFromNovember: "bits are counted from bit 1 on",
    ShortMonthsUpToBoardsMonth: "only bits below the board's month are counted",
    ShortMonthsOfAllRights: "the bits of all rights are counted",
    ShortMonthsOfTaken: "the bits of what was taken are counted",
    ShortMonthsCountedFromOne: "rights are counted from 1",
    ShortMonthsAsWord: "the word is answered, not the number of its bits",
    RightsLowByteOnly: "only the low byte of a right's place is looked at",
    RightsLowHalfOnly: "only the low half of a right's place is looked at",
    MissingRightRefused: "a right that the basin lacks is refused with 5",
    MissingRightAsFirst: "a right that the basin lacks is answered as right 0",
    MissingRightBeforeBoard: "a right that the basin lacks is answered before 6 and 7",
    ShortMonthsOfLongerBoard: "the short months on a board longer than 1226 are told",
    ShortMonthsOfAnyBoard: "the short months on an impossible board are told, as if accepted",
    RefusedShortMonthsTold: "a refused call still tells the short months",
    // The book.
    YearCountTight: "a book of 20 years is refused",
    YearCountLowByteOnly: "only the low byte of the number of years is read",
    BookOfNoYearRefused: "a book of no year is refused",
    LastYearTight: "year 2200 is refused",
    EqualYearsAccepted: "equal years are accepted",
    BookOffsetNotTested: "offsets of a book are not compared",
    BookEndNotTested: "bytes after the last body are accepted",
    YearBeforeBook: "an unlisted year is told before a book that breaks its layout",
    BodyOfNextYear: "a year is found one place off",
    BodyOneByteLate: "a body begins one byte late",
    // The run of a year.
    ListBeforeYear: "a list too short is told before an unlisted year",
    ListForCallsLeft: "the list has to hold only the reports of the calls left",
    BoardBeforeList: "an impossible board is told before a list too short",
    MonthAboveElevenRunsNothing: "a board whose m is above 11 is accepted, no call is made",
    RunFromOctober: "a run begins with October's sheet, whatever the board's month",
    SheetsBeforeLookedAt: "sheets before the board's month are looked at too",
    RefusalNamesCall: "8 names the call, not the row",
    RefusedRunBegun: "a refused run leaves the months before the refusal on board and list",
    RunStopsAtRefusal: "a run ends before a sheet over its limit and is accepted",
    RunKeepsNoShortMonths: "a year's run leaves the words as they were",
    ReportsOnEachOther: "every report stands at the beginning of the list",
    ReportsByMonth: "a report stands at the place of its month, not of its call",
    ReportsTailCleared: "places beyond the reports are set to 0",
    TwelveAnswered: "the answer tells twelve calls always",
    // The store.
    LaterOfTwoNames: "of a name that stands twice the later is meant",
    FifthName: "a fifth name is looked for where the first board begins",
    ThreeEntries: "the last entry's name is never found",
    LastByteOfNameIgnored: "the last byte of a name is not compared",
    NameUpToZeroByte: "names are compared up to their first zero byte",
    NamesWithoutCase: "names are compared without regard to upper and lower case",
    EmptyEntryBeforeName: "an empty entry before that of its name is saved in",
    LatestEmptyEntry: "a new name takes the latest empty entry",
    EmptyByFirstByte: "an entry whose name begins with a zero byte is empty",
    SavedInFirstEntry: "every board is saved in the first entry",
    NameThereRefused: "a name that is there is not saved again",
    SaveJudgesMonth: "a board whose month is above 11 is not saved",
    ZeroNameSaved: "a name of zeros is saved under",
    ZeroNameFound: "a name of zeros finds an empty entry, to recall or drop it",
    FullBeforeZeroName: "a full store is told before a name of zeros",
    ZeroNameBeforeLengths: "a name of zeros is told before a wrong length",
    LongerStoreAccepted: "a store longer than 39,264 is accepted",
    LongerBoardStored: "a board longer than 1226 is saved and recalled",
    ShorterNamePadded: "a name shorter than 8 is accepted, with zeros behind it",
    LongerNameCut: "of a name longer than 8 the first 8 bytes are taken",
    FullStoreTaken: "a new name takes the last entry of a full store",
    FullStoreRenamed: "a new name that is refused stands in the last entry",
    MissingToldAsFull: "a name that is not there is told with 12",
    EntryAnswered: "the answer tells the entry",
    RefusedRecallClears: "a refused recall clears the board",
    BigEndian: "the greatest byte of a number stands first",
    LowHalfRecalled: "only the low half of a number is recalled",
    LastNumberNotSaved: "the last number of a board is not saved",
    WordsNotSaved: "the words of short months are not saved",
    NameBeforeItsBoard: "each name stands before its own board",
    DropClearsBoard: "a drop clears the board",
    DropOfAll: "a drop drops every entry of the name",
    DropMovesUp: "a drop moves the later entries up",
    DropOfMissingAccepted: "the drop of a name that is not there is accepted",
}

impl Slip {
    /// Whether it is one of the store, whose calls share nothing with the others.
    pub fn of_store(self) -> bool {
        self as usize >= Slip::LaterOfTwoNames as usize
    }
}

/// How the rules are told: rightly, or with one slip.
pub trait Telling {
    fn slips(&self, slip: Slip) -> bool;
}

/// The rules as they are.
pub struct Faithful;

impl Telling for Faithful {
    #[inline(always)]
    fn slips(&self, _: Slip) -> bool {
        false
    }
}

/// The rules with one of them wrong.
pub struct Slipped(pub Slip);

impl Telling for Slipped {
    fn slips(&self, slip: Slip) -> bool {
        self.0 == slip
    }
}

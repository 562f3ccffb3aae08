//! The wrong changes that the checks must find.

/// Where a twist can be seen.
#[derive(Clone, Copy, PartialEq, Eq, Debug)]
pub enum Shows {
    /// In a step on lent tables.
    InSteps,
    /// In the answer to a line.
    InLines,
    /// In the answer to about a million lines.
    InFull,
    /// In a batch of steps.
    InBatches,
}

macro_rules! twists {
    ($($name:ident, $shows:ident, $wrong:literal;)*) => {
        /// One wrong change of the registry, or none.
        #[derive(Clone, Copy, PartialEq, Eq, Debug)]
        pub enum Twist {
            None,
            $($name,)*
        }

        impl Twist {
            /// Every twist, where it shows, and what is wrong with it.
            pub const ALL: &'static [(Twist, Shows, &'static str)] =
                &[$((Twist::$name, Shows::$shows, $wrong),)*];
        }
    };
}

twists! {
    // The paper's own list of what is easy to write, and wrong.
    LooksTwoOwnersFar, InSteps, "get looks at two owners and misses a ring of three";
    AlarmLeavesMark, InSteps, "get marks the wait, alarms and leaves the mark";
    EndBlamesHanded, InSteps, "end blames a promise that was handed to a child";
    AsyncMovesThenRefuses, InSteps, "async moves the first entries, then refuses a later one";
    SetWakesOne, InSteps, "set wakes one waiter and not the others";
    EndWakesOneEach, InSteps, "end wakes one waiter of each promise and not the others";

    // The paper's list of what a contract must not allow.
    RefusesAll, InSteps, "every step is refused";
    AlwaysWaitsOne, InSteps, "every answer is waits 1";
    WritesNoTable, InSteps, "the answer is right but no table is written";
    CarriesOutFirstOnly, InSteps, "the first step is carried out, later ones are only answered";
    CountsOneOwner, InSteps, "1 is told as every count of owners";

    // Refusals out of order or mixed up.
    DamageBeforeReport, InSteps, "2 comes before 1 when the report is too short";
    ActorBeforeDamage, InSteps, "3 and 4 come before 2";
    ListBeforeChild, InSteps, "the list is tried before the child";
    OwnerBeforeMade, InSteps, "10 comes before 8";
    OwnerBeforeClosed, InSteps, "10 comes before 9 and 17";
    RepeatIsNotOwner, InSteps, "a repeated entry gives 10";
    SwapsIdleAndWaiting, InSteps, "4 and 5 are swapped";
    WaitingMayAct, InSteps, "5 is never given";
    AnyoneMaySet, InSteps, "10 is never given to an owned promise";
    RepeatsPass, InSteps, "13 is never given";
    RepeatsOnlyBeside, InSteps, "13 is given for neighbours alone";
    RepeatsNotBeside, InSteps, "13 is not given for neighbours";
    RepeatsOfFirstOnly, InSteps, "13 is given for the first entry named again alone";
    RepeatsNotOfFirst, InSteps, "13 is not given for the first entry named again";
    RepeatsInSixteenPlaces, InSteps, "13 looks back at 16 entries";
    RepeatMarksInSevenBits, InSteps, "promises p and p + 128 are taken for one in a list";
    RepeatTellsFirstPlace, InSteps, "13 tells the place that the promise was first named at";
    UsedUpIsThirteen, InSteps, "an entry past as many as there are promises gives 13, whatever it is";
    EndedStartsAgain, InSteps, "an ended task may be a child";
    ClosedIsMadeAgain, InSteps, "a closed promise may be made again";
    TaskZeroMayNotEnd, InSteps, "task 0 may not end";

    // Refusal 17: another refusal in its place, or 17 for some alone.
    BlamedIsNotClosed, InSteps, "a blamed promise gives 10";
    BlamedIsSet, InSteps, "a blamed promise gives 9";
    BlamedIsSetInSet, InSteps, "17 is given in async alone, set gives 9";
    BlamedIsSetInAsync, InSteps, "17 is given in set alone, async gives 9";
    BlamedIsUnmade, InSteps, "a blamed promise gives 8";
    BlamedIsRepeat, InSteps, "a blamed entry gives 13";
    SwapsSetAndBlamed, InSteps, "9 and 17 are swapped";
    SetIsBlamed, InSteps, "a set promise gives 17";
    ForeignIsBlamed, InSteps, "another task's promise gives 17 with its owner";
    NineTellsActor, InSteps, "9 tells the acting task";
    NineTellsBlamed, InSteps, "a blamed promise gives 9 with the blamed task";
    BlamedZeroIsSet, InSteps, "a promise blamed on task 0 gives 9";
    BlamedLastIsSet, InSteps, "a promise blamed on task T-1 gives 9";
    BlamedFirstOnly, InSteps, "17 is given for the first entry alone, later ones give 9";
    BlamedLaterOnly, InSteps, "17 is given for later entries alone, the first gives 9";
    BlamedToLowerOnly, InSteps, "17 is given to tasks below the blamed one alone, others get 10";
    BlamedToHigherOnly, InSteps, "17 is given to tasks above the blamed one alone, others get 10";
    BlamedToZeroOnly, InSteps, "17 is given to task 0 alone, others get 10";
    BlamedToOwnersOnly, InSteps, "17 is given to tasks that own a promise alone, others get 10";
    BlamedToOthersOnly, InSteps, "17 is given to tasks that own no promise alone, others get 10";

    // Refusal 17 out of order, or in other steps.
    BlamedBeforeThree, InSteps, "17 comes before 3";
    BlamedBeforeFour, InSteps, "17 comes before 4";
    BlamedBeforeFive, InSteps, "17 comes before 5";
    BlamedBeforeChild, InSteps, "17 comes before 11 and 12";
    BlamedBeforeTwelve, InSteps, "17 comes before 12";
    BlamedBeforeList, InSteps, "17 comes before what is wrong with earlier entries";
    BlamedBeforeSix, InSteps, "17 comes before the 6 of an earlier entry";
    BlamedBeforeEight, InSteps, "17 comes before the 8 of an earlier entry";
    BlamedBeforeNine, InSteps, "17 comes before the 9 of an earlier entry";
    BlamedBeforeTen, InSteps, "17 comes before the 10 of an earlier entry";
    BlamedBeforeThirteen, InSteps, "17 comes before the 13 of an earlier entry";
    BlamedAfterList, InSteps, "17 comes after what is wrong with later entries";
    BlamedAfterNine, InSteps, "17 comes after the 9 of a later entry";
    BlamedAfterThirteen, InSteps, "17 comes after the 13 of a later entry";
    GetOfBlamedRefused, InSteps, "get of a blamed promise gives 17";
    NewOfBlamedRefused, InSteps, "new of a blamed promise gives 17";

    // The task and the place of a 17.
    BlamedUntold, InSteps, "17 comes without its task";
    BlamedUntoldInSet, InSteps, "17 comes without its task in set";
    BlamedUntoldInAsync, InSteps, "17 comes without its task in async";
    BlamedTellsActor, InSteps, "17 tells the acting task";
    BlamedTellsPromise, InSteps, "17 tells the promise";
    BlamedTellsChild, InSteps, "17 tells the child";
    BlamedTellsWord, InSteps, "17 tells the promise's word";
    BlamedTellsAsOwner, InSteps, "17 tells the word less 16";
    BlamedTellsNext, InSteps, "17 tells the blamed task plus 1";
    BlamedTellsBefore, InSteps, "17 tells the blamed task less 1";
    BlamedInFiveBits, InSteps, "17 tells its task in 5 bits";
    BlamedTellsLeast, InSteps, "17 tells the least task that any promise is blamed on";
    BlamedTellsLargest, InSteps, "17 tells the largest task that any promise is blamed on";
    BlamedOfFirstEntry, InSteps, "17 tells the task of the list's first entry";
    BlamedOfLastEntry, InSteps, "17 tells the task of the list's last blamed entry";
    BlamedAtLastEntry, InSteps, "17 tells place and task of the list's last blamed entry";
    BlamedBeforePlace, InSteps, "17 tells its task before the place";
    BlamedPlaceUntold, InSteps, "17 comes without its place";
    BlamedPlaceZero, InSteps, "17 tells place 0";
    BlamedPlaceFromOne, InSteps, "the places of 17 are counted from 1";
    BlamedPlaceFromEnd, InSteps, "the places of 17 are counted from the list's end";
    BlamedPlaceIsEntry, InSteps, "17 tells the entry as its place";
    BlamedPlaceInSevenBits, InSteps, "17 tells its place in 7 bits";
    BlamedSetTellsPlace, InSteps, "17 tells a place in set too";

    // What is done with a blamed promise.
    BlamedMayBeSet, InSteps, "a blamed promise may be set";
    BlamedMayBeListed, InSteps, "a blamed promise may be listed";
    BlamedIsPassedOver, InSteps, "blamed entries are passed over";
    BlamedIsSetAnyway, InSteps, "17 is given and the promise is set";
    BlamedIsTaken, InSteps, "17 is given and the promise passes to the acting task";
    BlamedIsForgotten, InSteps, "17 is given and the promise is as if never made";
    BlamedStartsChild, InSteps, "17 is given and the child is started";
    BlamedMovesFirst, InSteps, "17 is given and the entries before it are moved";
    BlamedReportsInSet, InSteps, "17 writes its task to the report in set";
    BlamedReportsInAsync, InSteps, "17 writes its task to the report in async";
    BlamedReturnsNine, InSteps, "17 is written and 9 returned";

    // Limits off by one.
    Takes65Tasks, InSteps, "T may be 65";
    Refuses64Tasks, InSteps, "T may not be 64";
    TakesNoTasks, InSteps, "T may be 0";
    Takes257Promises, InSteps, "P may be 257";
    Refuses256Promises, InSteps, "P may not be 256";
    RefusesNoPromises, InSteps, "P may not be 0";
    TakesReportOneShort, InSteps, "the report may be one word short";
    RefusesExactReport, InSteps, "the report may not be just long enough";
    ActorAtBound, InSteps, "acting task T gives 4";
    ChildAtBound, InSteps, "child T gives 12";
    PromiseAtBound, InSteps, "promise P gives 8";
    NewAtBound, InSteps, "new of promise P gives 7";
    OwnerAtBound, InSteps, "promise word 16+T has a meaning";
    BlamedAtBound, InSteps, "promise word 80+T has a meaning";
    BlamedBase79, InSteps, "blamed on t is 79+t";
    Word3IsEnded, InSteps, "task word 3 has a meaning";
    PromiseWord2IsSet, InSteps, "promise word 2 has a meaning";
    LongestChainIsRing, InSteps, "a chain over all T tasks is damage";
    Looks32OwnersFar, InSteps, "get looks at 32 owners at most";
    Reads256Entries, InSteps, "async reads 256 entries at most";
    ListLengthRollsOver, InSteps, "a list's length is taken in 16 bits";
    PlacesFromOne, InSteps, "places in a list are counted from 1";
    WaitsCountsActor, InSteps, "waits counts the acting task too";
    CycleLeavesOutActor, InSteps, "cycle leaves the acting task out";

    // Damage that is overlooked, or seen where there is none.
    RingsAreSound, InSteps, "rings are not looked for";
    RingOfOneIsSound, InSteps, "a task that waits on its own promise is sound";
    DeadOwnersAreSound, InSteps, "an owner may be dead";
    EndedOwnersAreSound, InSteps, "an owner may be ended";
    AwaitedNeedNoOwner, InSteps, "an awaited promise may be unowned";
    LiveBlamedIsSound, InSteps, "a blamed task may be live";
    UnusedBlamedIsSound, InSteps, "a blamed task may be unused";
    NoLiveTaskIsDamaged, InSteps, "tables without a live task are damaged";
    LongTablesAreSound, InSteps, "the soundness test alone lets lengths out of bounds pass";
    LastPromiseUnseen, InSteps, "the last promise's word is not looked at";
    WordsByLowByte, InSteps, "promise words are looked up by their low byte";
    AwaitedAtBound, InSteps, "task word 16+P has a meaning";

    // Damage overlooked, or seen where there is none, by walks that leave marks.
    OwnMarkIsGood, InSteps, "a walk that comes to its own mark ends well";
    RingAtStartOnly, InSteps, "a walk from the last task on finds a ring only where it comes back to its start";
    RingAtStartOnlyRising, InSteps, "a walk from task 0 on finds a ring only where it comes back to its start";
    LostBehindStartIsGood, InSteps, "a way that is lost behind its start ends well";
    WalksFromTaskOne, InSteps, "chains are followed from task 1 on";
    WalksToLastButOne, InSteps, "the last task's chain is not followed";
    MarksInFiveBits, InSteps, "tasks t and t + 32 share a mark";
    HigherTaskEndsWalk, InSteps, "a walk that comes to a higher task ends well";
    WalksWhereNobodyWaits, InSteps, "chains are followed only where nobody waits";

    // Wrong effects, answers and reports.
    OwnPromiseWaits, InSteps, "a task that gets its own promise waits";
    WaitsUnmarked, InSteps, "waits is answered, the task stays ready";
    AsyncMovesNothing, InSteps, "async starts the child and moves nothing";
    EndBlamesAwaitedOnly, InSteps, "end blames awaited promises alone";
    EndSetsOmitted, InSteps, "end sets what it should blame";
    BlamedNamesActor, InSteps, "blamed names the acting task";
    EndSwapsCounts, InSteps, "end swaps its two counts";
    CycleReportRotated, InSteps, "the pairs of a cycle start one later";
    CycleReportBackwards, InSteps, "the pairs of a cycle run the other way";
    SetReportsFalling, InSteps, "set reports tasks falling";
    EndReportsTasksFirst, InSteps, "end reports tasks before promises";
    EndReportsByPromise, InSteps, "end reports tasks in their promises' order";
    ClearsReportTail, InSteps, "the report's other words are cleared";
    ValueWritesReport, InSteps, "value writes to the report";
    ShortAnswerSteps, InSteps, "an answer of three words lets the step happen";

    // Lines.
    LeadingZerosTaken, InLines, "leading zeros are taken";
    Takes65536, InLines, "65536 is taken";
    Refuses65535, InLines, "65535 is not taken";
    NumbersRollOver, InLines, "numbers roll over at 65536";
    PlusTaken, InLines, "a plus before a number is taken";
    EmptyNumberIsZero, InLines, "an empty number is 0";
    TrailingTabTaken, InLines, "a trailing tab is taken";
    CarriageReturnTaken, InLines, "a carriage return before LF is taken";
    BlanksPartFields, InLines, "blanks part fields";
    CapitalsTaken, InLines, "capitals are taken";
    ExtraFieldTaken, InLines, "one field too many is taken";
    AsyncNeedsEntry, InLines, "async without entries has no form";
    Takes2049Bytes, InLines, "a line may have 2,049 bytes";
    Refuses2048Bytes, InLines, "a line may not have 2,048 bytes";
    LongLineInPieces, InLines, "a longer line is taken in pieces";
    PlaceBeforeForm, InLines, "15 comes before 14";
    BoundsBeforeSecondOpen, InLines, "1 comes before 15 in a second open";
    SecondOpenTaken, InLines, "a second open opens again";
    RefusedOpenOpens, InLines, "a refused open opens";
    PlaceUntold, InLines, "the place of a bad entry is left out";
    SessionForgotten, InLines, "the first line is carried out, later ones find no session";
    EmptyLineSkipped, InLines, "an empty line gets no answer";
    LastLineDropped, InLines, "a last line without LF is not read";
    EmptyLastAnswered, InLines, "nothing after the last LF is answered";

    // The line of a 17.
    LineNineTellsTask, InLines, "9 is told with a task";
    LineBlamedUntold, InLines, "17 is told without its task";
    LineBlamedZeroUntold, InLines, "17 is told without its task if that is 0";
    LineBlamedPlaceUntold, InLines, "17 is told without its place";
    LineBlamedPlaceZeroUntold, InLines, "17 is told without its place if that is 0";
    LineBlamedBeforePlace, InLines, "17 is told with its task before its place";
    LineBlamedSetTellsPlace, InLines, "17 is told with a place for set too";
    LineBlamedAllWords, InLines, "17 is told with its unused values";
    LineBlamedNamed, InLines, "17 is told with the word blamed before its task";
    LineBlamedOneDigit, InLines, "17 is told with the last digit of its task";
    LineBlamedTwoDigits, InLines, "17 is told with two digits of its task always";
    LineBlamedWord, InLines, "17 is told with the promise's word";
    LineBlamedBlank, InLines, "17 is told with a blank between place and task";
    LineBlamedEndsWithTab, InLines, "17 is told with a tab behind it";
    LineBlamedIsAnswer, InLines, "17 is told as get tells it";
    LineBlamedIsNine, InLines, "17 is told as 9";

    // The column of a line that went bad.
    ColumnUntold, InLines, "14 is told without a column";
    FifteenTellsColumn, InLines, "15 tells a column too";
    ColumnFromOne, InLines, "columns are counted from 1";
    ColumnOfField, InLines, "the column is where the bad field starts";
    ColumnOfLineEnd, InLines, "the column is where the line ends";
    ColumnAtTabStops, InLines, "a tab counts up to the next multiple of 8";
    ColumnRollsOver, InLines, "columns roll over at 256";
    ColumnFromList, InLines, "in a list the column is counted from the list's start";
    LongTellsBadByte, InLines, "a line too long tells a bad byte before 2,048";
    LongTellsLength, InLines, "a line too long tells its length";
    LongTellsLastByte, InLines, "a line too long tells 2,047";
    LongLastTellsBadByte, InLines, "a last line without LF that is too long tells a bad byte";
    LimitCounts, InLines, "what would get too long is no start of a line";
    LastByteUnseen, InLines, "the last byte of a line of 2,048 is not looked at";
    NumbersBeforeWord, InLines, "a bad number is told before a bad word";
    MissingBeforeBad, InLines, "a missing field is told before a bad byte";
    SurplusBeforeBad, InLines, "a surplus field is told before a bad byte";
    BadWordAtZero, InLines, "a bad word gives column 0";
    BadWordAtEnd, InLines, "a bad word gives the column of its end";
    EarlyEndAtLastByte, InLines, "an early end gives the last byte's column";
    ListTabIsSurplus, InLines, "an async that ends with the tab before its list gives that tab's column";
    SurplusTabLate, InLines, "a surplus tab gives the column after it";
    EmptyNumberAtTab, InLines, "an empty number gives the column of the tab before it";
    LeadingZeroEarly, InLines, "a leading zero gives the zero's own column";
    LeadingZeroLate, InLines, "a leading zero is found one byte late";
    TooLargeAtStart, InLines, "a number too large gives the column of its start";
    TooLargeAtEnd, InLines, "a number too large gives the column of its end";
    TooLargeEarly, InLines, "a number too large is found one byte early";
    TooLargeLate, InLines, "a number too large is found one byte late";

    // The millionth line.
    FullLate, InFull, "full comes a line late";
    FullEarly, InFull, "full comes a line early";
    FullNumbered, InFull, "full has a line number";
    FullWithoutLine, InFull, "full comes without a millionth line";

    // The call of a batch: its lengths, its kinds and its tables.
    CallTakesNoTasks, InBatches, "a batch may be lent no tasks";
    CallTakes65Tasks, InBatches, "a batch may be lent 65 tasks";
    CallRefuses64Tasks, InBatches, "a batch may not be lent 64 tasks";
    CallRefusesNoPromises, InBatches, "a batch may not be lent 0 promises";
    CallTakes257Promises, InBatches, "a batch may be lent 257 promises";
    CallRefuses256Promises, InBatches, "a batch may not be lent 256 promises";
    Takes257Records, InBatches, "a batch may have 257 records";
    RecordsInSixteenBits, InBatches, "records are counted in 16 bits";
    Refuses256Records, InBatches, "a batch may not have 256 records";
    RoomForOneRecord, InBatches, "the report needs room for one record only";
    RoomWithoutLast, InBatches, "the report needs no room for the last record";
    RoomCountsTasksOnce, InBatches, "the report needs P + T words per record";
    RoomOneWordMore, InBatches, "the report needs one word more";
    RoomOneWordLess, InBatches, "the report may be one word short for all records";
    RoomInSixteenBits, InBatches, "the report's room is counted in 16 bits";
    AnswersOneWordEach, InBatches, "the answers need one word per record";
    AnswersOneWordMore, InBatches, "the answers need one word more";
    AnswersOneWordLess, InBatches, "the answers may be one word short";
    RemainderIgnored, InBatches, "words after the last whole record are passed over";
    KindFivePasses, InBatches, "kind 5 is taken for end";
    KindInEightBits, InBatches, "kinds are taken in 8 bits";
    KindRefusesStep, InBatches, "an unknown kind gives 1 for its step alone";
    KindTestedLate, InBatches, "an unknown kind refuses the call once earlier steps are carried out";
    UnusedMustBeZero, InBatches, "start and length must be 0 but for async";
    CallDamageIsOne, InBatches, "damaged tables are 1 for the call";
    CallDamageFirst, InBatches, "2 comes before 1 for the call";
    CallDamagePasses, InBatches, "steps are carried out on damaged tables";
    DamageAnswersEach, InBatches, "damaged tables are 2 for each step and not for the call";
    NoRecordsNoBounds, InBatches, "nothing is measured if there are no records";
    NoRecordsNoDamage, InBatches, "soundness is not tested if there are no records";
    NoRecordsRefused, InBatches, "a batch without records is refused";
    RefusedCallAnswers, InBatches, "a refused call writes its number to the answers";
    DamagedCallAnswers, InBatches, "a call refused for damage answers every step";
    RefusedCallReports, InBatches, "a refused call writes to the report";

    // What the steps of a batch do, answer and report.
    StopsAtRefused, InBatches, "the batch stops at the first refused step";
    StopsAtPart, InBatches, "the batch stops at the first 16";
    StopsAtAlarm, InBatches, "the batch stops at the first cycle";
    FirstCarriedOut, InBatches, "the first step is carried out, later ones are only answered";
    TablesAsLent, InBatches, "each step finds the tables as lent";
    TablesKept, InBatches, "answers and words are right but no table is written";
    RefusedPutsBack, InBatches, "a refused step puts back the tables as lent";
    NextTwice, InBatches, "the step after a refused one is taken twice";
    LastLeftOut, InBatches, "the last step is left out";
    TakenBackwards, InBatches, "the steps are taken from the last to the first";
    ReportAtStride, InBatches, "each record's words stand P + 2T after the ones before";
    ReportFromStart, InBatches, "each step's words are written from the report's start";
    ReportInEightBits, InBatches, "places in the report are taken in 8 bits";
    GapAfterRefused, InBatches, "a refused step leaves a gap in the report";
    GapAfterPart, InBatches, "a 16 leaves a gap in the report";
    GapAfterSilent, InBatches, "an accepted step without report words leaves a gap";
    ReportTailCleared, InBatches, "report words past the last one given are cleared";
    ReportEndMarked, InBatches, "a word past the last one given is written to the report";
    ValuesUncleared, InBatches, "unused values of an answer stay as they were";
    ValuesUntold, InBatches, "answers have their numbers alone";
    AnswersAtIndex, InBatches, "record i's answer is at word i";
    AnswersInEightBits, InBatches, "places in the answers are taken in 8 bits";
    AnswersTailCleared, InBatches, "answers past the last are cleared";
    AnswersPastLast, InBatches, "one answer past the last is written";
    AnswersEndMarked, InBatches, "a word past the last answer is written";

    // Refusal 17 in a batch.
    BatchBlamedUntold, InBatches, "17 comes without its task in a batch";
    BatchBlamedUntoldInSet, InBatches, "17 comes without its task in a batch's set";
    BatchBlamedUntoldInAsync, InBatches, "17 comes without its task in a batch's async";
    BatchBlamedPlaceUntold, InBatches, "17 comes without its place in a batch";
    BatchBlamedPlaceZero, InBatches, "17 tells place 0 in a batch, in set too";
    BatchBlamedPlaceFromList, InBatches, "the places of 17 are counted from the start of a batch's list";
    BatchBlamedBeforePlace, InBatches, "17 tells its task before its place in a batch";
    BatchBlamedLastWord, InBatches, "17 tells its task in the answer's last word";
    BatchBlamedIsNine, InBatches, "a blamed promise gives 9 in a batch";
    BatchBlamedAsLent, InBatches, "a promise blamed within the call gives 9";
    BatchBlamedReturned, InBatches, "17 is returned by the call";
    BatchBlamedReports, InBatches, "17 writes its task to a batch's report";
    StopsAtBlamed, InBatches, "the batch stops at the first 17";
    GapAfterBlamed, InBatches, "a 17 leaves a gap in the report";
    PartAfterBlamed, InBatches, "16 comes after 17";

    // The parts of a batch's list.
    PartAfterThree, InBatches, "16 comes after 3";
    PartAfterFive, InBatches, "16 comes after 5";
    PartAfterChild, InBatches, "16 comes after 12";
    PartAfterEntries, InBatches, "16 comes after the entries that there are";
    PartIsThirteen, InBatches, "a part that passes the list's end gives 13";
    PartTellsStart, InBatches, "16 tells the part's start";
    PartRefusesCall, InBatches, "16 is given for the whole call";
    PartRefusesCallByOne, InBatches, "a part that passes the list's end is 1 for the call";
    PartForAllKinds, InBatches, "16 is given for every kind of step";
    PartByStart, InBatches, "16 looks at the start alone";
    PartByLength, InBatches, "16 looks at the length alone";
    PartOneEarly, InBatches, "a part may not end where the list does";
    PartOneLate, InBatches, "a part may pass the list's end by one";
    EmptyPartPasses, InBatches, "an empty part may start past the list's end";
    EmptyPartIsPassing, InBatches, "an empty part gives 16";
    PartSumRollsOver, InBatches, "start plus length rolls over at 65536";
    PartListRollsOver, InBatches, "the list's length is taken in 16 bits for 16";
    PartCutOff, InBatches, "a part is cut off where the list ends";
    PartTakenAnyway, InBatches, "16 is answered and the step is carried out";
    PartFromListStart, InBatches, "a part is taken from the list's start";
    PartToListEnd, InBatches, "a part runs to the list's end";
    PartLengthIsEnd, InBatches, "a part's length is taken for its end";
    PartSwapped, InBatches, "a part's start and length are swapped";
    PartPlacesFromList, InBatches, "places are counted from the list's start";
}

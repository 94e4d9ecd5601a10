//! Named planted mistakes, the named rules that a page can show, and the steps that a report names.

macro_rules! listed {
    ($(#[$note:meta])* $name:ident { $($case:ident $words:literal)* }) => {
        $(#[$note])*
        #[derive(Clone, Copy, Debug, PartialEq)]
        pub enum $name { $($case),* }

        impl $name {
            pub const ALL: &'static [$name] = &[$($name::$case),*];

            pub fn words(self) -> &'static str {
                match self { $($name::$case => $words),* }
            }
        }
    };
}

listed! {
    /// A plausible mistake that the reading makes on request. The first four are document 01's; those from
    /// `FirstNamedLower` on change neither widths nor page, but the report.
    Slip {
        ChargesOne "1 charged when a pass fixes a column without cells"
        DisabledCountsPadding "padding counted in the `Disabled` upper test"
        WrapsExact "a line of exactly the content width wrapped"
        NoTopJunction "top junction dropped when none is set"
        AverageHeld "average held through a pass"
        LowerLessPadding "padding taken off a lower bound before it meets the average"
        LowerWithoutPadding "first lower test without padding"
        LowerStrict "first lower test strict"
        UpperAnyLongest "upper bound fixed also where longest plus padding is below it"
        UpperLessPadding "upper bound compared with the average alone"
        LongestStrict "a longest equal to the average not fixed"
        TwoSaved "split trial fixed at 2 saved"
        FourSaved "split trial fixed at 4 saved only"
        TrialAtLeastOne "a longest part of 0 charged 1"
        OneLowerPass "lower bounds in one pass only"
        OneFittingPass "step 2 in one pass only"
        OneTrialPass "step 3 in one pass only"
        PassAtZero "a pass of step 2 begun at average 0"
        EatenFree "a bound eaten up by padding charged 0"
        RemainingWraps "remaining width wraps below 0"
        DecidedEmptyFree "a decided column without cells taken as 0 wide"
        HiddenVisible "hidden columns counted in the borders"
        HiddenCharged "hidden columns taken off the remaining width"
        BoundsSwapped "upper bound of `Boundaries` read first"
        PercentRounded "percent rounded up"
        PercentUncapped "percent above 100 kept"
        PercentOfTarget "percent of the whole target"
        HeaderNotMeasured "header left out of the longest"
        HeaderNotTried "header left out of the split trial"
        ExcessLast "excess of a share given to the last columns"
        FullSkipsAbsolute "full width leaves `Absolute` columns alone"
        ColumnDelimiterFirst "column's delimiter before the cell's"
        RetryAtOne "piece tried again at 1 column free only"
        FullAtOne "line full at width less 1 only"
        EmptyLastKept "empty last line kept"
        EmptyPiecesDropped "empty pieces dropped"
        FillsFresh "long piece begun on a fresh line"
        CutAtLimit "a cell of exactly the limit's lines cut"
        WideIndicatorKept "indicator kept though wider"
        IndicatorIfShortened "indicator put only where the line was shortened"
        HeaderUncut "header's height limit ignored"
        CentreOddRight "odd space of centring on the right"
        ColumnAlignmentFirst "column's alignment before the cell's"
        PaddingsSwapped "left and right padding exchanged"
        BlankAbove "blank lines put above"
        MissingNoLine "missing cell has no line"
        HeaderRuleBeforeRows "header rule only if rows follow"
        RowRuleAfterHeader "row rule below the header too"
        RuleJunctionAlways "junction in rules though none is set"
        TextJunctionAlways "junction in text lines though none is set"
        NoBottomJunction "bottom junction dropped when none is set"
        OwnLeftOnly "a line's left printed only if its own is set"
        EmptyRowLine "row without lines printed as a blank line"
        PairTwoColumns "a pair counted as two columns"
        LongestInBytes "a column's longest counted in bytes"
        LineTwice "a cell's first line measured again in place of its last"
        LengthByteMeasured "a line measured from its length byte on"
        ColumnNotAdvanced "every cell of a row measured in the first column"
        EmptyLineNothing "an empty line measured as 0"
        HiddenNotMeasured "hidden columns' lines left out of the longest"
        EmptyRowLast "no row measured after one without cells"
        WrapTestInBytes "a line tested in bytes before it is wrapped"
        FillInBytes "a long piece cut by bytes, also inside a pair"
        CutInBytes "the last line cut by bytes, also inside a pair"
        AlignInBytes "free space of alignment counted in bytes"
        BytesFromColumns "byte count taken from columns"
        FirstNamedLower "lower bound named where it fixes the column in the first step"
        LowerNamedFirst "first step named where a lower bound is above the average"
        OpenNamedFirst "first step named for a percent `Absolute` without a target"
        UpperAndLongest "upper bound and longest exchanged in step 2's names"
        EqualNamedLongest "longest named for an upper bound equal to longest plus padding"
        BareNotNamed "no step named for a column without cells"
        PartNamedShare "even share named for a split part"
        UpperNamedByPadding "padding counted where the untargeted upper bound is named"
        HiddenNamed "a hidden column names a step"
        HiddenWidened "a hidden column marked as widened"
        NothingWidens "a share of 0 marked as widening"
        NoRemainderWidens "a remainder of 0 marked as widening"
        ShareWidens "an even share marked as widened with arrangement 2"
        DifferenceTurned "difference with its sign turned"
        OverrunIsZero "difference 0 for an overrun"
        DisabledNoDifference "no difference with `Disabled`"
        NoPageNoDifference "no difference for a page without lines"
        TextLinesOnly "longest line taken from text lines only"
        FirstLineOnly "longest line taken to be the first"
        LineFromWidths "longest line taken to be borders and full widths"
        LineInBytes "longest line counted in bytes"
        LineEndCounted "0A counted in the longest line"
    }
}

listed! {
    /// "the step that set its content width", numbered from 1 in this order.
    Step {
        First "first constraint step"
        Lower "lower bound"
        Upper "upper bound"
        Longest "longest within average"
        Part "split part"
        Share "even share"
        PlainLongest "untargeted longest"
        PlainUpper "untargeted upper bound"
    }
}

impl Step {
    pub fn number(self) -> u8 {
        self as u8 + 1
    }
}

impl Slip {
    pub fn of_report(self) -> bool {
        self as usize >= Slip::FirstNamedLower as usize
    }
}

listed! {
    /// A plausible mistake that the second reading of the refusals makes on request.
    RefusalSlip {
        LoneSecond "a lone B0 accepted"
        PlaceAfterFirst "6 at the byte after C2"
        OpenPairIsWrong "6 at C2 where the sheet ends inside a pair"
        LastFirstEndsEarly "1 for C2 as a line's last byte where the sheet ends there"
        PairAcrossLines "C2 as a line's last byte accepted before B0"
        SignInIndicator "a pair accepted in the indicator"
        LengthInCharacters "a line's length counted in characters"
    }
}

listed! {
    /// A plausible mistake that the second reading of the writer makes on request.
    WriterSlip {
        LeftFirst "9 tested before 1"
        TextLeft "text left over let pass"
        NumbersLeft "numbers left over let pass"
        ShortText "a text cut short taken as it is"
        LengthNotTaken "the length of a missing text not counted in 1's place"
        TextBytesTaken "bytes of text counted in 9's place"
        LongLast "2 tested after the fields"
        LongAtLimit "2 for exactly 32,768 bytes"
        LongCountTwo "a count over 255 counted as two bytes of what is needed"
        WordOne "a two-byte number counted as one byte of what is needed"
        RoomFirst "22 tested before the fields"
        RoomAtLimit "22 for a buffer that the sheet just fills"
        RoomPlace "22 with the buffer's length as its place"
        AfterIndicator "places one too high after the indicator"
        PaddingsExchanged "left and right padding exchanged"
        CellFieldsExchanged "a cell's delimiter and alignment exchanged"
        PaddingUntested "a padding's limit left untested"
        StyleUntested "the style's length left untested"
        NoLineUntested "a cell without lines let pass"
        LimitUntested "a height limit over 255 let pass"
        CellsExchanged "5 and 7 exchanged at the cell count"
        CellsInColumnsOnly "7 also for a cell count over 12"
        UnusedUnitCode "4 for an unused unit"
        UnusedHighFirst "high byte of an unused value before its low byte"
        UnusedValuePlace "8 at an unused value's first byte always"
        PercentLimited "a percent over 400 refused"
        LastFirst "C2 at a line's end let pass"
        PairAcrossLines "C2 at a line's end let pass where B0 begins the next line"
        LoneSecond "a lone B0 let pass"
        SignInIndicator "a pair let pass in the indicator"
        Modulo "numbers taken modulo 256"
        HighFirst "two-byte numbers written high byte first"
        DelimiterSpace "a delimiter of 0 written as a space"
        AlignmentLeft "an alignment of 0 written as 1"
        BareHeaderLeftOut "a header without cells left out"
    }
}

listed! {
    /// A plausible mistake of a program that writes the small sheets.
    ListSlip {
        TextLeftOut "a text left out"
        ListedTwice "a sheet listed twice"
        OneTooFew "one sheet too few"
        TargetEleven "target 11 too"
        LengthFive "texts of length 5 too"
        LetterFirst "a ordered before space"
        FromTheRight "texts ordered from the right"
        TextsExchanged "second text ordered before the first"
        TargetFirst "target ordered before arrangement"
        TwoColumnsFirst "two columns ordered before one"
        LastByteLost "the last byte not written"
        NothingWritten "nothing written"
    }
}

listed! {
    /// What decided a column, a wrapped line, a cell, an area or a line of the page.
    Rule {
        FirstContent "`ContentWidth`" FirstContentBare "`ContentWidth` without cells"
        FirstHidden "`Hidden`" FirstHiddenBare "`Hidden` without cells"
        FirstAbsolute "`Absolute`" FirstAbsoluteEaten "`Absolute` eaten by padding"
        AbsoluteOpen "`Absolute` percent without target"
        FirstLower "lower bound above longest" FirstLowerEqual "lower bound equal to longest plus padding"
        PercentPlain "percent up to 100" PercentCapped "percent over 100" PercentNothing "percent of nothing left"
        PercentNoTarget "percent bound without target"
        PlainLongest "no target: longest" PlainUpper "no target: upper bound"
        PlainUpperPadding "no target: bound below longest plus padding only"
        PlainBare "no target: no cells" DisabledTarget "`Disabled` with a target"
        StartStopped "start of remaining stopped at 0"
        LowerFixed "step 1" LowerEaten "step 1, bound eaten" LowerEqual "step 1, bound equal to average"
        LowerAgain "step 1 repeated with effect"
        UpperFixed "step 2, upper bound" UpperEaten "step 2, bound eaten" UpperAtAverage "step 2, bound equal to average plus padding"
        UpperAtLongest "step 2, bound equal to longest plus padding"
        UpperOverAverage "step 2, bound over average" UpperOverLongest "step 2, bound over longest"
        FitFixed "step 2, longest" FitEqual "step 2, longest equal to average" FitBare "step 2, no cells"
        FitAgain "step 2 repeated with effect" FitBarred "step 2 barred by average 0"
        TrialFixed "step 3" TrialThree "step 3 by exactly 3" TrialTwo "step 3 missed by 1"
        TrialNothing "step 3, no part at all" TrialAgain "step 3 repeated with effect" TrialZero "step 3 at average 0"
        RemainingStopped "remaining stopped at 0"
        ShareEven "step 4 even" ShareExcess "step 4 with excess" ShareRaised "step 4 raised"
        FullEven "full width even" FullExcess "full width with excess" FullNothing "full width, nothing left"
        FullNoColumn "full width, no visible column"
        LineExact "line of exactly the width" LineShorter "line shorter than the width"
        JoinFirst "piece on an empty line" JoinMore "piece after a delimiter" JoinExact "piece ends on the width"
        EmptyPiece "empty piece on an empty line" EmptyPieceMore "empty piece after a delimiter"
        RetryOne "tried again at 1 free" RetryTwo "tried again at 2 free"
        FillFresh "long piece on an empty line" FillMore "long piece after a delimiter" FillThree "long piece at 3 free"
        BeginLine "piece begins another line" FullFlush "full line flushed" FullJust "full by 1" FullNotYet "not full by 1"
        LastKept "last line kept" LastEmpty "nothing left at the end" NoLine "line of delimiters wraps to nothing"
        DelimiterCell "cell's delimiter" DelimiterColumn "column's delimiter" DelimiterTable "table's delimiter" DelimiterSpace "space"
        CutNot "limit not reached" CutEqual "exactly the limit" CutShort "cut and shortened" CutFits "cut, line and indicator fit"
        CutFitsExactly "cut, fit exactly" CutEmpty "cut at an empty line" IndicatorDropped "indicator dropped"
        IndicatorNone "no indicator set" IndicatorWhole "indicator as wide as the content" HeaderCut "header cut"
        AlignLeft "left" AlignRight "right" AlignCentreOdd "centre, odd" AlignCentreEven "centre, even"
        AlignByCell "cell's alignment" AlignByColumn "column's alignment" AlignByDefault "left by default"
        MissingCell "missing cell" BlankBelow "blank line below" BareRow "row without cells" RowNoLine "row without lines"
        NoColumn "no visible column" TopUnjoined "top border, no junction set" BottomUnjoined "bottom border, no junction set"
        RuleUnjoined "rule, no junction set" TextUnjoined "text line, no junction set" UnsetSpace "unset character as space"
        TopBorder "top border" NoTop "no top border" BottomBorder "bottom border" NoBottom "no bottom border"
        NoHeader "no header" HeaderRule "header rule" HeaderRuleAlone "header rule, no rows"
        NoHeaderRule "no header rule" RowRule "row rule" NoRowRule "no row rule" NoLeft "no left" NoRight "no right"
        EmptyLine "empty line of the page" NoPage "page without lines"
        SignLast "a wrapped line ends with a sign" SignNext "a wrapped line begins with a sign"
        SignFills "a long piece cut between two signs" SignAtDelimiter "a sign beside a delimiter in a joined line"
        SignsOnly "line of signs only" SignsExact "line with signs of exactly the width"
        SignsFitInColumns "line with signs that fits, but not by its bytes" SignBeforeCut "a sign right before the indicator"
        SignCutOff "a sign is the first that is cut off" SignsRight "signs aligned right" SignsCentred "signs centred"
        SignMeasured "a column's longest has a sign"
    }
}

/// A set of rules.
#[derive(Clone, Copy, Debug, Default, PartialEq)]
pub struct Rules(u128);

const _: () = assert!(Rule::ALL.len() <= u128::BITS as usize);

impl Rules {
    pub fn add(&mut self, rule: Rule) {
        self.0 |= 1 << rule as u32;
    }

    pub fn has(self, rule: Rule) -> bool {
        self.0 >> rule as u32 & 1 == 1
    }

    pub fn iter(self) -> impl Iterator<Item = Rule> {
        Rule::ALL.iter().copied().filter(move |rule| self.has(*rule))
    }
}

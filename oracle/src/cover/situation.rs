//! Situations worth reaching, each with its label in the table.

macro_rules! situations {
    ($($case:ident $label:literal;)*) => {
        #[derive(Clone, Copy)]
        pub enum Situation {
            $($case,)*
        }

        impl Situation {
            pub const ALL: &'static [(Situation, &'static str)] =
                &[$((Situation::$case, $label),)*];
        }
    };
}

situations! {
    Opened "open done";
    OpenedJune "open done in June's edition";
    Refused1Edition "open refused 1 with a bad edition besides";
    Refused12Alone "open refused 12 with all else good";
    Refused12Buffers "open refused 12 with wrong buffers besides";
    Refused12Near "open refused 12 for an edition just before or after ours";
    Refused2June "open refused 2 in June's edition";
    Refused1June "open refused 1 in June's edition";
    June27Marks "27 in June with marks";
    JuneOurs "ERROR 2 by June's DATA TRANSMIT, FIELD SEPARATOR or FN";
    June41 "ERROR 2 by 41 in June";
    JuneModifiedBit "June's format facilities with the bit of TRANSMIT MODIFIED";
    JuneSendMany "key 13 with several fields in June";
    JuneFunction "function key in June";
    JuneTyped "typed in an unmarked cell in June";
    JuneEraseMarks "ERASE SCREEN with marks in June";
    JuneDont "DONT 20 while on in June";
    JuneMark "call refused 11 in June";
    JuneMarks "call refused 2 for the mark buffer alone in June";
    JuneRoom "call refused 5 with 7C + 2 bytes or more in June";
    NoBytes "host call without bytes";
    FewerTaken "host call that took fewer bytes than it was given";
    HostRoomExact "host call with room for one reply exactly";
    FreeExact "host call that left room for one reply exactly";
    LargestScreen "host call on a screen of 7,280 cells";
    WidestScreen "host call on a screen of 132 by something";
    HighestScreen "host call on a screen of something by 64";
    KeyRoomExact "key with room for one reply exactly";

    Do20Off "DO 20 while off";
    Do20On "DO 20 while on";
    DoOther "DO of another option";
    Do255 "DO 255";
    Dont20On "DONT 20 while on";
    Dont20Suppressed "DONT 20 while on and suppressed";
    Dont20Off "DONT 20 while off";
    Dont20OffSuppressed "DONT 20 while off and suppressed";
    DontOther "DONT of another option";
    Will20 "WILL 20";
    WillOther "WILL of another option";
    Will255 "WILL 255";
    Wont20 "WONT 20";
    WontOther "WONT of another option";

    ThrownAway "subnegotiation thrown away";
    NoOption "subnegotiation without an option byte";
    OtherOption "subnegotiation of another option";
    Option255 "subnegotiation of option 255";
    DetOff "subnegotiation of 20 while DET is off";
    NoCommand "subnegotiation of 20 without a command byte";
    SixHeld "subnegotiation with six bytes held";
    ErrorNames255 "ERROR that names command 255";

    HostWritten "host character written";
    HostDropped "host character dropped";
    HostLast "host character written in the last cell";
    HostClass "host character against the cell's class";
    HostSuppressed "host character on a protected cell while suppressed";
    Cr "CR";
    Lf "LF";
    LfLast "LF on the last line";
    Bs "BS";
    BsStart "BS at x = 0";
    Data255 "data byte 255";
    IdleData "other data byte";

    LimitedX "MOVE CURSOR limited in x";
    LimitedY "MOVE CURSOR limited in y";
    LimitedBoth "MOVE CURSOR limited in both";
    EdgeUp "8 at the edge";
    EdgeDown "9 at the edge";
    EdgeLeft "10 at the edge";
    EdgeRight "11 at the edge";
    HomeSought "12 past protected cells";
    HomeNone "12 with no unprotected cell";
    HomeSuppressed "12 while suppressed and (0,0) is protected";
    SkipLine "6 on the screen";
    SkipLineRound "6 past the last line";
    SkipChar "7 within the line";
    SkipCharFar "7 within the line by N or more";
    SkipCharOn "7 past the line's end";
    SkipCharRound "7 past the line's end and the last line";
    LinesMoved "13 or 14 with lines that move";
    LinesLast "13 or 14 on the last line";
    LinesAttributes "13 or 14 over lines of different attributes";
    LinesGuardAbove "13 or 14 with guards above the line alone";
    LinesGuardBefore "13 or 14 with guards before the cursor alone, in its line";
    LinesGuardBelow "13 or 14 with guards below the line alone";
    LinesGuardHere "13 or 14 on a guarded cell";
    LinesSuppressed "13 or 14 with protected cells while suppressed";
    ShiftGuarded "15 or 16 on a guarded cell";
    ShiftToField "15 or 16 to the field's end";
    ShiftToLine "15 or 16 to the line's end within a field";
    ShiftSuppressed "15 or 16 past a field's end while suppressed";
    TabBackFound "19 with a field before the cursor";
    TabBackAtStart "19 from a field's start";
    TabBackNone "19 with no field before the cursor";
    TabBackSuppressed "19 with a field before the cursor while suppressed";

    UnprotectedNone "21 without fields";
    UnprotectedOne "21 with one field";
    UnprotectedMany "21 with several fields";
    UnprotectedJoined "21 with two fields side by side";
    UnprotectedSuppressed "21 with a protected field while suppressed";
    LineLast "22 on the last line";
    LineGuarded "22 from a guarded cell";
    FieldGuarded "23 or 26 on a guarded cell";
    FieldGuardedInside "23 inside a guarded field";
    FieldInside "23 or 26 inside a field";
    FieldCrosses "23 or 26 in a field that crosses a line's end";
    FieldSuppressed "23 or 26 on a protected cell while suppressed";
    EraseGuarded "30 to 34 on a guarded cell";
    EraseSuppressed "30 to 34 on a protected cell while suppressed";
    Erase35Suppressed "35 with a protected cell while suppressed";
    Erase35None "35 with no unprotected cell";

    FormatNone "36 of no cells";
    FormatAll "36 of all cells that remain";
    FormatGuarded "36 on a guarded cell";
    RepeatNone "37 no times";
    RepeatLast "37 in the last cell";
    RepeatStopped "37 stopped by a guarded cell";
    SuppressBegun "38 with 253 that changes";
    SuppressAgain "38 with 253 that does not change";
    SuppressEnded "38 with 254 that changes";
    SuppressEndedAgain "38 with 254 that does not change";

    TypedOn "typed, next cell open";
    TypedSkips "typed, guarded cells skipped";
    TypedStays "typed, no open cell after";
    TypedAlphabetic "typed in an alphabetic cell";
    TypedNumeric "typed in a numeric cell";
    TypedProtected "typed in a protected cell while suppressed";
    TypedAnyClass "typed against the class while suppressed";
    BackSkips "key 8, guarded cells skipped";
    BackLine "key 8 to the line before";
    BackStays "key 8 with no open cell before";
    TabOn "key 9 to a field after the cursor";
    TabWraps "key 9 to the first field";
    TabStays "key 9 without fields";
    TabSuppressed "key 9 with a protected field while suppressed";
    SendNone "key 13 without fields";
    SendMany "key 13 with several fields";

    ModifiedNone "27 with no mark at all";
    ModifiedNoField "27 with marks on protected cells alone";
    ModifiedOne "27 with one marked field";
    ModifiedMany "27 with several marked fields";
    ModifiedSome "27 with a marked field after an unmarked one";
    ModifiedProtected "27 with marks on protected cells too";
    ModifiedSuppressed "27 with marks on protected cells while suppressed";
    ModifiedInside "27 with a field marked neither first nor last";
    ModifiedCrosses "27 with a marked field that crosses a line's end";
    TypedMarks "typed in an unmarked cell";
    TypedMarkedSame "typed what stands in an unmarked cell";
    TypedSuppressedMark "typed in an unmarked protected cell";
    DeleteKeyMarks "key 127 with unmarked cells to shift";
    ShiftMarks "15 or 16 with unmarked cells to shift";
    ShiftMarksSame "15 or 16 with an unmarked cell that keeps its character";
    ShiftStopped "13 to 16 stopped by a guard with unmarked cells";
    LinesMark "13 or 14 with unmarked cells to move";
    LinesMarkSome "13 or 14 with marked and unmarked cells to move";
    EraseScreenMarks "29 with marks";
    EraseUnprotectedMarks "35 with marks on protected cells";
    EraseLeavesMarks "30 to 34 with marks";
    EraseLeavesUnmarked "30 to 34 without a mark";
    SendLeavesMarks "21 with marks";
    SendKeyLeavesMarks "key 13 with marks";
    FormatOverMarks "36 over marked cells";
    FormatOverUnmarked "36 over unmarked cells";
    HostUnmarked "host character written in an unmarked cell";
    DontLeavesMarks "DONT 20 while on with marks";
    Refused2Open "open refused 2 for the mark buffer alone";
    Refused2Marks "call refused 2 for the mark buffer alone";
    Refused11Room "call refused 11 with too little room besides";
    Refused4Mark "call refused 4 with a mark above 1 besides";
    RoomBetween "call refused 5 with 7C + 2 bytes or more";
    FreeBetween "host call that stopped with 7C + 2 bytes or more free";

    Do30At37 "DO 30 while off on 37 cells";
    Do30Off "DO 30 while off on more";
    Do30At36 "DO 30 declined on 36 cells";
    Do30Small "DO 30 declined on fewer";
    Do30On "DO 30 while on";
    Do30Det "DO 30 while DET is on";
    Dont30On "DONT 30 while on";
    Dont30Line "DONT 30 with a line";
    Dont30Suppressed "DONT 30 while on and suppressed";
    Dont30Off "DONT 30 while off";
    Will30 "WILL 30";
    Wont30 "WONT 30";
    Refused4By30 "call refused 4 for option 30 alone";
    LineKept "DONT 20 with a line kept while DET was on";
    FunctionWithLine "function key refused 8 while the line takes the keys";

    PadOff "message of 30 while off";
    PadDet "message of 30 while DET is on";
    PadNoCode "message of 30 without a code";
    PadUnknown "message of 30 with an unknown code";
    PadOurs "IS or RESPONSE-IS from the host";
    PadOdd "message with a parameter left without a value";
    PadOddLong "such a message with whole pairs before";
    PadCutOff "message of 30 thrown away";
    PadCutOffPair "such a message with a whole pair in it";
    PadLong "SET of more than six bytes";
    PadNone "SET without pairs";
    PadSet "SET";
    PadResponseSet "RESPONSE-SET";
    PadDoubled "SET with 255 in it";
    PairLacked "pair of a parameter that we lack";
    PairForeign "pair of 129 to 132 without extension set 1";
    PairExtended "pair of 129 to 132 after that of 128 in one message";
    PairTwice "two pairs of one parameter in one message";
    Send "SEND";
    SendPairs "SEND with pairs after it";
    SendOdd "SEND with an odd byte after it";
    ToldExtended "RESPONSE-IS with 129 to 132";
    ToldBare "RESPONSE-IS without 129 to 132";
    Told255 "RESPONSE-IS with a doubled 255";

    LineText "text into the line";
    LineFilled "text that fills the line";
    ForwardFull "full line sent by a forwarding key";
    ForwardAlone "forwarding key with an empty line";
    SentCrLf "CR sent as CR LF";
    SentCrNul "CR sent as CR NUL";
    EditForwards "edit key that is a forwarding character too";
    EditTwice "edit key that two parameters name";
    EditFull "edit key with a full line";
    EditEmpty "character delete with an empty line";
    EditOff "code of an edit key while parameter 15 is 0";
    EditZero "key 0 while editing, an edit key's parameter 0";
    WordForeign "code of parameter 129 without extension set 1";
    WordSpaces "word delete with spaces at the line's end";

    Echoed "key echoed";
    EchoOff "key while parameter 2 is 0";
    EchoDropped "echo dropped by a guarded cell";
    EchoedCr "CR echoed as CR";
    EchoedCrLf "CR echoed as CR LF";
    LfSwallowed "host's LF after CR swallowed";
    LfObeyed "host's LF after CR obeyed by parameter 13";
    LfWithDet "host's LF after CR with 30 and DET on";
    LfWithout30 "host's LF after CR with both off";

    Error1TooFew "ERROR 1 with too few parameters besides";
    Error1TooMany "ERROR 1 with too many parameters besides";
    Error1BadValue "ERROR 1 with a bad value besides";
    UnknownUnagreed "unknown code while nothing is agreed";
    DontAgreed "DONT 20 while on with facilities agreed";
    DontOffAgreed "DONT 20 while off with facilities agreed";
    DoOnAgreed "DO 20 while on with facilities agreed";
    DoOffAgreed "DO 20 while off with facilities agreed";
    WontAgreed "WONT 20 with facilities agreed";
    Dont30Agreed "DONT 30 with facilities agreed";
    FacilityOff "facility command while DET is off";
    SendUnagreed "key 13 without the facility of 21";
    DeleteUnagreed "key 127 without the facility of 16";
    FunctionUnagreed "function key without the facility of FN";
}

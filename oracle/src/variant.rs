//! Deliberately wrong terminals, each with one rule changed. The code that
//! decides a rule asks for its variant there and nowhere else.

use crate::edition::Edition;

macro_rules! variants {
    ($($case:ident $name:literal $what:literal;)*) => {
        /// Which rule is changed; `None` is the right program.
        #[derive(Clone, Copy, Debug, Default, PartialEq, Eq)]
        pub enum Variant {
            #[default]
            None,
            $($case,)*
        }

        /// Every wrong variant with its name and what it does.
        pub const ALL: &[(Variant, &str, &str)] = &[$((Variant::$case, $name, $what),)*];
    };
}

variants! {
    // The slips that the scope names.
    InsertToLineEnd "insert-to-line-end" "char insert shifts to the line's end";
    DeleteToLineEnd "delete-to-line-end" "char delete shifts to the line's end";
    ClassOnHost "class-on-host" "host text is held to the cell's class";
    Error255Single "error-255-single" "IAC stays single in an ERROR that names 255";
    FieldsEndAtLineEnd "fields-end-at-line-end" "a line's end ends the field";
    ProtectedRunIsField "protected-run-is-field" "21 counts a protected run as an empty field";
    SuppressionChanges21 "suppression-changes-21" "21 sends every field while suppressed";

    // Cells, fields and guards.
    FieldByProtection "field-by-protection" "fields compare only bits 4 and 3";
    OnlyNoneUnprotected "only-none-unprotected" "alphabetic and numeric count as protected";
    GuardIgnoresSuppression "guard-ignores-suppression" "protected cells stay guarded while suppressed";
    SpanIgnoresSuppression "span-ignores-suppression" "the edit span ends at the field while suppressed";
    ShiftOnGuarded "shift-on-guarded" "15 and 16 shift on a guarded cell too";
    DroppedAdvances "dropped-advances" "a dropped host character moves the cursor";

    // Prefaces.
    Preface20Cursor "preface-20-cursor" "20 is prefaced by the cursor";
    Preface21Origin "preface-21-origin" "21 is always prefaced by (0,0)";
    Preface21EmptyCursor "preface-21-empty-cursor" "21 without fields is prefaced by the cursor";
    Preface22Cursor "preface-22-cursor" "22 is prefaced by the cursor";
    Preface23Cursor "preface-23-cursor" "23 is prefaced by the cursor";
    Preface26Start "preface-26-start" "26 is prefaced by its field's start";
    PrefaceGuardedStart "preface-guarded-start" "23 on a guarded cell is prefaced by its field's start";
    GuardedNoPreface "guarded-no-preface" "23 and 26 on a guarded cell send nothing at all";
    GuardedSent "guarded-sent" "23 and 26 send a guarded field";

    // The cursor afterwards.
    Cursor20Stays "cursor-20-stays" "20 leaves the cursor";
    Cursor21Stays "cursor-21-stays" "21 leaves the cursor";
    Cursor21EmptyStays "cursor-21-empty-stays" "21 without fields leaves the cursor";
    Cursor22Stays "cursor-22-stays" "22 leaves the cursor";
    Cursor22LastWraps "cursor-22-last-wraps" "22 on the last line goes to (0,0)";
    Cursor22LastKeepsX "cursor-22-last-keeps-x" "22 on the last line leaves the cursor";
    Cursor23Moves "cursor-23-moves" "23 goes to the cell after the field";
    Cursor30LineStart "cursor-30-line-start" "30 goes to the line's start";
    Cursor31FieldStart "cursor-31-field-start" "31 goes to the field's start";
    Cursor35Origin "cursor-35-origin" "35 goes to (0,0)";
    Cursor35Stays "cursor-35-stays" "35 leaves the cursor";
    Cursor36Moves "cursor-36-moves" "36 goes past the formatted cells";
    TypingNextCell "typing-next-cell" "typing goes to the next cell, guarded or not";
    TypingWraps "typing-wraps" "typing goes on at the screen's start";
    HostLastWraps "host-last-wraps" "host text goes on at (0,0) after the last cell";
    RepeatLastWraps "repeat-last-wraps" "REPEAT that ends at the last cell goes to (0,0)";

    // Cursor movement.
    MoveXNotLimited "move-x-not-limited" "MOVE CURSOR keeps the old x where it should limit it";
    MoveYNotLimited "move-y-not-limited" "MOVE CURSOR keeps the old y where it should limit it";
    MoveErrorStays "move-error-stays" "MOVE CURSOR off the screen leaves the cursor";
    MoveLimitsInSilence "move-limits-in-silence" "MOVE CURSOR limits without an ERROR";
    MoveTwoErrors "move-two-errors" "MOVE CURSOR draws one ERROR for each of x and y";
    RightWraps "right-wraps" "11 at the line's end goes to the next line";
    DownWraps "down-wraps" "9 on the last line goes to the first";
    HomeIgnoresSuppression "home-ignores-suppression" "12 seeks an unprotected cell while suppressed";
    HomeOrigin "home-origin" "12 always goes to (0,0)";
    ReverseTabIgnoresSuppression "reverse-tab-ignores-suppression" "19 seeks a field while suppressed";
    ReverseTabNotStrict "reverse-tab-not-strict" "19 stays on a field's start";

    // Erasing and shifting.
    EraseScreenKeepsAttributes "erase-screen-keeps-attributes" "29 leaves the attributes";
    EraseSparesProtected "erase-spares-protected" "30 to 34 spare protected cells while suppressed";
    Erase35Suppressed "erase-35-suppressed" "35 erases protected cells while suppressed";
    DeleteKeepsLast "delete-keeps-last" "16 puts no space at the span's end";
    Field23Suppressed "field-23-suppressed" "23 and 26 send no protected field while suppressed";

    // ERROR numbers and order.
    Errors9And10Exchanged "errors-9-10-exchanged" "too few draws 9 and too many 10";
    Error12After11 "error-12-after-11" "FORMAT DATA counts cells before it looks at its map";
    ValuesBeforeCount "values-before-count" "values are checked before the count";
    CountBeforeCode "count-before-code" "an unknown code with more parameters than any takes draws 9";
    UnknownInSilence "unknown-in-silence" "an unknown code draws no ERROR";
    NoCommandError2 "no-command-error-2" "no command byte draws ERROR 2";
    Error41Unknown "error-41-unknown" "41 draws ERROR 2";
    FormatBit5 "format-bit-5" "FORMAT DATA lets bit 5 of its map pass";
    FormatSecondMap "format-second-map" "FORMAT DATA lets its second map byte pass";
    FormatLowFirst "format-low-first" "FORMAT DATA reads its count low byte first";
    FormatAllRemaining "format-all-remaining" "FORMAT DATA of all cells that remain draws 11";
    RepeatNone "repeat-none" "REPEAT of no characters lets any character pass";
    Repeat127 "repeat-127" "REPEAT writes character 127";
    EraseMapShifted "erase-map-shifted" "the erase map is shifted by one bit";

    // Suppression.
    DontKeepsSuppression "dont-keeps-suppression" "DONT 20 leaves protection suppressed";
    SuppressAnswersAlways "suppress-answers-always" "38 is answered though nothing changed";
    SuppressWillInSilence "suppress-will-in-silence" "38 with 251 is not answered";

    // Reply room.
    RefuseRoomLess "refuse-room-less" "one byte too little room is not refused";
    RefuseRoomMore "refuse-room-more" "just enough room is refused";
    TakeRoomLess "take-room-less" "bytes are taken with one byte too little free";
    TakeRoomMore "take-room-more" "bytes are taken only with one byte more free";

    // Refusal order.
    Refuse2Before1 "refuse-2-before-1" "refusal 2 is looked for before 1";
    Refuse3Before2 "refuse-3-before-2" "refusal 3 is looked for before 2";
    Refuse4Before3 "refuse-4-before-3" "refusal 4 is looked for before 3";
    Refuse5Before4 "refuse-5-before-4" "refusal 5 is looked for before 4";
    Refuse9Before5 "refuse-9-before-5" "refusal 9 is looked for before 5";
    Refuse5Last "refuse-5-last" "refusal 5 is looked for after all others";

    // Telnet bytes.
    Option255Doubled "option-255-doubled" "answers double the option 255";
    Option255IsIac "option-255-is-iac" "255 in an option's place starts a command";
    SbInsideNotAnew "sb-inside-not-anew" "IAC SB inside a subnegotiation starts none";
    ThrownSwallowsCommand "thrown-swallows-command" "the command that throws a subnegotiation away is not obeyed";
    HeldKeptAfterEnd "held-kept-after-end" "held bytes stay when a subnegotiation ends";
    HeldKeptAfterThrow "held-kept-after-throw" "held bytes stay when a subnegotiation is thrown away";
    HeldKeptAtOption "held-kept-at-option" "held bytes from before stay at an option byte";
    CountPast6 "count-past-6" "the held count does not stop at 6";
    CountStopsAt5 "count-stops-at-5" "the held count stops at 5";
    SubIacIacTwice "sub-iac-iac-twice" "IAC IAC in a subnegotiation counts as two bytes";
    DetOffObeyed "det-off-obeyed" "commands are obeyed while DET is off";
    OtherOptionObeyed "other-option-obeyed" "other options' subnegotiations are obeyed";
    NoOptionObeyed "no-option-obeyed" "a subnegotiation without an option byte draws ERROR 10";
    Will20Accepted "will-20-accepted" "WILL 20 is answered DO 20";
    WontAnswered "wont-answered" "WONT is answered DONT";
    Do20Again "do-20-again" "DO 20 is answered while DET is on too";
    Dont20Again "dont-20-again" "DONT 20 is answered while DET is off too";

    // Data bytes.
    CrNextLine "cr-next-line" "CR goes a line down too";
    LfWraps "lf-wraps" "LF on the last line goes to the first";
    LfLineStart "lf-line-start" "LF sets x to 0 too";
    BsWraps "bs-wraps" "BS at x = 0 goes to the line before";

    // Keys.
    Key127NoMeaning "key-127-no-meaning" "key 127 has no meaning";
    Key128NoMeaning "key-128-no-meaning" "key 128 has no meaning";
    Key143NoMeaning "key-143-no-meaning" "key 143 has no meaning";
    Key144Function "key-144-function" "key 144 is a function key";
    FunctionLess128 "function-less-128" "FN sends the key less 128";
    DeleteNeedsDet "delete-needs-det" "key 127 is refused while DET is off";
    SendWithoutDet "send-without-det" "key 13 is taken while DET is off";
    Key8Wraps "key-8-wraps" "key 8 goes on at the screen's end";
    Key8OntoGuarded "key-8-onto-guarded" "key 8 goes to the cell before, guarded or not";
    Key8StopsAtLine "key-8-stops-at-line" "key 8 stays within the line";
    Key9NoWrap "key-9-no-wrap" "key 9 stays after the last field's start";
    Key9NotStrict "key-9-not-strict" "key 9 stays on a field's start";
    Key9Suppressed "key-9-suppressed" "key 9 goes to protected fields too while suppressed";
    ClassAt "class-at" "@ counts as a letter";
    ClassBracket "class-bracket" "[ counts as a letter";
    ClassBackquote "class-backquote" "` counts as a letter";
    ClassBrace "class-brace" "{ counts as a letter";
    ClassSlash "class-slash" "/ counts as numeric";
    ClassColon "class-colon" ": counts as numeric";
    ClassComma "class-comma" ", counts as numeric";
    ClassMinus "class-minus" "- does not count as numeric";
    ClassLetterSpace "class-letter-space" "an alphabetic cell refuses the space";
    ClassNumberSpace "class-number-space" "a numeric cell refuses the space";
    ClassWhileSuppressed "class-while-suppressed" "class is tested while suppressed";

    // Option 30 on and off.
    Pad36Cells "pad-36-cells" "option 30 is accepted from 36 cells up";
    Pad38Cells "pad-38-cells" "option 30 is accepted from 38 cells up";
    PadSmallTaken "pad-small-taken" "a session with 30 on below 37 cells is not refused";
    Do30Again "do-30-again" "DO 30 is answered while on too";
    Dont30Again "dont-30-again" "DONT 30 is answered while off too";
    Do30NeedsDetOff "do-30-needs-det-off" "DO 30 is declined while DET is on";
    Do30StartsAfresh "do-30-starts-afresh" "DO 30 sets all parameters to their starts";
    Dont30StartsAfresh "dont-30-starts-afresh" "DONT 30 sets all parameters to their starts";
    Dont30OffEmpties "dont-30-off-empties" "DONT 30 empties the line while off too";
    Dont30KeepsLine "dont-30-keeps-line" "DONT 30 leaves the line";
    Dont30SendsLine "dont-30-sends-line" "DONT 30 sends the line";
    Dont30EndsSuppression "dont-30-ends-suppression" "DONT 30 ends suppression";
    DetEmptiesLine "det-empties-line" "DO 20 empties the line";
    PadWithDet "pad-with-det" "the line takes the keys while DET is on too";
    PadOffObeyed "pad-off-obeyed" "messages of 30 are obeyed while it is off";
    PadDeafWithDet "pad-deaf-with-det" "messages of 30 are ignored while DET is on";

    // Option 30's messages.
    PairsAsRead "pairs-as-read" "pairs are applied as they are read";
    OddMessageObeyed "odd-message-obeyed" "the pairs before a parameter without a value are applied";
    MessageOfSix "message-of-six" "only the six held bytes of a message count";
    ResponseSetIgnored "response-set-ignored" "RESPONSE-SET does nothing";
    IsObeyed "is-obeyed" "IS from the host sets parameters";
    UnknownCodeSets "unknown-code-sets" "an unknown code is taken for SET";
    SendStrict "send-strict" "SEND with pairs after it is not answered";
    SendAnsweredIs "send-answered-is" "SEND is answered with IS";
    FirstPairCounts "first-pair-counts" "of two pairs for a parameter the first counts";
    PairsBySetBefore "pairs-by-set-before" "129 to 132 go by the extension set before the message";
    BadValueEnds "bad-value-ends" "a bad value ends its message";
    BadValueIsZero "bad-value-is-zero" "a bad value sets 0";
    LackedEnds "lacked-ends" "a parameter that we lack ends its message";
    SetAnySet "set-any-set" "129 to 132 are set whatever the extension set";
    SetForgetsExtensions "set-forgets-extensions" "another extension set puts 129 to 132 to their starts";
    Told255Single "told-255-single" "255 stays single in RESPONSE-IS";
    TellsAllExtensions "tells-all-extensions" "RESPONSE-IS always names 129 to 132";
    TellsNoExtensions "tells-no-extensions" "RESPONSE-IS never names 129 to 132";
    TellsBareSet "tells-bare-set" "RESPONSE-IS leaves 128 out";
    Parameter1Controls "parameter-1-controls" "parameter 1 takes 2 to 31";
    Parameter3Bit128 "parameter-3-bit-128" "parameter 3 takes bit 128";
    Parameter4Any "parameter-4-any" "parameter 4 takes any value";
    Parameter6Any "parameter-6-any" "parameter 6 takes any value";
    Parameter19Any "parameter-19-any" "parameter 19 takes every value to 126";
    Parameter128Any "parameter-128-any" "parameter 128 takes any value";
    Parameter128No255 "parameter-128-no-255" "parameter 128 does not take 255";

    // The edit line.
    Capacity127 "capacity-127" "the line holds 127 characters";
    Capacity129 "capacity-129" "the line holds 129 characters";
    FullLineGoes "full-line-goes" "a line that becomes full is sent";
    FullRefusesForwarding "full-refuses-forwarding" "a forwarding key is refused while the line is full";
    FullRefusesEditing "full-refuses-editing" "an edit key is refused while the line is full";
    Refuse10Before5 "refuse-10-before-5" "refusal 10 is looked for before 5";
    LineTakesAllKeys "line-takes-all-keys" "the line takes keys above 127 too";
    LineKeys678 "line-keys-6-7-8" "refusals 6, 7 and 8 arise for keys into the line";
    LineKeys9 "line-keys-9" "keys without another meaning have none for the line";
    ForwardingKeyStays "forwarding-key-stays" "a forwarding key begins the next line";
    SentLineStays "sent-line-stays" "the line is not emptied when it is sent";
    CrSentAlone "cr-sent-alone" "a CR is sent as one byte";
    InputByOutputBit "input-by-output-bit" "bit 1 of parameter 13 decides what follows a CR that is sent";
    Forward1Letters "forward-1-letters" "digits do not forward by bit 1";
    Forward8NoDel "forward-8-no-del" "DEL does not forward by bit 8";
    Forward32Bs "forward-32-bs" "BS forwards by bit 32";
    Forward64All "forward-64-all" "every control character forwards by bit 64";
    ForwardBeforeEdit "forward-before-edit" "a key that edits and forwards is forwarded";
    EditsWithout15 "edits-without-15" "edit keys edit while parameter 15 is 0";
    EditsFromTheLast "edits-from-the-last" "of two parameters that name an edit key the last counts";
    Key0Edits "key-0-edits" "key 0 is an edit key where a parameter is 0";
    WordDeleteWithoutSet "word-delete-without-set" "129 names an edit key whatever the extension set";
    WordKeepsSpaces "word-keeps-spaces" "spaces at the line's end keep words from being deleted";
    WordIsSpaces "word-is-spaces" "spaces at the line's end are deleted as a word";

    // Echo.
    EchoWithout2 "echo-without-2" "keys are echoed while parameter 2 is 0";
    EchoMaskIgnored "echo-mask-ignored" "parameter 20 silences nothing";
    Mask64Ignored "mask-64-ignored" "bit 64 of parameter 20 silences nothing";
    MaskSignalsByKey "mask-signals-by-key" "edit keys are silenced by their own set too";
    MaskTakesEchoedLf "mask-takes-echoed-lf" "bit 2 of parameter 20 silences the LF of an echoed CR";
    EchoByInputBit "echo-by-input-bit" "bit 2 of parameter 13 adds the LF of an echoed CR";
    EchoLfSwallowed "echo-lf-swallowed" "LF after CR is swallowed in an echo as in host text";
    EchoForgetsCr "echo-forgets-cr" "an echo between the host's CR and LF parts them";
    EchoAsTyped "echo-as-typed" "an echo goes to the next open cell, as typing does";
    EscapeUnechoed "escape-unechoed" "the character of parameter 1 is not echoed";
    FlowUnechoed "flow-unechoed" "flow control characters are not echoed while in use";
    SignalsWithout2 "signals-without-2" "deletions are signalled while parameter 2 is 0";
    PrintingDeleteQuote "printing-delete-quote" "a character delete on a printer signals a quote";
    EmptySignalsNothing "empty-signals-nothing" "a character delete in an empty line signals nothing";
    WordSignalsOnce "word-signals-once" "a word delete signals one character";
    LineDeleteOnce "line-delete-once" "a line delete on a display erases one character";
    LineDeleteByCharacter "line-delete-by-character" "a line delete signals each character by the chosen one";
    LineDeleteNoCrLf "line-delete-no-cr-lf" "a line delete signals XXX alone";
    DisplayKeyEchoed "display-key-echoed" "the line display key is echoed itself";
    DisplayNeedsEcho "display-needs-echo" "the line is displayed only where its key is echoed";

    // Host text after CR.
    LfNeverSwallowed "lf-never-swallowed" "LF after CR is always obeyed";
    LfBitReversed "lf-bit-reversed" "bit 1 of parameter 13 swallows LF after CR";
    LfSwallowedAgain "lf-swallowed-again" "every LF after a swallowed one is swallowed";
    LfSwallowedWithDet "lf-swallowed-with-det" "LF after CR is swallowed while DET is on too";
    LfSwallowedWithout30 "lf-swallowed-without-30" "LF after CR is swallowed while 30 is off too";
    CrOnlyWhileWorking "cr-only-while-working" "a CR before 30 is on and DET off is not remembered";
    CrForgottenByCalls "cr-forgotten-by-calls" "CR and LF in two calls are not taken together";
    CrForgottenByCommands "cr-forgotten-by-commands" "a command between CR and LF parts them";

    // Facilities: what is agreed.
    MapsAccumulate "maps-accumulate" "a facility command adds to what its class had";
    MapsOnlyNarrow "maps-only-narrow" "a later facility command only takes bits away";
    MapsFirstCounts "maps-first-counts" "the first facility command of a class counts";
    MapsForgetOthers "maps-forget-others" "a facility command empties the other classes";
    MapsReceived "maps-received" "the map received counts without our own";
    MapsOwn "maps-own" "our own map counts without the one received";
    MapsFromLeft "maps-from-left" "the bits of a received map are numbered from the left";
    MapsFormatExchanged "maps-format-exchanged" "the two format maps are exchanged";
    IntensityMinimum "intensity-minimum" "intensity is the lesser number of levels";
    OpenKeepsMaps "open-keeps-maps" "open leaves what was agreed";
    DontKeepsMaps "dont-keeps-maps" "DONT 20 leaves what was agreed";
    DontKeepsEdit "dont-keeps-edit" "DONT 20 leaves the edit map";
    DontKeepsErase "dont-keeps-erase" "DONT 20 leaves the erase map";
    DontKeepsTransmit "dont-keeps-transmit" "DONT 20 leaves the transmit map";
    DontKeepsFormat "dont-keeps-format" "DONT 20 leaves the format maps";
    DontOffEmptiesMaps "dont-off-empties-maps" "DONT 20 empties the maps while off too";
    DoEmptiesMaps "do-empties-maps" "DO 20 while off empties the maps";
    DoAgainEmptiesMaps "do-again-empties-maps" "DO 20 empties the maps while on too";
    WontEmptiesMaps "wont-empties-maps" "WONT 20 empties the maps";
    Dont30EmptiesMaps "dont-30-empties-maps" "DONT 30 empties the maps";
    FacilityTooMany "facility-too-many" "a facility command with too many bytes counts";
    FacilityTooFew "facility-too-few" "a facility command with too few bytes empties its class";
    FormatOneByte "format-one-byte" "format facilities of one byte count";
    FacilityWhileOff "facility-while-off" "facility commands count while DET is off";

    // Facilities: ERROR 1.
    NeverError1 "never-error-1" "no command needs a facility";
    AnyBitWillDo "any-bit-will-do" "any bit of the map will do";
    Error1AfterCount "error-1-after-count" "ERROR 1 stands after the count";
    Error1AfterValues "error-1-after-values" "ERROR 1 stands after the values";
    Error1BeforeCode "error-1-before-code" "an unknown code draws ERROR 1 while nothing is agreed";
    Error1Is2 "error-1-is-2" "ERROR 2 stands for ERROR 1";
    Error1InSilence "error-1-in-silence" "a command without its facility draws no ERROR";
    Error1Acts "error-1-acts" "a command that draws ERROR 1 acts all the same";
    UnprotectedFree "unprotected-free" "21 and 35 need no facility";
    SuppressDontFree "suppress-dont-free" "38 with 254 needs no facility";
    SuppressWillFree "suppress-will-free" "38 with 251 and 252 needs no facility";
    PrefaceGoverned "preface-governed" "22 to 26 need the bit of 28 too";
    FormatByAttributes "format-by-attributes" "FORMAT DATA needs the bit of its protection";
    KeySendGoverned "key-send-governed" "key 13 needs the bit of 21";
    KeyDeleteGoverned "key-delete-governed" "key 127 needs the bit of 16";
    KeyFunctionGoverned "key-function-governed" "function keys need the bit of FN";

    // Whole lines and the wrapped screen.
    SkipsUnknown "skips-unknown" "6 and 7 draw ERROR 2";
    LinesUnknown "lines-unknown" "13 and 14 draw ERROR 2";
    EditMapOld "edit-map-old" "our edit map is 54";
    SkipErrors "skip-errors" "6 and 7 past the last line or character draw ERROR 11";
    SkipLineLimited "skip-line-limited" "6 past the last line goes to the last";
    SkipLineStays "skip-line-stays" "6 past the last line does nothing";
    SkipLineStart "skip-line-start" "6 sets x to 0";
    SkipCharLimited "skip-char-limited" "7 past the line's end goes to the line's end";
    SkipCharKeepsLine "skip-char-keeps-line" "7 past the line's end stays in the line";
    SkipCharOneLine "skip-char-one-line" "7 past the line's end goes one line down, however far";
    SkipCharByWidth "skip-char-by-width" "7 goes down by the parameter divided by M";
    SkipCharAlwaysMoves "skip-char-always-moves" "7 within the line changes the line too";
    SkipCharStopsAtLast "skip-char-stops-at-last" "7 goes down to the last line at most";
    LineInsertBelow "line-insert-below" "13 puts the spaces below the cursor's line";
    LineInsertRotates "line-insert-rotates" "13 puts the last line at the cursor's";
    LineDeleteRotates "line-delete-rotates" "14 puts the cursor's line at the end";
    LineDeleteKeepsLast "line-delete-keeps-last" "14 leaves the last line where it was too";
    LinesTakeAttributes "lines-take-attributes" "13 and 14 move attributes too";
    LinesClearAttributes "lines-clear-attributes" "13 and 14 clear the attributes of the line of spaces";
    LinesGoToStart "lines-go-to-start" "13 and 14 go to the line's start";
    LinesNotLast "lines-not-last" "13 and 14 do nothing on the last line";
    LinesMindNothing "lines-mind-nothing" "13 and 14 move guarded cells too";
    LinesMindCursorOn "lines-mind-cursor-on" "13 and 14 look for guards from the cursor on";
    LinesMindCursorCell "lines-mind-cursor-cell" "13 and 14 look at the cursor's cell alone";
    LinesMindOneLine "lines-mind-one-line" "13 and 14 look at the cursor's line alone";
    LinesMindScreen "lines-mind-screen" "13 and 14 look for guards on the whole screen";
    LinesMindProtected "lines-mind-protected" "13 and 14 stop at protected cells while suppressed";
    SkipsFree "skips-free" "6 and 7 need no facility";
    LinesFree "lines-free" "13 and 14 need no facility";

    // Marks and 27.
    ModifiedUnknown "modified-unknown" "27 draws ERROR 2";
    FormatMapOld "format-map-old" "our first format map is 144";
    ModifiedAll "modified-all" "27 sends unmarked fields too";
    ModifiedProtected "modified-protected" "27 sends marked protected fields too";
    ModifiedSuppressed "modified-suppressed" "27 sends marked protected fields too while suppressed";
    ModifiedSeparated "modified-separated" "27 puts 39 between its fields besides";
    ModifiedOnePreface "modified-one-preface" "27 puts 39 in place of all prefaces but the first";
    ModifiedFromMark "modified-from-mark" "27 sends a field from its first mark on";
    ModifiedToMark "modified-to-mark" "27 sends a field up to its last mark";
    ModifiedEmptyPreface "modified-empty-preface" "27 without a marked field sends a preface";
    Cursor27Stays "cursor-27-stays" "27 leaves the cursor";
    Cursor27EmptyStays "cursor-27-empty-stays" "27 without a marked field leaves the cursor";
    Cursor27Sent "cursor-27-sent" "27 goes to the first field that it sent";
    Cursor27Origin "cursor-27-origin" "27 goes to (0,0)";
    ModifiedKeepsMarks "modified-keeps-marks" "27 leaves the marks";
    ModifiedEmptyKeepsMarks "modified-empty-keeps-marks" "27 without a marked field leaves the marks";
    ModifiedClearsSent "modified-clears-sent" "27 clears only the marks of what it sent";
    OpenKeepsMarks "open-keeps-marks" "open leaves the marks as they are lent";
    EraseScreenKeepsMarks "erase-screen-keeps-marks" "29 leaves the marks";
    Erase35KeepsMarks "erase-35-keeps-marks" "35 leaves the marks";
    Erase35ClearsErased "erase-35-clears-erased" "35 leaves the marks of protected cells";
    Transmit21ClearsMarks "transmit-21-clears-marks" "21 and key 13 clear the marks";
    SendKeyClearsMarks "send-key-clears-marks" "key 13 clears the marks";
    SendKeyModified "send-key-modified" "key 13 does as 27";
    EraseClears "erase-clears" "30 to 34 clear the marks of what they erase";
    EraseMarks "erase-marks" "30 to 34 mark what they erase";
    FormatClearsMarks "format-clears-marks" "36 clears the marks of its cells";
    FormatMarks "format-marks" "36 marks its cells";
    DontClearsMarks "dont-clears-marks" "DONT 20 clears the marks";
    HostMarks "host-marks" "host text marks";
    RepeatMarks "repeat-marks" "REPEAT marks";
    EchoMarks "echo-marks" "an echo marks";
    TypingUnmarked "typing-unmarked" "typing marks nothing";
    TypingSameUnmarked "typing-same-unmarked" "typing what stands there marks nothing";
    TypingMarksField "typing-marks-field" "typing marks the whole field";
    InsertUnmarked "insert-unmarked" "15 marks nothing";
    DeleteUnmarked "delete-unmarked" "16 marks nothing";
    KeyDeleteUnmarked "key-delete-unmarked" "key 127 marks nothing";
    LinesUnmarked "lines-unmarked" "13 and 14 mark nothing";
    ShiftMarksChanged "shift-marks-changed" "13 to 16 mark only cells that change";
    ShiftMarksCursor "shift-marks-cursor" "13 to 16 mark the cursor's cell alone";
    MarksMove "marks-move" "13 to 16 move marks along";
    StoppedMarks "stopped-marks" "13 to 16 mark where a guard stops them too";
    OpenAnyMarks "open-any-marks" "open takes a mark buffer of any length";
    AnyMarks "any-marks" "calls take a mark buffer of any length";
    MarksAbove1 "marks-above-1" "a mark above 1 is not refused";
    Refuse11Before2 "refuse-11-before-2" "refusal 11 is looked for before 2";
    Refuse11Before4 "refuse-11-before-4" "refusal 11 is looked for before 4";
    Refuse11After5 "refuse-11-after-5" "refusal 11 is looked for after 5";
    Refuse11Last "refuse-11-last" "refusal 11 is looked for last";
    RefuseRoomOld "refuse-room-old" "room for 7C + 2 bytes is enough to call";
    TakeRoomOld "take-room-old" "bytes are taken with 7C + 2 bytes free";
    Pad29Cells "pad-29-cells" "option 30 is accepted from 29 cells up, whose 9C bytes hold a line";
    ModifiedFree "modified-free" "27 needs no facility";

    // The two editions.
    AnyEdition "any-edition" "an edition that is neither is taken for September's";
    EarlierIsJune "earlier-is-june" "an edition below 731 is taken for June's";
    LaterIsSeptember "later-is-september" "an edition above 732 is taken for September's";
    Refuse12Before1 "refuse-12-before-1" "refusal 12 is looked for before 1";
    Refuse12After2 "refuse-12-after-2" "refusal 12 is looked for after 2";
    RefusedOpenSaysNamed "refused-open-says-named" "a refused open leaves the edition that it named";
    RefusedOpenSays731 "refused-open-says-731" "a refused open leaves June's edition";
    OpenKeepsEdition "open-keeps-edition" "open leaves the edition from before";
    DontEndsJune "dont-ends-june" "DONT 20 goes back to September's codes";
    EditionIgnored "edition-ignored" "June's codes and map are September's";
    JuneReadsSeptember "june-reads-september" "commands are read by September's codes in June";
    JuneReadsHigher "june-reads-higher" "June's later codes are one higher";
    JuneWritesSeptember "june-writes-september" "answers have September's codes in June";
    JuneKeysSeptember "june-keys-september" "keys answer with September's codes in June";
    JuneModified "june-modified" "27 is TRANSMIT MODIFIED in June too";
    June41Known "june-41-known" "41 is ERROR in June too";
    June40Unknown "june-40-unknown" "June's ERROR from the host draws ERROR 2";
    JuneError41 "june-error-41" "June's ERROR is sent as 41";
    JunePreface28 "june-preface-28" "June's DATA TRANSMIT is sent as 28";
    JuneSeparator39 "june-separator-39" "June's FIELD SEPARATOR is sent as 39";
    JuneFn40 "june-fn-40" "June's FN is sent as 40";
    JuneSuppress38 "june-suppress-38" "June's SUPPRESS PROTECTION is sent as 38";
    JuneErrorNamesMeaning "june-error-names-meaning" "June's ERROR names a command by its September code";
    JuneErrorNumbers "june-error-numbers" "June's ERROR has document 000's numbers";
    JuneFormatThree "june-format-three" "June's FORMAT DATA takes one map byte";
    JuneCountsByCode "june-counts-by-code" "June's parameters are counted by September's list";
    JuneBitsByCode "june-bits-by-code" "June's commands need the bits of September's codes";
    JuneValuesByCode "june-values-by-code" "June's values are checked by September's codes";
    JuneMap208 "june-map-208" "June's first format map is 208";
    JuneMap16 "june-map-16" "June's first format map is 16";
    JuneTells208 "june-tells-208" "June's first format map is told as 208";
    JuneAgrees208 "june-agrees-208" "June's format maps are met with 208";
    JuneTypingUnmarked "june-typing-unmarked" "typing marks nothing in June";
    JuneEraseKeepsMarks "june-erase-keeps-marks" "ERASE SCREEN leaves the marks in June";
    JuneMarksAbove1 "june-marks-above-1" "a mark above 1 is not refused in June";
    JuneAnyMarks "june-any-marks" "calls take a mark buffer of any length in June";
    JuneRoomOld "june-room-old" "room for 7C + 2 bytes is enough to call in June";
    JuneTakeRoomOld "june-take-room-old" "bytes are taken with 7C + 2 bytes free in June";
    JuneLetterSpace "june-letter-space" "an alphabetic cell refuses the space in June";
    JuneFormatByAttributes "june-format-by-attributes" "FORMAT DATA needs the bit of its protection in June";

    // Facilities: another bit, or one where none belongs.
    Bit6Incremental "bit-6-incremental" "6 and 7 need the bit of 8";
    Bit6Positive "bit-6-positive" "6 needs bit 0 of the edit map";
    Bit8Toroidal "bit-8-toroidal" "8 and 9 need the bit of 6";
    Bit13Chars "bit-13-chars" "13 and 14 need the bit of 15";
    Bit13ReadCursor "bit-13-read-cursor" "13 and 14 need the bit of 17";
    Bit14Chars "bit-14-chars" "14 alone needs the bit of 15";
    Bit8ReadCursor "bit-8-read-cursor" "8 to 11 need the bit of 17";
    Bit17Incremental "bit-17-incremental" "17 needs the bit of 8";
    Bit17Lines "bit-17-lines" "17 needs the bit of 13";
    Bit15BackTab "bit-15-back-tab" "15 and 16 need the bit of 19";
    Bit15Lines "bit-15-lines" "15 and 16 need the bit of 13";
    Bit16BackTab "bit-16-back-tab" "16 alone needs the bit of 19";
    Bit19Chars "bit-19-chars" "19 needs the bit of 15";
    Bit19Positive "bit-19-positive" "19 needs bit 0 of the edit map";
    EraseBitsByCode "erase-bits-by-code" "the erase bits stand in the order of the codes";
    EraseBitsReversed "erase-bits-reversed" "the erase bits stand in reverse";
    Bit30Field "bit-30-field" "30 needs the bit of 31";
    Bit30Screen "bit-30-screen" "30 needs the bit of 32";
    Bit31Line "bit-31-line" "31 needs the bit of 30";
    Bit32Line "bit-32-line" "32 needs the bit of 30";
    Bit32RestOfLine "bit-32-rest-of-line" "32 needs the bit of 33";
    Bit33Screen "bit-33-screen" "33 needs the bit of 32";
    Bit33Field "bit-33-field" "33 needs the bit of 34";
    Bit34Line "bit-34-line" "34 needs the bit of 33";
    Bit35EraseField "bit-35-erase-field" "35 needs the bit of 31";
    TransmitBitsShifted "transmit-bits-shifted" "22 to 26 need bits 5 to 1 of the transmit map";
    Bit22DataTransmit "bit-22-data-transmit" "22 needs the bit of 28";
    Bit22Field "bit-22-field" "22 needs the bit of 23";
    Bit23Line "bit-23-line" "23 needs the bit of 22";
    Bit23Screen "bit-23-screen" "23 needs the bit of 24";
    Bit24Field "bit-24-field" "24 needs the bit of 23";
    Bit24Line "bit-24-line" "24 needs the bit of 25";
    Bit25Screen "bit-25-screen" "25 needs the bit of 24";
    Bit25Field "bit-25-field" "25 needs the bit of 26";
    Bit26Line "bit-26-line" "26 needs the bit of 25";
    Bit21DataTransmit "bit-21-data-transmit" "21 needs the bit of 28";
    Bit21OnOff "bit-21-on-off" "21 needs the bit of 38";
    Bit21Alphabetic "bit-21-alphabetic" "21 needs the bit of alphabetic protection";
    Bit35OnOff "bit-35-on-off" "35 needs the bit of 38";
    Bit38Protection "bit-38-protection" "38 needs the bit of 21";
    Bit38Bit7 "bit-38-bit-7" "38 needs bit 7 of its map";
    Bit37Blinking "bit-37-blinking" "37 needs bit 3 of its map";
    Bit37SecondByte "bit-37-second-byte" "37 needs bit 4 of the other format map";
    Bit37Fn "bit-37-fn" "37 needs the bit of FN";
    Bit27Fn "bit-27-fn" "27 needs the bit of FN";
    Bit27Repeat "bit-27-repeat" "27 needs the bit of 37";
    Bit27LightPen "bit-27-light-pen" "27 needs bit 5 of its map";
    Bit27OnOff "bit-27-on-off" "27 needs the bit of 38";
    Bit27Protection "bit-27-protection" "27 needs the bit of 21";
    Bit27DataTransmit "bit-27-data-transmit" "27 needs the bit of 28";
    Bit37Modified "bit-37-modified" "37 needs the bit of 27";
    MoveGoverned "move-governed" "5 needs the bit of 8";
    MovePositive "move-positive" "5 needs bit 0 of the edit map";
    HomeGoverned "home-governed" "12 needs the bit of 8";
    ScreenGoverned "screen-governed" "20 needs the bit of 28";
    EraseScreenGoverned "erase-screen-governed" "29 needs the bit of 32";
    FormatGoverned "format-governed" "36 needs the bit of 21";
    ErrorGoverned "error-governed" "41 needs the bit of FN";
}

impl Variant {
    /// What a slip of June's alone comes to in an edition.
    pub fn in_edition(self, edition: Edition) -> Variant {
        let june = match self {
            Variant::JuneTypingUnmarked => Variant::TypingUnmarked,
            Variant::JuneEraseKeepsMarks => Variant::EraseScreenKeepsMarks,
            Variant::JuneMarksAbove1 => Variant::MarksAbove1,
            Variant::JuneAnyMarks => Variant::AnyMarks,
            Variant::JuneRoomOld => Variant::RefuseRoomOld,
            Variant::JuneTakeRoomOld => Variant::TakeRoomOld,
            Variant::JuneLetterSpace => Variant::ClassLetterSpace,
            Variant::JuneFormatByAttributes => Variant::FormatByAttributes,
            _ => return self,
        };
        match edition {
            Edition::June => june,
            Edition::September => Variant::None,
        }
    }
}

/// The variant of that name.
pub fn named(name: &str) -> Option<Variant> {
    let found = ALL.iter().find(|(_, known, _)| *known == name)?;
    Some(found.0)
}

//! Opcodes under the Rust's names, with their numbers as docs/OPCODES.md lists them.
#![allow(non_upper_case_globals, missing_docs)]

use core::fmt;

/// An opcode by its number. It is shown by its name.
///
/// ```
/// use turniploom::{Op, op::AddR};
/// assert_eq!((format!("{AddR:?}"), AddR.number(), Op::named("AddR")), ("AddR".into(), 61, Some(AddR)));
/// assert_eq!(format!("{:?} {:?}", Op::OTHER, Op(191)), "Other Op191");
/// ```
#[repr(transparent)]
#[derive(Clone, Copy, Default, PartialEq, Eq, PartialOrd, Ord, Hash)]
pub struct Op(pub u16);

/// What is known of an opcode besides its number.
#[derive(Clone, Copy)]
struct Facts {
    name: &'static str,
    jump: bool,
    register: bool,
    folds: bool,
}

macro_rules! opcodes {
    ($($name:ident = $number:literal $($fact:ident)*;)*) => {
        $(pub const $name: Op = Op($number);)*

        /// Every opcode with a name, in the order of the Rust's enum.
        pub const ALL: [Op; 190] = [$($name),*];

        /// The facts of each number up to the last.
        const FACTS: [Facts; 191] = {
            let mut facts = [Facts { name: "Other", jump: false, register: false, folds: false }; 191];
            $(
                facts[$number].name = stringify!($name);
                $(facts[$number].$fact = true;)*
            )*
            facts
        };
    };
}

opcodes! {
    LoadConst = 2; LoadName = 4; StoreName = 6; Call = 8; PopTop = 10; ReturnValue = 12; BuildString = 14; CallPrint = 16;
    CallLen = 18; FormatValue = 20; CallAbs = 22; Minus = 24 folds; CallStr = 26; CallInt = 28; CallRange = 30; Phi = 32;
    CallChr = 34; CallType = 36; MakeFunction = 38; Add = 40 folds; Sub = 42 folds; Mul = 44 folds; Div = 46 folds;
    Eq = 48 folds; CallFloat = 50; CallBool = 52; CallRound = 54; CallMin = 56; CallMax = 58; CallSum = 60; CallEnumerate = 62;
    CallZip = 64; CallList = 66; CallTuple = 68; CallDict = 70; CallIsInstance = 72; CallSet = 74; CallInput = 76; CallOrd = 78;
    BuildDict = 80; BuildList = 82; NotEq = 84 folds; Lt = 86 folds; Gt = 88 folds; LtEq = 90 folds; GtEq = 92 folds;
    Not = 94 folds; JumpIfFalse = 96 jump; Jump = 98 jump; GetIter = 100; ForIter = 102 jump; GetItem = 104; Mod = 106 folds;
    Pow = 108; FloorDiv = 110 folds; LoadTrue = 112; LoadFalse = 114; LoadNone = 116; LoadAttr = 118; StoreAttr = 120;
    BuildSlice = 122; SetupExcept = 124 jump; PopExcept = 126; Raise = 128; BitAnd = 130 folds; BitOr = 132 folds;
    BitXor = 134 folds; BitNot = 136; Shl = 138 folds; Shr = 140 folds; In = 142; NotIn = 144; Is = 146; IsNot = 148;
    UnpackSequence = 150; BuildTuple = 152; WithEnter = 154; WithExit = 156; Yield = 158; SetupFinally = 160 jump;
    BeginFinally = 162; EndFinally = 164; Del = 166; Assert = 168; UnpackArgs = 170; ListAppend = 172; SetAdd = 174;
    MapAdd = 176; BuildSet = 178; LoadEllipsis = 180; MakeCoroutine = 182; StoreItem = 184; Dup2 = 186;
    JumpIfFalseOrPop = 188 jump; JumpIfTrueOrPop = 190 jump; Dup = 1; CallMethod = 3; CallMethodArgs = 5; CallAll = 7;
    CallAny = 9; CallBin = 11; CallOct = 13; CallHex = 15; CallDivmod = 17; CallPow = 19; CallRepr = 21; CallReversed = 23;
    PopIter = 25; DelItem = 27; DelAttr = 29; DictUpdate = 31; SetUpdate = 33; ListExtend = 35; MatchSeq = 37; InPlaceAdd = 39;
    InPlaceSub = 41; LoadYieldFrom = 43; BeginArgs = 45; WithJudge = 47; Swap = 49; MatchClass = 51; MatchMap = 53;
    CallSpread = 55; Move = 57 register; PushRegs = 59 register; AddR = 61 register; SubR = 63 register; MulR = 65 register;
    DivR = 67 register; ModR = 69 register; FloorDivR = 71 register; InPlaceAddR = 73 register; InPlaceSubR = 75 register;
    BitAndR = 77 register; BitOrR = 79 register; BitXorR = 81 register; ShlR = 83 register; ShrR = 85 register;
    PowR = 87 register; EqR = 89 register; NotEqR = 91 register; LtR = 93 register; LtEqR = 95 register; GtR = 97 register;
    GtEqR = 99 register; MinusR = 101 register; NotR = 103 register; JumpIfFalseR = 105 register; ReturnR = 107 register;
    GetItemR = 109 register; StoreItemR = 111 register; GetAttrR = 113 register; SetAttrR = 115 register;
    LoadGlobalR = 117 register; StoreGlobalR = 119 register; LoadCellR = 121 register; StoreCellR = 123 register;
    InR = 125 register; NotInR = 127 register; IsR = 129 register; IsNotR = 131 register; LenR = 133 register;
    ListAppendR = 135 register; SetAddR = 137 register; MapAddR = 139 register; UnpackR = 141 register;
    StoreTopR = 143 register; ForIterR = 145 register; JumpUnlessEq = 147 register; JumpUnlessNotEq = 149 register;
    JumpUnlessLt = 151 register; JumpUnlessLtEq = 153 register; JumpUnlessGt = 155 register; JumpUnlessGtEq = 157 register;
    CallR = 159 register; CallMethodR = 161 register; ArgsR = 163 register; AppendR = 165 register; OwnResetR = 167 register;
    CallGlobalR = 169 register; CallSectionR = 171 register; SectionR = 173 register; LoadGlobalAtR = 175 register;
    StoreGlobalAtR = 177 register; UnbindR = 179 register; SuperR = 181 register; WrapCellR = 183 register;
    CallValueR = 185 register; CallSpreadR = 187 register; ListPushR = 189 register;
}

impl Op {
    /// Any opcode that is not named here.
    pub const OTHER: Op = Op(0);

    /// The number.
    pub const fn number(self) -> u16 { self.0 }

    /// The Rust's name, if it has one.
    pub const fn name(self) -> Option<&'static str> { if self.0 == 0 || self.0 > 190 { None } else { Some(FACTS[self.0 as usize].name) } }

    /// The opcode of that name. A host that has the Rust's own enum comes by the number so; an opcode with no name here is [`Op::OTHER`].
    pub fn named(name: &str) -> Option<Op> { ALL.into_iter().find(|o| o.name() == Some(name)) }

    /// `is_jump` of the Rust: the operand of a chunk's instruction is a position.
    pub const fn is_jump(self) -> bool { self.0 <= 190 && FACTS[self.0 as usize].jump }

    /// `is_register` of the Rust: a register form.
    pub const fn is_register(self) -> bool { self.0 <= 190 && FACTS[self.0 as usize].register }

    /// Whether it is an operator that folds.
    pub const fn folds(self) -> bool { self.0 <= 190 && FACTS[self.0 as usize].folds }

    /// Whether it is one of the four calls, which can be wide: CallGlobalR, CallR, CallMethodR, CallSpreadR.
    pub const fn is_call(self) -> bool { matches!(self, CallGlobalR | CallR | CallMethodR | CallSpreadR) }
}

impl From<u16> for Op {
    fn from(number: u16) -> Op { Op(number) }
}

impl From<Op> for u16 {
    fn from(op: Op) -> u16 { op.0 }
}

impl fmt::Display for Op {
    fn fmt(&self, f: &mut fmt::Formatter<'_>) -> fmt::Result {
        match self.name() {
            Some(name) => f.write_str(name),
            None if *self == Op::OTHER => f.write_str("Other"),
            None => write!(f, "Op{}", self.0),
        }
    }
}

impl fmt::Debug for Op {
    fn fmt(&self, f: &mut fmt::Formatter<'_>) -> fmt::Result { fmt::Display::fmt(self, f) }
}

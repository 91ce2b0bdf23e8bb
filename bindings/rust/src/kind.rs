//! The 93 kinds of tokens and their groups.
use core::fmt;

/// What a kind of token is to a reader, as for a panel's colours.
#[derive(Debug, Clone, Copy, PartialEq, Eq, Hash)]
pub enum Group {
    /// A word of the language, as `fn`.
    Keyword,
    /// The name of a built-in type, as `u32`.
    Type,
    /// A value written out: a number, string or byte literal, `true`, `false`, or a quad value.
    Literal,
    /// A word that is none of the language's.
    Name,
    /// A sign, as `->`.
    Sign,
    /// Indent, Dedent and Newline, which have no text of their own.
    Layout,
}

/// Declares the kinds in the order of their numbers, each with its group and what it stands for.
macro_rules! kinds {
    ($($name:ident $group:ident $text:literal,)*) => {
        /// The kind of a token, under its name in the Rust original. The numbers are 0 (`KwFn`) to 92 (`Newline`).
        #[derive(Debug, Clone, Copy, PartialEq, Eq, Hash, PartialOrd, Ord)]
        #[repr(u8)]
        pub enum TokenKind {
            $(#[doc = $text] $name,)*
        }

        impl TokenKind {
            /// Every kind; a kind's number is its place.
            pub const ALL: [TokenKind; 93] = [$(TokenKind::$name,)*];

            /// The kind's name, as `KwFn`.
            pub fn name(self) -> &'static str {
                match self {
                    $(TokenKind::$name => stringify!($name),)*
                }
            }

            /// The kind's group.
            pub fn group(self) -> Group {
                match self {
                    $(TokenKind::$name => Group::$group,)*
                }
            }
        }
    };
}

kinds! {
    KwFn Keyword "`fn`",
    KwRequires Keyword "`requires`",
    KwEnsures Keyword "`ensures`",
    KwInvariant Keyword "`invariant`",
    KwRecord Keyword "`record`",
    KwSchema Keyword "`schema`",
    KwEnum Keyword "`enum`",
    KwConst Keyword "`const`",
    KwTrait Keyword "`trait`",
    KwImpl Keyword "`impl`",
    KwLet Keyword "`let`",
    KwFor Keyword "`for`",
    KwIn Keyword "`in`",
    KwGuard Keyword "`guard`",
    KwIf Keyword "`if`",
    KwElse Keyword "`else`",
    KwIs Keyword "`is`",
    KwWhile Keyword "`while`",
    KwLoop Keyword "`loop`",
    KwBreak Keyword "`break`",
    KwContinue Keyword "`continue`",
    KwWhere Keyword "`where`",
    KwWith Keyword "`with`",
    KwReturn Keyword "`return`",
    KwMatch Keyword "`match`",
    KwTrue Literal "`true`",
    KwFalse Literal "`false`",
    KwSystem Keyword "`System`",
    KwEntity Keyword "`Entity`",
    KwLaw Keyword "`Law`",
    KwWhen Keyword "`when` or `When`",
    KwPulse Keyword "`Pulse`",
    KwProfile Keyword "`Profile`",
    KwImport Keyword "`Import`",
    KwRef Keyword "`ref`",
    TyQuad Type "`quad`",
    TyBool Type "`bool`",
    TyI32 Type "`i32`",
    TyU32 Type "`u32`",
    TyFx Type "`fx`",
    TyF64 Type "`f64`",
    QuadN Literal "`N`",
    QuadF Literal "`F`",
    QuadT Literal "`T`",
    QuadS Literal "`S`",
    Ident Name "A word that is no keyword.",
    Num Literal "A number, as `0x1F`, `1_000` or `2.5fx`; [`number_parts`](crate::number_parts) tells its suffix apart.",
    ByteLit Literal "A byte literal, as `b'\\n'`.",
    String Literal "A string, quotes included.",
    AndAnd Sign "`&&`",
    OrOr Sign "`||`",
    PipeForward Sign "`|>`",
    Pipe Sign "`|`",
    AndAndAssign Sign "`&&=`",
    OrOrAssign Sign "`||=`",
    PlusAssign Sign "`+=`",
    MinusAssign Sign "`-=`",
    StarAssign Sign "`*=`",
    SlashAssign Sign "`/=`",
    PercentAssign Sign "`%=`",
    Plus Sign "`+`",
    Minus Sign "`-`",
    Star Sign "`*`",
    Slash Sign "`/`",
    Percent Sign "`%`",
    Bang Sign "`!`",
    Arrow Sign "Has no spelling; `->` is `Implies`.",
    Implies Sign "`->`",
    FatArrow Sign "`=>`",
    EqEq Sign "`==`",
    Ne Sign "`!=`",
    Le Sign "`<=`",
    Ge Sign "`>=`",
    DotDot Sign "`..`",
    DotDotEq Sign "`..=`",
    Assign Sign "`=` or `:=`",
    LBrace Sign "`{`",
    RBrace Sign "`}`",
    LParen Sign "`(`",
    RParen Sign "`)`",
    Semi Sign "`;`",
    Comma Sign "`,`",
    Colon Sign "`:`",
    PathSep Sign "`::`",
    Dot Sign "`.`",
    LBracket Sign "`[`",
    RBracket Sign "`]`",
    LAngle Sign "`<`",
    RAngle Sign "`>`",
    Underscore Sign "`_`",
    Indent Layout "A level opens.",
    Dedent Layout "A level closes.",
    Newline Layout "A line ends.",
}

impl TokenKind {
    /// The kind's number, 0 to 92.
    pub fn number(self) -> u32 {
        self as u32
    }

    /// The kind of this number.
    ///
    /// ```
    /// use lexpage::TokenKind;
    /// assert_eq!(TokenKind::from_number(45), Some(TokenKind::Ident));
    /// assert_eq!(TokenKind::from_number(93), None);
    /// ```
    pub fn from_number(number: u32) -> Option<TokenKind> {
        TokenKind::ALL.get(number as usize).copied()
    }
}

impl fmt::Display for TokenKind {
    fn fmt(&self, f: &mut fmt::Formatter<'_>) -> fmt::Result {
        f.pad(self.name())
    }
}

//! The Lexer's calls.

/// How a call's value stands in the words.
#[derive(Clone, Copy, Debug, PartialEq, Eq)]
pub enum Shape {
    Nothing,
    Number,
    Signed,
    Bool,
    Bytes4,
    Bytes8,
    Part,
    Colour,
    Token,
}

macro_rules! calls {
    ($($call:ident $name:ident $shape:ident,)*) => {
        #[derive(Clone, Copy, Debug, PartialEq, Eq)]
        pub enum Call {
            $($call,)*
            ReadBytes(usize),
            SkipValue(u16),
        }

        impl Call {
            /// Those that take no number beside the cursor.
            pub const PLAIN: &[Call] = &[$(Call::$call),*];

            pub fn name(self) -> &'static str {
                match self {
                    $(Call::$call => stringify!($name),)*
                    Call::ReadBytes(_) => "read_bytes",
                    Call::SkipValue(_) => "skip_value",
                }
            }

            pub fn shape(self) -> Shape {
                match self {
                    $(Call::$call => Shape::$shape,)*
                    Call::ReadBytes(_) => Shape::Part,
                    Call::SkipValue(_) => Shape::Nothing,
                }
            }
        }
    };
}

calls! {
    ReadId read_id Number,
    NextId next_id Number,
    PeekId peek_id Number,
    ReadToken read_token Token,
    NextToken next_token Token,
    PeekToken peek_token Token,
    ReadString read_string Part,
    ReadBool read_bool Bool,
    ReadLookupU8 read_lookup_u8 Number,
    ReadLookupU16 read_lookup_u16 Number,
    ReadLookupU24 read_lookup_u24 Number,
    ReadLookupU32 read_lookup_u32 Number,
    ReadU32 read_u32 Number,
    ReadU64 read_u64 Number,
    ReadI32 read_i32 Signed,
    ReadI64 read_i64 Signed,
    ReadF32 read_f32 Bytes4,
    ReadF64 read_f64 Bytes8,
    ReadRgb read_rgb Colour,
    SkipContainer skip_container Nothing,
    Remainder remainder Part,
    Position position Number,
}

impl std::fmt::Display for Call {
    fn fmt(&self, f: &mut std::fmt::Formatter<'_>) -> std::fmt::Result {
        match self {
            Call::ReadBytes(count) => write!(f, "read_bytes {count}"),
            Call::SkipValue(id) => write!(f, "skip_value {id:#06x}"),
            plain => f.write_str(plain.name()),
        }
    }
}

use std::fmt;

macro_rules! rules {
    ($($code:ident $name:ident $text:literal)*) => {
        /// A rule that a file may violate. docs/RULES.md of dwv says what violates each one.
        #[derive(Clone, Copy, Debug, PartialEq, Eq, Hash, PartialOrd, Ord)]
        #[non_exhaustive]
        pub enum Rule {
            $(#[doc = concat!(stringify!($code), ": ", $text)] $name,)*
        }

        impl Rule {
            /// Every rule, in the order in which groups are checked.
            pub const ALL: &'static [Rule] = &[$(Rule::$name),*];

            /// The code, as `G1`.
            pub const fn code(self) -> &'static str {
                match self {
                    $(Rule::$name => stringify!($code),)*
                }
            }

            /// The name, as `UndeclaredCode`.
            pub const fn name(self) -> &'static str {
                match self {
                    $(Rule::$name => stringify!($name),)*
                }
            }
        }
    };
}

// The rules are made by docs/make-rules.py from docs/rules.tsv.
rules! {
    E1 TooLarge "the file has more than 4,294,967,296 bytes, or one of the six sections has more than \
        1,073,741,824."
    E2 NotElf64 "the file has fewer than 64 bytes, or the first seven are not those of a 64-bit little-endian ELF \
        file of version 1."
    E3 NotLinked "the file is neither an executable (type 2) nor a shared object (type 3)."
    E4 SectionTable "there are no section headers, they do not have 64 bytes each, they pass the file's end, or \
        the section of names is missing: its number is 0 or not that of a header, or it has type 8 or passes the \
        file's end."
    E5 SectionName "the name of a section starts outside the section of names, or no zero byte ends it there."
    E6 SectionRange "one of the six sections passes the file's end."
    E7 Compressed "one of the six sections is compressed (its flags have 0x800), or the name of a section starts \
        with `.zdebug_`."
    E8 SectionTwice "one of the six sections has the name of an earlier one."
    E9 NoInfo "no section is named `.debug_info`."
    E10 NoBits "one of the six sections has no bytes in the file (type 8)."
    A1 AbbrevCut "a part of a declaration, or the end of the table, passes the end of `.debug_abbrev`."
    A2 AbbrevNumber "a number in a table has more than 10 bytes or more than 64 bits."
    A3 CodeTwice "an earlier declaration of the table has the code."
    A4 BadTag "a tag is 0 or above 0xffff."
    A5 BadChildren "the byte that says whether there are children is neither 0 nor 1."
    A6 BadPair "one of an attribute and its form alone is 0, or the attribute is above 0xffff."
    A7 UnknownForm "no form has the code."
    A8 AttributeTwice "a declaration has an attribute twice."
    U1 UnitCut "a unit passes the end of `.debug_info`, or its header passes the unit's end."
    U2 Not32Bit "the unit's length is 0xfffffff0 or more, which means 64-bit DWARF or is reserved."
    U3 BadVersion "the version is neither 4 nor 5."
    U4 BadUnitType "the type of a unit of version 5 is not compile (1), type (2) or partial (3)."
    U5 BadAddressSize "an address has neither 4 nor 8 bytes."
    U6 BadAbbrevOffset "no byte of `.debug_abbrev` is at the table's offset."
    U7 NoUnitEntry "a null or nothing is in place of the unit's first entry."
    U8 WrongUnitTag "the first entry's tag is not the one of the unit's type."
    U9 LeftOver "something other than nulls follows the unit's tree."
    G1 UndeclaredCode "the unit's table has no declaration with the code."
    G2 Cut "a code or a value passes the unit's end."
    G3 BadNumber "a code, or a number in a value, has more than 10 bytes or more than 64 bits."
    G4 BadIndirect "an indirect value names no form, a form that it may not name, or a form that the unit's \
        version does not have."
    G5 FormVersion "the unit has version 4, and version 4 does not have the form of an attribute."
    K1 WrongClass "the value has none of the classes that the attribute may have."
    S1 BadStrBase "the header before the unit's base in `.debug_str_offsets` is malformed, or the unit names no \
        base and has an indexed string."
    S2 StrIndex "the index of a string is not below the number of slots of the unit's contribution to \
        `.debug_str_offsets`."
    S3 StringEnd "a string starts outside its section, or no zero byte ends it there."
    S4 BadAddrBase "the header before the unit's base in `.debug_addr` is malformed, or the unit names no base and \
        has an indexed address."
    S5 AddrIndex "the index of an address is not below the number of slots of the unit's contribution to \
        `.debug_addr`."
    R1 NoEntry "no entry starts at the offset that a reference refers to, in its unit or, in form ref_addr, in \
        `.debug_info`."
    R2 WrongKind "a reference has a form that its attribute does not permit, or refers to an entry of a kind that \
        it does not permit."
    R3 NotNextSibling "a sibling attribute refers to another entry than the next sibling, or there is no next \
        sibling."
    R4 NoSignature "no type unit has the signature."
    R5 SignatureTwice "an earlier type unit has the signature."
    R6 BadTypeOffset "no type of the type unit starts at its type offset."
    Y1 MissingType "an array or a plain member has neither a type nor a DW_AT_specification nor a \
        DW_AT_abstract_origin."
    Y2 BadCount "a dimension has a known count below 0."
    C1 ContainsItself "a type contains itself by value."
    Z1 NoSize "a base type, or a structure or union that is not declared, has no size; or a byte size that is \
        read, or the stride of an array without a byte size, is negative."
    Z2 SizeTooGreat "a size is 2^63 or more."
    Z3 MemberOutside "a plain member ends outside its structure or union."
    Z4 EnumSize "an enumeration that is not declared has neither a byte size nor a type nor a DW_AT_specification \
        nor a DW_AT_abstract_origin, or its byte size is not the size of its type."
    L1 LineOffset "no byte of .debug_line is at the offset."
    L2 LineCut "a part of the header passes the program's end, or the program passes the section's."
    L3 Line64 "the length means 64-bit DWARF or is reserved."
    L4 LineVersion "the version is not one of 2 to 5."
    L5 LineAddressSize "an address has another size than in the unit, or a segment selector has bytes."
    L6 LineHeaderLength "the tables do not end where the header's length says that the opcodes start."
    L7 LineParameter "a field has a number that it may not have."
    L8 OpcodeLength "a standard opcode has another count of operands."
    L9 LineForm "a format has a content twice or in a form that it may not have, or lacks a path where there are \
        entries."
    L10 LineString "a string starts outside its section, or no zero byte ends it there."
    L11 LineDirectory "a file is in a directory that the program does not have."
    L12 LineNumber "a number has more than 10 bytes or more than 64 bits."
    L13 ProgramsMeet "the program starts inside another one that a unit names."
    M1 OpcodeCut "an opcode passes the program's end."
    M2 OpcodeNumber "an operand has more than 10 bytes or more than 64 bits."
    M3 ExtendedLength "the length of an extended opcode is not that of its operands."
    M4 RowFile "the program does not have the file of a row."
    M5 RowDescends "a row has a smaller address than the row before it in its sequence."
    M6 RowAddress "an address is too great."
    M7 RowLine "a line or a column is below 0 or too great."
    M8 NotEnded "the last sequence has no end."
    F1 NoFile "an attribute that names a file has a value that is no file of the unit's program."
    X1 BadBounds "DW_AT_high_pc is without DW_AT_low_pc or with DW_AT_ranges, or one of the three has a value of \
        another class."
    X2 BadHigh "DW_AT_high_pc is below DW_AT_low_pc, or passes the greatest address."
    X3 NoList "no range list is at the offset or the index."
    X4 BadList "a range list passes the end of its section, or has a number of more than 64 bits or an entry of no \
        kind."
    X5 NoBase "an entry of a range list counts from a base address, and there is none."
    X6 BadRange "an entry of a range list ends before it starts, or passes the greatest address."
    X7 RangeIndex "an address has an index that is not below the count of the unit's contribution to .debug_addr."
    X8 RangesMeet "two ranges of an entry share an address of the program's code, and differ."
    X9 OutsideUnit "an address of a function is not one of its unit."
    X10 OutsideParent "an address of an inlined function is not one of the function that it is inlined in."
    X11 InlinedMeet "two functions that are inlined in one share an address."
    X12 FunctionsMeet "two functions of a unit share an address, and their areas that have it differ."
    X13 ListBudget "the range list of an entry is longer than what is left of the caller's budget."
}

impl Rule {
    /// The rule with this code.
    pub fn from_code(code: &str) -> Option<Rule> {
        Rule::ALL.iter().copied().find(|rule| rule.code() == code)
    }
}

impl fmt::Display for Rule {
    fn fmt(&self, f: &mut fmt::Formatter<'_>) -> fmt::Result {
        write!(f, "{} {}", self.code(), self.name())
    }
}

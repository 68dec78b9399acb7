"""Names of types that a compiler knows without a declaration, or that C does not have."""
from dwv_tools.c_layout import Extent

# Names that gcc and clang know without a declaration, and what they take.
KNOWN = {"__builtin_va_list": Extent(24, 8), "_Float16": Extent(2, 2), "__bf16": Extent(2, 2)}
KNOWN |= dict.fromkeys(("__int128_t", "__uint128_t", "__float128", "__ibm128"), Extent(16, 16))
# Names that only gcc knows, what they take, and what they are for clang. It has the decimal ones as words, and refuses
# them, so that these become macros.
GCC_ONLY = {
    "_Float32": (4, "typedef float _Float32;"), "_Float64": (8, "typedef double _Float64;"),
    "_Float32x": (8, "typedef double _Float32x;"), "_Float64x": (16, "typedef long double _Float64x;"),
    "_Float128": (16, "typedef __float128 _Float128;"),
    "_Decimal32": (4, "struct dwv_Decimal32 { unsigned int bits; };\n#define _Decimal32 struct dwv_Decimal32"),
    "_Decimal64": (8, "struct dwv_Decimal64 { unsigned long bits; };\n#define _Decimal64 struct dwv_Decimal64"),
    "_Decimal128": (16, "struct dwv_Decimal128 { unsigned long bits[2] __attribute__((aligned(16))); };\n"
                        "#define _Decimal128 struct dwv_Decimal128"),
}
# Base types that C does not have, or only since 2023: what they take, what they are, and where they are written.
NOT_CPP = "!defined(__cplusplus)"
ALIASES = {
    "bool": (1, "_Bool", f"{NOT_CPP} && !defined(bool) && (!defined(__STDC_VERSION__) || __STDC_VERSION__ < 202000L)"),
    "wchar_t": (4, "__WCHAR_TYPE__", NOT_CPP), "char8_t": (1, "unsigned char", "!defined(__cpp_char8_t)"),
    "char16_t": (2, "__CHAR16_TYPE__", NOT_CPP), "char32_t": (4, "__CHAR32_TYPE__", NOT_CPP),
}

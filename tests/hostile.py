"""What texts that grow are made of: names, strings, numbers, templates, regular expressions and trivia, odd ones among them."""

NAMES = ["a", "b", "c", "x", "y", "$", "_", "f", "fo", "$1", "_a9"]
ODD_NAMES = [
    "é", "ñandú", "𠮷", "ℼ", "a\u200d", "a\u200cb", "ａ", "中文", "\\u0061", "\\u{62}c", "a\\u{1d7d8}", "\\u{00000063}", "x\\u0078", "\\u{20BB7}",
    "async", "of", "get", "set", "as", "from", "target", "meta", "accessor", "using", "undefined", "constructor", "__proto__", "prototype", "type",
    "arguments", "eval", "NaN", "Infinity", "assert", "default_", "ifx", "in_", "nullish", "truey", "newt", "thisx", "defer", "source", "sent",
]  # fmt: skip
# names in code that is not strict alone
LOOSE_NAMES = ["static", "implements", "interface", "package", "private", "protected", "public"]
WORDS = [*NAMES, *ODD_NAMES, *LOOSE_NAMES] + """if in do var for new try this else case void with enum while break catch throw const yield class super
    return typeof delete switch export import default finally extends function continue debugger instanceof null true false await let
    static""".split()
STRING_PARTS = [
    "a", "b ", "é", "☃", "😀", "$", "${", "`", "\\n", "\\t", "\\0 ", "\\x41", "\\xfF", "\\u0041", "\\u{1F600}", "\\u{0}", "\\ud83d", "\\udE00",
    "\\ud83d\\ude00",
    "\\\n", "\\\r\n", "\\\u2028", "\\'", '\\"', "\\\\", "\\a", "\\/", "</script>", "</SCRIPT", "<!--", "-->", "//", "/*", "*/", "\u2028", "\u2029",
    "\x7f", "\x01", "\xa0",
    "\ufeff", "\\v\\b\\f\\r", "use strict", "0", "9", "\\0a", "\t", "\U0010ffff", "\ufffe", "\u0301", "\u200d", "[", "]", "\\u{10FFFF}", "{", "}",
    "@", "#",
]  # fmt: skip
OLD_STRING_PARTS = ["\\01", "\\7", "\\377", "\\400", "\\8", "\\9", "\\08", "\\0\\1"]
NUMBERS = """0 1 2 9 10 100 1000 10000 123456 1e3 1e21 1e1000 1e-7 5e-324 1E+5 0.5 .5 5. 0. .0 1.50 0.001 0.0000001 1_000 1_0.0_1 0x1F 0XFF
    0xffffffffffffffffffff
    0b101 0B1 0o17 0O7 0x1_0 0n 1n 10n 0xFn 0b11n 0o7n 123456789012345678901234567890 123456789012345678901234567890n 9007199254740993
    1.7976931348623157e308
    4294967296 0e0 0.0e5 1e00 100e-2 12.50e+01 0x0 1_2n 99999999999999999999e99999999999999999999""".split()
OLD_NUMBERS = "00 010 017 0777 08 09 018 08.5 09e1 0129".split()
TEMPLATE_PARTS = [
    "a", "b c", "é", "😀", "$", "$$", "{", "}", "\\`", "\\${", "$\\{", "\\$", "\n", "\r\n", "\r", "\u2028", "\\n", "\\x41", "\\u0041", "\\u{41}",
    "\\\\", "\\\n", "'", '"',
    "</script>", "<!--", "-->", "//", "/*", "\\0", "\t", "\\ud800", "\ufeff",
]  # fmt: skip
BAD_ESCAPES = ["\\u", "\\x", "\\x4", "\\01", "\\9", "\\u{", "\\u{110000}", "\\u{}", "\\u00", "\\xg"]
REG_EXPS = [
    "a", "=", "=a", "[/]", "\\/", "[\\]/]", "[^/]", "(?:a|b)*", "(a)\\1", "^$", "a{1,2}?", "\\d+\\.\\d*", "(?<n>a)\\k<n>", "é", "😀", "[😀]",
    "(?=a)(?!b)", "\\u0041", "[a-z]",
    " ", "`", "'", '"', "\\/\\/", "(?<=a)(?<!b)", "\\cA", "<!--", "-->", "<\\/script>", "\\*", "[*]", "\\x41", ".", "[]", "[^]", "$",
]  # fmt: skip
FLAGS = ["", "", "", "g", "i", "gi", "m", "s", "u", "y", "d", "gimsuyd", "v"]
SPACES = [" "] * 12 + ["  ", "\t", "\xa0", "\ufeff", "\u3000", "\v", "\f", "/**/", "/* a */", "/*//*/", "/***/"]
BREAKS = ["\n"] * 8 + ["\r\n", "\r", "\u2028", "\u2029", "//\n", "// a\r\n", "/*\n*/", "//*/\u2028", "/*\u2029*/ "]
HTML_BREAKS = ["<!-- a\n", "\n--> a\n", "/*\n*/-->\n"]

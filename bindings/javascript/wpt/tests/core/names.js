const GOOD_NAMES = ["p", "a:b", "x<", "a'b", ":a", "_1", "\u00e9\u00e8"];
const BAD_NAMES = ["", "1a", "a b", "a>", "a/b", "-a", ":'"];

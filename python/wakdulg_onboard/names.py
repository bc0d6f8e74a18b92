"""Which names a new user may have: none that looks like another's, or like none."""
from __future__ import annotations

import unicodedata

# The scripts that are recommended for names (Unicode Standard Annex 31, table 5), by the first word of their letters'
# names in the Unicode Character Database. In those of a set letters of all of its scripts stand together.
SCRIPTS = [{word} for word in (
    "ARABIC ARMENIAN BENGALI CYRILLIC DEVANAGARI ETHIOPIC GEORGIAN GREEK GUJARATI GURMUKHI HEBREW KANNADA KHMER LAO "
    "LATIN MALAYALAM MYANMAR ORIYA SINHALA TAMIL TELUGU THAANA THAI TIBETAN").split()]
SCRIPTS += [{"CJK", "HIRAGANA", "KATAKANA", "KATAKANA-HIRAGANA"}, {"CJK", "HANGUL"}, {"CJK", "BOPOMOFO"}]
# Letters of Greek and Cyrillic that look like letters of Latin. A name of these alone looks like a name in Latin.
LIKE_LATIN = frozenset("ΑΒΕΖΗΙΚΜΝΟΡΤΥΧαγικνορτυχϲϳϹͿ" "АВЕКМНОРСТУХЅІЈԚԜҮҺабвегекморсстухѕіјԛԝүһԁӏӀ")
# Characters that show nothing, though their category doesn't say so.
SHOW_NOTHING = frozenset("\u034f\u115f\u1160\u17b4\u17b5\u3164\uffa0")
# The first and the last one of variation selectors.
SELECTORS = [("\ufe00", "\ufe0f"), ("\u180b", "\u180f"), ("\U000e0100", "\U000e01ef")]


def shows_nothing(character: str) -> bool:
    """Returns whether a character shows nothing, by its category or though it has another one."""
    is_selector = any(first <= character <= last for first, last in SELECTORS)
    return unicodedata.category(character)[0] in "CZ" or character in SHOW_NOTHING or is_selector


def script_of(letter: str) -> str:
    """Returns the first word of a letter's name, which is that of its script."""
    return unicodedata.name(letter, "?").split(" ")[0]


def is_of_latin(letter: str) -> bool:
    """Returns whether a letter of Latin is of a language's alphabet. Letters of phonetics look like others."""
    return letter < "\u0250" or "\u1e00" <= letter <= "\u1eff"


def fault_of(name: str) -> str | None:
    """Returns why a name may not be a new user's, or None."""
    letters = [each for each in name if unicodedata.category(each)[0] == "L"]
    scripts = {script_of(each) for each in letters}
    others = [each for each in name if each > "\x7f" and each not in letters]
    short = unicodedata.normalize("NFKC", name)
    rules: list[tuple[str, object]] = [
        ("it is a hyphen alone, which stands for nobody", name == "-"),
        ("a name has no blanks", any(each.isspace() for each in name)),
        ("a character shows nothing", any(map(shows_nothing, name))),
        ("bytes are no UTF-8", "\ufffd" in name),
        ("it has a shorter form, %r" % short, short != name),
        ("a mark stands before the first letter", unicodedata.category(name[:1] or "a")[0] == "M"),
        ("a sign or a digit looks like another", any(unicodedata.category(each)[0] in "NPS" for each in others)),
        ("letters of different scripts stand together", bool(scripts) and not any(scripts <= each for each in SCRIPTS)),
        ("a letter looks like another", "LATIN" in scripts and not all(map(is_of_latin, letters))),
        ("it looks like a name in Latin letters", letters and LIKE_LATIN.issuperset(letters)),
    ]
    return next((why for why, is_fault in rules if is_fault), None)

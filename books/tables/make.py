#!/usr/bin/env python3
"""Makes the tables of values: for each function of books/*.lisp at least 200 argument lists, and the value that ACL2 gives each; and
behind them, for each function that ACL2 has, 8 argument lists more of corners: numbers below 0, other objects, small sizes.

    make.py [BOOK..]        writes BOOK.tsv beside this script, by the command acl2 (ACL2 8.5 and its books)

A function is evaluated as ACL2's own of the same name, in the package where ACL2 has it, with guard checking off. Where ACL2 has
none of that name, it is the formula that stands beside the function here, over functions of ACL2's books. The argument lists are
made at random from a fixed seed, with ends of ranges and objects of other kinds among them. Left out are rows whose value has an
integer outside 128 bits; rows that ACL2 gives no value (rotations of a word of width 0 end there in a hard error); and of
arithmetic, bitops and rtl rows with -2^63, whose floor and mod Debian's ACL2 gets wrong: (mod -9223372036854775808 65535) is
-32768 there.
"""

import random
import re
import subprocess
import sys
from pathlib import Path

ROWS = 200
HERE = Path(__file__).resolve().parent
BOOKS = ["std/lists/top", "std/basic/top", "std/alists/top", "ihs/basic-definitions", "centaur/bitops/top", "centaur/bitops/logrepeat", "centaur/bitops/trailing-0-count",
         "rtl/rel11/lib/reps", "rtl/rel11/lib/rac"]
ODD = ["nil", "t", "'a", ":key", '"ab"', r"#\b", "'(1 2)", "'(t . 3)"]


def rarely(make, odd=0.06):
    """Now and then an object of another kind."""
    return lambda it: it.choice(ODD) if it.random() < odd else make(it)


def nat(bits):
    def make(it):
        size = it.randint(0, bits)
        return str(it.choice([it.getrandbits(size) if size else 0, (1 << size) - 1, (1 << size) // 2, it.randint(0, 9)]) % (1 << bits))

    return make


def signed(bits):
    """Integers of so many bits, the sign counted."""

    def make(it):
        size = it.randint(0, bits - 1)
        return str(it.choice([it.getrandbits(size) if size else 0, (1 << size) - 1, (1 << size) // 2]) * it.choice([1, -1]) - it.randint(0, 1))

    return make


def span(low, high):
    return lambda it: str(it.randint(low, high))


def one_of(*forms):
    return lambda it: it.choice(forms)


def atom(it):
    return it.choice(["a", "b", "c", ":k", "nil", "t", '"s"', r"#\x", str(it.randint(-3, 3)), "(a . 1)", "(1 2)"])


def items(it, most=6, proper=0.85, of=atom):
    inside = [of(it) for _ in range(it.randint(0, most))]
    if inside and it.random() > proper:
        inside += [".", it.choice(["b", "7", ":k"])]
    return "(" + " ".join(inside) + ")"


def element(it):
    return "'" + atom(it)


def a_list(it):
    return "'" + items(it) if it.random() < 0.95 else it.choice(["5", "'a", "nil"])


def alist(it):
    def pair(it):
        return f"({atom(it)} . {atom(it)})" if it.random() < 0.9 else it.choice(["nil", "(a)"])

    return "'" + items(it, of=pair)


def kind_list(*forms):
    def make(it):
        def of(it):
            return it.choice(forms) if it.random() < 0.95 else atom(it)

        return "'" + items(it, of=of)

    return make


# Objects whose order does not ask for letters.
ORDERED = ["nil", "t", r"#\b", r"#\c", r"#\Space", *[str(it) for it in range(-9, 10)]]


def ordered(it):
    def of(it):
        return items(it, 3, 1, lambda it: it.choice(ORDERED)) if it.random() < 0.3 else it.choice(ORDERED)

    return "'" + items(it, 3, 1, of) if it.random() < 0.9 else it.choice(ORDERED)


def slice_of_word(it):
    """A word, its width, the ends of a slice, which mostly lie in it, and what is put there."""
    width = it.randint(1, 70)
    high = it.randint(-1, width + 1)
    low = it.randint(-1, high + 1)
    return " ".join([word(it), *(it.choice(ODD) if it.random() < 0.03 else str(n) for n in (width, high, low)), word(it)])


any_integer = rarely(signed(100))
word = rarely(signed(60))
size = rarely(span(0, 60))
bit = rarely(lambda it: it.choice(["0", "1", "1", "0", str(it.randint(-9, 9))]), 0.3)
anything = one_of(*ODD, *[str(it) for it in range(-130, 130)])
width = span(1, 64)
bytes_width = one_of("8", "16", "24", "32", "40", "48", "56", "64")
places = span(0, 70)
integer = signed(80)
FORMATS = {"(hp)": (11, 5, 16), "(sp)": (24, 8, 32), "(dp)": (53, 11, 64), "(bf)": (8, 8, 16), "(ep)": (64, 15, 80)}
format_ = one_of(*FORMATS)


def encoding(it):
    """A number and its format, as two arguments: all classes come often."""
    name = it.choice(list(FORMATS))
    prec, expw, whole = FORMATS[name]
    sigw = whole - 1 - expw
    exponent = it.choice([0, 0, (1 << expw) - 1, (1 << expw) - 1, it.getrandbits(expw)])
    significand = it.choice([0, 1, 1 << (sigw - 1), 3 << (sigw - 2), (1 << (sigw - 2)), it.getrandbits(sigw), (1 << sigw) - 1])
    x = it.getrandbits(1) << (whole - 1) | exponent << sigw | significand
    return f"{it.choice([x] * 12 + [x + (1 << whole), -x])} {name}"


def swapped(count):
    """The formula of so many bytes in the other order: each byte by its weight."""
    terms = (f"(if (< {it} {count}) (* (expt 256 (- {count} {it + 1})) (bitops::nth-slice 8 {it} {{1}})) 0)" for it in range(8))
    return f"(+ {' '.join(terms)})"


def as_pair(formula):
    """The formula of a value that is the pair of numerator and denominator here where ACL2's is a ratio."""
    return f"(let ((ratio {formula})) (if (and (rationalp ratio) (not (integerp ratio))) (cons (numerator ratio) (denominator ratio)) ratio))"


B, R = "bitops::", "rtl::"
# Book: function: its arguments, and the package in which ACL2 has it, or the formula that gives its value.
FUNCTIONS = {
    "arithmetic": {
        # The universe here has no ratios, so the objects that are asked are of it.
        "acl2-numberp": [anything],
        "rationalp": [anything],
        "fix": [anything],
        "rfix": [anything],
        "pos-fix": [anything],
        "int=": [anything, anything],
        "reciprocal": [as_pair("(/ {0})"), rarely(span(-120, 120))],
        "natural-expt": ["(expt {0} (nfix {1}))", rarely(span(-9, 9)), rarely(span(-9, 38))],
        "expt": [as_pair("(expt {0} {1})"), rarely(span(-9, 9)), rarely(span(-38, 38))],
        "expt2": [rarely(span(-120, 126))],
        "natural-mod-expt": ["(mod (expt {0} (nfix {1})) {2})", rarely(span(-99, 99)), rarely(span(-9, 40)), rarely(span(-99, 10**6))],
        "mod-expt": [as_pair("(mod-expt {0} {1} {2})"), rarely(span(-99, 99)), rarely(span(-12, 40)), rarely(span(-99, 999))],
        "signum": [any_integer],
        "nonnegative-integer-quotient": [nat(90), nat(60)],
        "ceiling": [any_integer, rarely(signed(40))],
        "round": [rarely(signed(70)), rarely(signed(30))],
        "ifloor": [any_integer, rarely(signed(40))],
        "imod": [any_integer, rarely(signed(40))],
        "abs-diff": [B, any_integer, any_integer],
    },
    "bitops": {
        "bitp": [anything],
        "bfix": [anything],
        "zbp": [anything],
        "bool->bit": [anything],
        "bit->bool": [anything],
        "bool-fix": [anything],
        "b-not": [anything],
        **{f"b-{it}": [bit, bit] for it in "and ior xor eqv nand nor andc1 andc2 orc1 orc2".split()},
        "b-ite": [bit, bit, bit],
        **{it: [any_integer, any_integer] for it in "binary-logeqv logeqv lognand lognor logandc1 logandc2 logorc1 logorc2 logtest".split()},
        "logite": [any_integer, any_integer, any_integer],
        "logcar": [any_integer],
        "logcdr": [any_integer],
        "logcons": [bit, any_integer],
        "logbit": [rarely(span(-2, 110)), any_integer],
        "logmask": [rarely(span(-120, 127))],
        "logmaskp": [rarely(nat(110))],
        "bitmaskp": [rarely(nat(110))],
        "loghead": [rarely(span(-2, 120)), any_integer],
        "logtail": [rarely(span(-2, 120)), any_integer],
        "logapp": [size, word, word],
        "logrpl": [size, word, word],
        "logext": [rarely(span(1, 120)), any_integer],
        "logextu": [size, rarely(span(1, 60)), word],
        "lognotu": [rarely(span(-2, 120)), any_integer],
        "logsat": [rarely(span(1, 120)), any_integer],
        "ashu": [rarely(span(1, 60)), word, rarely(span(-70, 60))],
        "lshu": [size, word, rarely(span(-70, 60))],
        "logrev1": [size, word, nat(50)],
        "logrev": [size, any_integer],
        "logrepeat": [B, span(0, 8), span(0, 12), word],
        "part-select-width-low": [B, word, size, size],
        "part-select-low-high": [B, any_integer, span(0, 60), span(-1, 90)],
        "part-install-width-low": [B, word, word, span(0, 50), span(0, 60)],
        "part-install-low-high": ["(bitops::part-install-width-low {0} {1} (+ 1 (- {3} {2})) {2})", word, word, span(0, 50), span(-1, 90)],
        "nth-slice": [B, span(0, 20), span(0, 6), any_integer],
        "update-nth-slice": [B, span(0, 20), span(0, 4), word, word],
        "install-bit": [B, rarely(span(-2, 110)), bit, any_integer],
        **{it: [B, rarely(span(-2, 110)), any_integer] for it in "setbit clearbit notbit".split()},
        "copybit": [B, rarely(span(-2, 110)), any_integer, any_integer],
        "rotate-left": [B, any_integer, rarely(span(0, 120)), rarely(span(0, 300))],
        "rotate-right": [B, any_integer, rarely(span(0, 120)), rarely(span(0, 300))],
        "bitscan-fwd": [B, any_integer],
        "bitscan-rev": [B, any_integer],
        "trailing-0-count": [B, any_integer],
        "trailing-1-count": [B, any_integer],
        "parity": [B, rarely(span(0, 110)), any_integer],
        "unsigned-saturate-fn": [B, span(1, 110), any_integer],
        "signed-saturate-fn": [B, span(0, 110), any_integer],
    },
    "lists": {
        "listp": [one_of(*ODD, *[f"'{it}" for it in ("(nil)", "(t)", "(a . b)", "((1))", "(-3 . 4)")], *[str(it) for it in range(-120, 120)])],
        "alistp": [alist],
        "atom-listp": [a_list],
        "symbol-listp": [kind_list("a", "b", ":k", "nil", "t")],
        "boolean-listp": [kind_list("t", "nil")],
        "integer-listp": [kind_list("1", "-2", "30")],
        "nat-listp": [kind_list("1", "0", "30", "-1")],
        "mv-nth": [span(0, 7), a_list],
        "take": [rarely(span(0, 9)), a_list],
        "last": [a_list],
        "butlast": [a_list, rarely(span(0, 7))],
        "subseq-list": [a_list, span(0, 5), span(0, 8)],
        "true-list-fix": [a_list],
        "list-fix": [a_list],
        "evens": [a_list],
        "odds": [a_list],
        "prefixp": [kind_list("a", "a", "a"), kind_list("a", "a", "b")],
        "revappend": [a_list, a_list],
        "rev": [a_list],
        "reverse": [a_list],
        "repeat": [rarely(span(0, 12)), element],
        "make-list-ac": [span(0, 9), element, a_list],
        "resize-list": [a_list, rarely(span(0, 9)), element],
        **{it: [element, a_list] for it in "member-eq remove-equal remove remove-eq remove1-equal add-to-set-equal position-equal duplicity".split()},
        "remove-duplicates-equal": [a_list],
        "no-duplicatesp-equal": [a_list],
        **{it: [a_list, a_list] for it in "subsetp-equal union-equal intersection-equal set-difference-equal pairlis$".split()},
        "position-equal-ac": [element, a_list, rarely(span(0, 9), 0.2)],
        "acons": [element, element, alist],
        **{it: [element, alist] for it in "assoc assoc-eq rassoc-equal remove-assoc-equal remove1-assoc-equal".split()},
        "strip-cars": [alist],
        "strip-cdrs": [alist],
        "put-assoc-equal": [element, element, alist],
        "alphorder": [one_of(*ORDERED, "'(1 2)", "'(t . 3)"), one_of(*ORDERED, "'(1 2)", "'(t . 3)")],
        "lexorder": [ordered, ordered],
    },
    "words": {
        **{f"u{it}": [f"(loghead {it} {{0}})", integer] for it in (8, 16, 32, 64)},
        **{f"s{it}": [f"(logext {it} {{0}})", integer] for it in (8, 16, 32, 64)},
        "add-u": ["(loghead {0} (+ {1} {2}))", width, integer, integer],
        "sub-u": ["(loghead {0} (- {1} {2}))", width, integer, integer],
        "neg-u": ["(loghead {0} (- {1}))", width, integer],
        "mul-u": ["(loghead {0} (* {1} {2}))", width, integer, integer],
        "add-s": ["(logext {0} (+ {1} {2}))", width, integer, integer],
        "sub-s": ["(logext {0} (- {1} {2}))", width, integer, integer],
        "neg-s": ["(logext {0} (- {1}))", width, integer],
        "mul-s": ["(logext {0} (* {1} {2}))", width, integer, integer],
        "carry-out": ["(if (< (+ (loghead {0} {1}) (loghead {0} {2}) {3}) (expt 2 {0})) 0 1)", width, integer, integer, one_of("0", "1")],
        "borrow-out": ["(if (< (- (- (loghead {0} {1}) (loghead {0} {2})) {3}) 0) 1 0)", width, integer, integer, one_of("0", "1")],
        "mul-high-u": ["(floor (* (loghead {0} {1}) (loghead {0} {2})) (expt 2 {0}))", span(1, 63), integer, integer],
        "add-overflows": ["(/= (logext {0} (+ {1} {2})) (+ (logext {0} {1}) (logext {0} {2})))", width, integer, integer],
        "sub-overflows": ["(/= (logext {0} (- {1} {2})) (- (logext {0} {1}) (logext {0} {2})))", width, integer, integer],
        "mul-overflows": ["(/= (logext {0} (* {1} {2})) (* (logext {0} {1}) (logext {0} {2})))", width, integer, integer],
        "clamp-u": ["(min (max {1} 0) (- (expt 2 {0}) 1))", width, integer],
        "clamp-s": ["(min (max {1} (- (expt 2 (- {0} 1)))) (- (expt 2 (- {0} 1)) 1))", width, integer],
        "add-saturated-u": ["(min (+ (loghead {0} {1}) (loghead {0} {2})) (- (expt 2 {0}) 1))", width, integer, integer],
        "sub-saturated-u": ["(max (- (loghead {0} {1}) (loghead {0} {2})) 0)", width, integer, integer],
        "add-saturated-s": ["(logsat {0} (+ (logext {0} {1}) (logext {0} {2})))", width, integer, integer],
        "sub-saturated-s": ["(logsat {0} (- (logext {0} {1}) (logext {0} {2})))", width, integer, integer],
        "shift-left": ["(loghead {0} (ash {1} {2}))", width, integer, places],
        "shift-right": ["(ash (loghead {0} {1}) (- {2}))", width, integer, places],
        "shift-right-s": ["(ash (logext {0} {1}) (- {2}))", width, integer, places],
        "rotl": ["(bitops::rotate-left {1} {0} {2})", width, integer, places],
        "rotr": ["(bitops::rotate-right {1} {0} {2})", width, integer, places],
        "byte-swap-bytes": [swapped("{0}"), span(0, 8), integer],
        "byte-swap": [swapped("(/ {0} 8)"), bytes_width, integer],
        "bit-reverse": ["(logrev {0} {1})", width, integer],
        "ones": ["(logcount (loghead {0} {1}))", width, integer],
        "leading-zeros": ["(- {0} (integer-length (loghead {0} {1})))", width, integer],
        "trailing-zeros": ["(bitops::trailing-0-count (logior (loghead {0} {1}) (expt 2 {0})))", width, integer],
        "leading-ones": ["(- {0} (integer-length (loghead {0} (lognot {1}))))", width, integer],
        "trailing-ones": ["(bitops::trailing-0-count (logior (loghead {0} (lognot {1})) (expt 2 {0})))", width, integer],
        "is-power-of-two": ["(equal (logcount (loghead {0} {1})) 1)", width, integer],
    },
    "rtl": {
        "fl": [R, any_integer],
        "bvecp": [R, rarely(signed(9)), rarely(span(-3, 12))],
        "bits": [R, rarely(integer), rarely(span(-3, 90)), rarely(span(-20, 90))],
        "bitn": [R, any_integer, rarely(span(-3, 110))],
        **{it: [R, rarely(word), rarely(span(-1, 60)), rarely(word), rarely(span(-1, 60))] for it in ("binary-cat", "cat")},
        "setbits": [R, slice_of_word],
        "setbitn": [R, rarely(word), rarely(span(0, 70)), rarely(span(-2, 60)), rarely(word)],
        "expo": [R, any_integer],
        "sgn": [R, any_integer],
    },
    "float": {
        **{it: [R] for it in "hp sp dp bf ep".split()},
        "formatp": [R, one_of(*FORMATS, *ODD, *[f"'({e} {p} {w})" for e in ("t", "nil") for p in range(-1, 9) for w in range(-1, 11)])],
        **{it: [R, one_of(*FORMATS, *[f"'({e} {p} {w})" for e in ("t", "nil") for p in range(2, 14) for w in range(2, 14)])] for it in "explicitp prec expw sigw".split()},
        "bias": [as_pair("(rtl::bias {0})"), one_of(*FORMATS, *ODD, *[f"'(nil {p} {w})" for p in range(2, 14) for w in ("a", "nil", *range(-4, 14))])],
        "greatest-expf": ["(1- (expt 2 (rtl::expw {0})))", one_of(*FORMATS, *[f"'({e} {p} {w})" for e in ("t", "nil") for p in range(2, 14) for w in range(2, 14)])],
        "leading-bit": ["(rtl::bitn {0} (1- (rtl::prec {1})))", encoding],
        **{it: [R, encoding] for it in "encodingp sgnf expf sigf manf unsupp zerp denormp pseudop normp infp nanp qnanp snanp qnanize".split()},
        "zencode": [R, one_of("0", "1"), one_of(*FORMATS, *[f"'({e} {p} {w})" for e in ("t", "nil") for p in range(2, 14) for w in range(2, 14)])],
        "iencode": [R, rarely(one_of("0", "1")), one_of(*FORMATS, *ODD, *[f"'({e} {p} {w})" for e in ("t", "nil") for p in range(-2, 14) for w in range(-2, 14)])],
    },
}


def arguments(name, makers):
    """Different argument lists, as texts."""
    it, found = random.Random(name), {}
    for _ in range(100 * ROWS):
        found.setdefault(tuple(" ".join(make(it) for make in makers).split("\0")))
        if len(found) == ROWS + ROWS // 4 or not makers:
            break
    return [key[0] for key in found]


# Corners, whose values on the way stay within 128 bits, and of lists also those that no letters decide.
CORNERS = ["nil", "t", "'a", '"ab"', r"#\b", "'(1 2)", "'(t . 3)", "-9", "-3", "-1", "0", "1", "2", "8"]
OF_LISTS = ["nil", "t", "5", "-1", "0", "3", "'(1 2)", "'(nil)", "'((5 . 1) 3 (1))", "'(nil . 5)", "'((5 . 1) . 7)", "'(3 . 4)"]
OF_FORMATS = ["'(nil 11 5)", "'(t 64 15)", "'(nil 1 2)", "'(nil 5 1)", "'(nil 0 0)", "'(t 1 5)", "nil", "3", "'a", "'(nil -3 4)", "'(nil a 3)", "'(t 3 -2)"]


def corner_lists(book, name):
    """Argument lists of corners, as texts. The last argument of a function of the book float is a format."""
    text = (HERE.parent / f"{book}.lisp").read_text()
    arity = len(re.search(rf"^\(defun {re.escape(name)} \(([^)]*)\)", text, re.M)[1].split())
    sets = [OF_LISTS if book == "lists" else CORNERS] * arity
    if book == "float" and arity:
        sets[-1] = OF_FORMATS
    it, found = random.Random(f"corners of {name}"), {}
    for _ in range(99 if arity else 0):
        found.setdefault(" ".join(it.choice(corners) for corners in sets))
    return list(found)[:8]


def is_of_acl2(spec):
    """Whether a function is ACL2's own, but for a ratio as a pair."""
    how = next((it for it in spec if isinstance(it, str)), "")
    return "(" not in how or how.startswith("(let ((ratio ")


def parts(text):
    """The forms of a text of forms."""
    return re.findall(r"""'?\((?:[^()"#]|"[^"]*"|#\\.|\((?:[^()"#]|"[^"]*"|#\\.|\([^()]*\))*\))*\)|'?"[^"]*"|'?#\\.|[^\s()]+""", text)


def row(name, spec, text):
    """The expression of a row, and the form that ACL2 evaluates for it."""
    how = spec[0] if spec and isinstance(spec[0], str) else ""
    ours = f"({name} {text})".replace(" )", ")")
    theirs = re.sub(r"\((hp|sp|dp|bf|ep)\)", r"(rtl::\1)", text)
    if "(" in how:
        return ours, how.format(*parts(theirs))
    return ours, f"({how}{name} {theirs})"


def ask(forms):
    """The value that ACL2 prints of each form."""
    script = ['(set-inhibit-warnings "all")', "(set-inhibit-output-lst '(proof-tree event summary))"]
    script += [f'(include-book "{it}" :dir :system)' for it in BOOKS]
    script += ["(set-guard-checking :none)", "(set-fmt-hard-right-margin 1000000 state)", "(set-fmt-soft-right-margin 1000000 state)"]
    script += [f'(let ((value {form})) (cw "@@{number} ~x0@@~%" value))' for number, form in enumerate(forms)]
    ran = subprocess.run(["acl2"], input="\n".join(script), capture_output=True, text=True, encoding="latin-1")
    return {int(number): value for number, value in re.findall(r"@@(\d+) (.*?)@@$", ran.stdout, re.M)}


def fits(value):
    return all(-(2**127) <= int(it) < 2**127 for it in re.findall(r"(?<![\w.-])-?\d+", value))


def has_least_word(text):
    """Whether -2^63 stands in a row, or is the power whose remainder it asks for."""
    numbers = [int(it) for it in re.findall(r"(?<= )-?\d+", text)]
    is_power = "mod-expt" in text and len(numbers) > 1 and 0 < numbers[1] < 64 and numbers[0] ** numbers[1] == -(2**63)
    return is_power or -(2**63) in numbers


def main():
    for book in sys.argv[1:] or FUNCTIONS:
        rows = [row(name, spec, text) for name, spec in FUNCTIONS[book].items()
                for text in arguments(name, [it for it in spec if not isinstance(it, str)])]
        first = len(rows)
        rows += [row(name, spec, text) for name, spec in FUNCTIONS[book].items() if is_of_acl2(spec) for text in corner_lists(book, name)]
        values = ask([theirs for _, theirs in rows])
        lines, counts = [], dict.fromkeys(FUNCTIONS[book], 0)
        for number, (ours, theirs) in enumerate(rows):
            name = ours[1:].split()[0].rstrip(")")
            is_wrong = book in ("arithmetic", "bitops", "rtl") and has_least_word(ours)
            if number in values and fits(values[number]) and not is_wrong and (counts[name] < ROWS or number >= first):
                lines.append(f"{ours}\t{values[number]}\n")
                counts[name] += 1
        for name, count in counts.items():
            if count < ROWS and FUNCTIONS[book][name] != [R]:
                print(f"{book}: {name} has {count} rows", file=sys.stderr)
        (HERE / f"{book}.tsv").write_text("".join(lines))
        print(f"{book}: {len(counts)} functions, {len(lines)} rows")


main()

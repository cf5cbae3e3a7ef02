"""Formats for tests/c/flight-show: rows whose text is known, and random ones that C or Rust prints.

A row is a format, its arguments as pairs of a kind and a value, and the text.
"""

import math
import subprocess

from made.flight_dumps import ADDRESS, F32, F64, I8, I16, I32, I64, TEXT, U8, U16, U32, U64

# Texts are from the C standard and from what is stated of what doesn't fit, not from a program.
PRINTF_ROWS = [
    ("plain", [], "plain"),
    ("100%%", [], "100%"),
    ("%d%%", [(I32, -3)], "-3%"),
    ("%i", [(I64, -(1 << 63))], "-9223372036854775808"),
    ("%d", [(U32, 4294967295)], "-1"),
    ("%u", [(I32, -1)], "4294967295"),
    ("%lu", [(U64, (1 << 64) - 1)], "18446744073709551615"),
    ("%hhd", [(I32, 300)], "44"),
    ("%hhu", [(I8, -1)], "255"),
    ("%hd", [(I32, 70000)], "4464"),
    ("%x", [(I32, -1)], "ffffffff"),
    ("%x", [(I8, -1)], "ffffffff"),
    ("%d", [(U8, 200)], "200"),
    ("%#o %#X", [(U32, 8), (U32, 255)], "010 0XFF"),
    ("[%5d|%-5d|%05d|%+d|% d]", [(I32, 42)] * 5, "[   42|42   |00042|+42| 42]"),
    ("[%.3d|%8.3d|%.0d]", [(I32, 7), (I32, 7), (I32, 0)], "[007|     007|]"),
    ("[%*d|%-*d|%*d]", [(I32, 4), (I32, 1), (I32, 3), (I32, 2), (I32, -4), (I32, 3)], "[   1|2  |3   ]"),
    ("[%.*s|%.*s]", [(I32, 2), (TEXT, "abc"), (I32, -1), (TEXT, "abc")], "[ab|abc]"),
    ("%zu %zd %jd %td %qd %lld", [(U64, 1), (I64, -2), (I64, 3), (I64, -4), (I64, 5), (I64, 6)], "1 -2 3 -4 5 6"),
    ("%c%c%c", [(I32, 65), (I8, 98), (U8, 99)], "Abc"),
    ("[%3c|%-3c]", [(I32, 65), (I32, 66)], "[  A|B  ]"),
    ("[%s|%5s|%-5s|%.1s]", [(TEXT, "ab")] * 4, "[ab|   ab|ab   |a]"),
    ("[%s|%.2s|%.3s|%8s]", [(TEXT, (b"abc", True))] * 4, "[abc...|ab|abc|  abc...]"),
    ("%p", [(ADDRESS, 0x1234)], "0x1234"),
    ("[%10p|%-8p]", [(ADDRESS, 255), (ADDRESS, 255)], "[      0xff|0xff    ]"),
    ("%f %.2f %e %g", [(F64, 1.5), (F64, 2.675), (F64, 12345.678), (F64, 1e-5)], "1.500000 2.67 1.234568e+04 1e-05"),
    ("%a %A", [(F64, 1.0), (F64, 0.5)], "0x1p+0 0X1P-1"),
    ("%Lf %lf", [(F64, 1.0), (F32, 0.5)], "1.000000 0.500000"),
    ("%F %E", [(F64, math.inf), (F64, -math.inf)], "INF -INF"),
    # What doesn't fit.
    ("%n", [(ADDRESS, 1)], "<%n>"),
    ("%d", [], "<%d>"),
    ("%d %d", [(I32, 1)], "1 <%d>"),
    ("%s %d", [(I32, 1), (I32, 2)], "<%s> 2"),
    ("%d %s", [(TEXT, "a"), (TEXT, "b")], "<%d> b"),
    ("%f %d", [(I32, 1), (F64, 1.0)], "<%f> <%d>"),
    ("%p %x", [(I64, 1), (ADDRESS, 2)], "<%p> <%x>"),
    ("%lc %ls %C %S", [(I32, 65), (TEXT, "a"), (I32, 65), (TEXT, "a")], "<%lc> <%ls> <%C> <%S>"),
    ("%m %d", [(I32, 1)], "<%m> 1"),
    ("%2$d %1$d", [(I32, 1), (I32, 2)], "<%2$d> <%1$d>"),
    ("%1001d %.1001d %*d.", [(I32, 1), (I32, 2), (I32, 1001), (I32, 3)], "<%1001d> <%.1001d> <%*d>."),
    ("%99999999999999999999d", [(I32, 1)], "<%99999999999999999999d>"),
    ("%*d %d", [(TEXT, "a"), (I32, 1), (I32, 2)], "<%*d> 2"),
    ("%*d", [(I64, 1 << 40), (I32, 1)], "<%*d>"),
    ("%Ld", [(I64, 1)], "<%Ld>"),
    ("%hs", [(TEXT, "a")], "<%hs>"),
    ("50%", [], "50<%>"),
    ("%-", [], "<%->"),
    ("%5% %d", [(I32, 1)], "<%5%> 1"),
    ("%y %d", [(I32, 1), (I32, 2)], "<%y> 2"),
    ("%1000d", [(I32, 7)], " " * 999 + "7"),
    ("%.1000f", [(F64, 1.7976931348623157e308)], f"{int(1.7976931348623157e308)}." + "0" * 1000),
    ("a\tb\\", [], "a\tb\\"),
]

# Texts are from the documentation of Rust's `std::fmt`.
BRACES_ROWS = [
    ("{} {}", [(I32, -1), (TEXT, "a")], "-1 a"),
    ("{{}} {{{}}}", [(U8, 1)], "{} {1}"),
    ("{1} {0} {}", [(I32, 1), (I32, 2)], "2 1 1"),
    ("[{:5}|{:<5}|{:^5}|{:>5}|{:*^5}]", [(TEXT, "ab")] * 5, "[ab   |ab   | ab  |   ab|*ab**]"),
    ("[{:5}|{:<5}|{:05}|{:+}]", [(I32, 42)] * 4, "[   42|42   |00042|+42]"),
    ("[{:ä>4}|{:4}]", [(I32, 1), (TEXT, "ö")], "[äää1|ö   ]"),
    ("{:#x} {:#010b} {:x} {:X}", [(U8, 255), (U8, 5), (I8, -1), (U16, 0xABC)], "0xff 0b00000101 ff ABC"),
    ("[{:}>4}|{0:}<3}|{:{^3}|{:$<3}|{:}]", [(I32, k) for k in range(1, 5)], "[}}}1|1}}|{2{|3$$|4]"),
    ("[{ }|{0 }|{1 :>3}|{:>3 }|{:x\t}|{\n}|{ :}>3}|{: }]", [(I32, k) for k in range(10, 17)],
     "[10|10| 11| 11|c|13|}14|15]"),
    ("{:o} {:#o}", [(I16, 8), (U8, 8)], "10 0o10"),
    ("{:?} {:?} {:?}", [(TEXT, 'a"\n'), (I32, -1), (F64, 1.0)], '"a\\"\\n" -1 1.0'),
    ("[{:.1}|{:.0}]", [(TEXT, "äb"), (TEXT, "ab")], "[ä|]"),
    ("{} {} {} {}", [(F64, 1.0), (F64, 0.1), (F64, 1e21), (F64, -0.0)], "1 0.1 1000000000000000000000 -0"),
    ("{:?} {:?} {:?}", [(F64, 1e16), (F64, 1e-5), (F64, 0.0001)], "1e16 1e-5 0.0001"),
    ("{:.2} {:8.3} {:08.3}", [(F64, 3.14159), (F64, 3.14159), (F64, -3.14159)], "3.14    3.142 -003.142"),
    ("{:e} {:E} {:.2e}", [(F64, 1234.5), (U32, 1500), (F64, 1234.5)], "1.2345e3 1.5E3 1.23e3"),
    ("{} {} {:?}", [(F64, math.inf), (F64, -math.inf), (F64, math.nan)], "inf -inf NaN"),
    ("{}", [(F32, 0.1)], "0.1"),
    ("{:1$} {:.*} {:.9$}", [(I32, 5), (U64, 4), (F64, 1.0)], "   5 1.0000 <{:.9$}>"),
    ("{:p} {:?} {:#p}", [(ADDRESS, 0xAB)] * 3, "0xab 0xab 0x00000000000000ab"),
    ("{} {:x}", [(TEXT, (b"abc", True)), (I64, -1)], "abc... ffffffffffffffff"),
    # What doesn't fit.
    ("{", [], "<{>"),
    ("{:", [(I32, 1)], "<{:>"),
    ("{:}>", [(I32, 1)], "<{:}>>"),
    ("}", [], "}"),
    ("{} {}", [(I32, 1)], "1 <{}>"),
    ("{name} {}", [(I32, 1)], "<{name}> <{}>"),
    ("{:d} {:x} {}", [(I32, 1), (TEXT, "a"), (ADDRESS, 1)], "<{:d}> <{:x}> <{}>"),
    ("{:1001} {:.1001}", [(I32, 1), (F64, 1.0)], "<{:1001}> <{:.1001}>"),
    ("{:99999999999999999999}", [(I32, 1)], "<{:99999999999999999999}>"),
    ("{9} {:9$}", [(I32, 1)], "<{9}> <{:9$}>"),
]

INTEGERS = {
    I8: ("signed char", "hh"), I16: ("short", "h"), I32: ("int", ""), I64: ("long long", "ll"),
    U8: ("unsigned char", "hh"), U16: ("unsigned short", "h"), U32: ("unsigned", ""), U64: ("unsigned long long", "ll"),
}
LETTERS = "abcxyz 0129.,:;-_+*/()[]<>="


def random_integer(chance, kind):
    bits = 8 * (kind & 15)
    size = chance.choice([chance.randrange(1 << bits), chance.randrange(100), (1 << bits) - 1, 1 << bits - 1, 0])
    return size if kind >> 4 else (size + (1 << bits - 1)) % (1 << bits) - (1 << bits - 1)


def random_double(chance):
    far = chance.uniform(-1, 1) * 10.0 ** chance.randrange(-300, 300)
    near = chance.uniform(-1000, 1000)
    return chance.choice([far, near, near, float(round(near)), round(near, 2), 0.0, -0.0, 0.5, math.inf, -math.inf])


def random_text(chance, most=40):
    return "".join(chance.choice(LETTERS) for _ in range(chance.randrange(most)))


def some(chance, letters):
    return "".join(letter for letter in letters if chance.random() < 0.3)


def random_fields(chance, flags, arguments, precision=True):
    """Flags, width and precision, of which stars take arguments."""
    made = some(chance, flags)
    for before in ["", "."] if precision else [""]:
        way = chance.randrange(4)
        if way == 1:
            made += before + str(chance.randrange(1, 30))
        elif way == 2:
            arguments.append((I32, chance.randrange(-20, 30)))
            made += before + "*"
    return made


def random_conversion(chance):
    """A conversion of printf, and its arguments."""
    arguments, way = [], chance.randrange(8)
    if way < 4:
        kind = chance.choice(list(INTEGERS))
        letter = chance.choice("di" if not kind >> 4 else "uoxX")
        size = chance.choice([INTEGERS[kind][1]] + [""] * (kind & 15 < 8) + ["l", "j", "z", "t"] * (kind & 15 == 8))
        fields = random_fields(chance, "-0+ '" if not kind >> 4 else "-0#" if letter != "u" else "-0'", arguments)
        return f"%{fields}{size}{letter}", [*arguments, (kind, random_integer(chance, kind))]
    if way < 6:
        fields = random_fields(chance, "-0+ #", arguments)
        return f"%{fields}{chance.choice('fFeEgGaA')}", [*arguments, (F64, random_double(chance))]
    if way == 6:
        return f"%{random_fields(chance, '-', arguments)}s", [*arguments, (TEXT, random_text(chance))]
    fields = random_fields(chance, "-", arguments, False)
    if chance.random() < 0.5:
        return f"%{fields}c", [*arguments, (I32, ord(chance.choice(LETTERS)))]
    return f"%{fields}p", [*arguments, (ADDRESS, chance.choice([0, random_integer(chance, U64)]))]


def random_printf(chance, count):
    """Formats of one conversion to three, and their arguments."""
    rows = []
    for _ in range(count):
        format, arguments = "", []
        for _ in range(chance.randrange(1, 4)):
            made, more = random_conversion(chance)
            format += random_text(chance, 5) + chance.choice(["", "", "%%"]) + made
            arguments += more
        rows.append((format, arguments))
    return rows


def conversions(rows):
    return sum(row[0].replace("%%", "").count("%") for row in rows)


def c_value(kind, value):
    if kind == TEXT:
        return f'"{value}"'
    if kind == ADDRESS:
        return f"(void *){value}ull"
    if kind == F64:
        return ("-" if value < 0 else "") + "__builtin_inf()" if math.isinf(value) else value.hex()
    return f"({INTEGERS[kind][0]}){value % (1 << 64)}ull"


def printed_by(words, source, suffix, rows, folder):
    """The rows with what a program prints of them, which ends each text with a byte of 1."""
    path, program = folder / f"formats.{suffix}", folder / f"formats_{suffix}"
    path.write_text(source)
    subprocess.run([*words, path, "-o", program], check=True)
    texts = subprocess.run([program], check=True, stdout=subprocess.PIPE).stdout.decode().split("\1")[:-1]
    return [(*row, said) for row, said in zip(rows, texts, strict=True)]


def printed_by_c(rows, folder):
    lines = [f'printf("{format}\\1"{"".join(", " + c_value(*each) for each in values)});' for format, values in rows]
    source = "#include <stdio.h>\nint main(void)\n{\n" + "\n".join(lines) + "\nreturn 0;\n}\n"
    return printed_by(["cc", "-w"], source, "c", rows, folder)


RUST = {I8: "i8", I16: "i16", I32: "i32", I64: "i64", U8: "u8", U16: "u16", U32: "u32", U64: "u64"}
RUST |= {F32: "f32", F64: "f64"}


def random_braces(chance, count):
    """Formats of one replacement, and their arguments."""
    rows = []
    for _ in range(count):
        kind = chance.choice([*RUST, F32, F64, F64, F64, TEXT, TEXT, ADDRESS])
        fill = chance.choice(["", "", "<", "^", ">", "*<", "_^", "0>", "}>", "{^", "$<"])
        fields = fill + some(chance, "+#0") + chance.choice(["", "", "7", "12", "30"])
        if kind >> 4 == 2:
            value = random_double(chance)
            value = float(chance.randrange(-1000, 1000)) / 8 if kind == F32 else value
            fields += chance.choice(["", "", ".0", ".1", ".3", ".20"]) + chance.choice(["", "", "?", "e", "E"])
        elif kind == TEXT:
            value = random_text(chance) + chance.choice(["", "ä€", '"\\\t'])
            fields += chance.choice(["", ".0", ".2", ".9"]) + chance.choice(["", "", "?"])
        elif kind == ADDRESS:
            value = random_integer(chance, U64)
            fields += chance.choice(["p", "?"])
        else:
            value = random_integer(chance, kind)
            fields += chance.choice(["", "?", "x", "X", "o", "b", "x?", "X?", "e", "E"])
        before, behind = (chance.choice(["", "", "", " ", "\t "]) for _ in range(2))
        rows.append((f"{{{before}:{fields}{behind}}}", [(kind, value)]))
    return rows


def rust_value(kind, value):
    if kind == TEXT:
        return '"' + value.replace("\\", "\\\\").replace('"', '\\"').replace("\t", "\\t") + '"'
    if kind == ADDRESS:
        return f"{value}usize as *const u8"
    if kind in (F32, F64):
        name = RUST[kind]
        return f"{'-' if value < 0 else ''}{name}::INFINITY" if math.isinf(value) else f"{value!r}{name}"
    return f"{value}{RUST[kind]}"


def printed_by_rust(rows, folder):
    lines = [f'print!("{format}\\u{{1}}", {rust_value(*values[0])});' for format, values in rows]
    return printed_by(["rustc"], "fn main() {\n" + "\n".join(lines) + "\n}\n", "rs", rows, folder)

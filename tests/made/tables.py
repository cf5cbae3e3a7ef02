"""Print formats made at random, whose calls print fields by names, and lists of the kernel's processes and symbols:
true ones, and ones that are malformed by a little.
"""

NAMES = ["GFP_KERNEL", "a", "", "R+", "with blank", "a|b", "x:y", "é", "{", "}", ")", "<idle>", "0x4", "\t"]
# Types of casts, with the number of their bytes; those of others aren't known, or change a number.
CASTS = ["unsigned long", " u64 ", "long", "gfp_t", "u32", "int", "unsigned", "u8", "pgoff_t", "my_t", "const u64", ""]
# Texts that are no constants.
OTHERS = [
    "PAGE_SIZE", "1 + 1", "sizeof(int)", "08", "0x", "1 << 64", "1 << 31", "1 <<", "< 1", "1 < 2", "", "-", "- x", "1ull",
    "-2147483648", "-0", "(1 << 2", "18446744073709551616", "0xfffffffffffffffff", "!1", "1 | ", "'a'",
]
# What is written for a field as it is, and for an expression over it.
FIELDS = ["{}", "{}", "{}", "({})", "(unsigned long){}", "(u64)({})", "( unsigned long )( {} )", " {} ", "(( {}))"]
EXPRESSIONS = ["(u32){}", "{} & 0xff", "{} + 0", "~{}", "(my_t){}", "({}", "{}x", "(u64) ({}", "({} & (1 << 2))"]
MOST = 4096


class Maker:
    """Makes texts at random. A wild one is malformed by a little here and there."""

    def __init__(self, chance, is_wild):
        self.chance, self.is_wild = chance, is_wild

    def maybe(self, likely):
        return self.is_wild and self.chance.random() < likely

    def blanks(self):
        return " " * self.chance.choice([0, 0, 0, 1, 1, 2])

    # ---- keys

    def digits(self, number):
        chance = self.chance
        form = chance.choice(["%d", "%d", "0x%x", "0x%X", "0X%x", "0%o", "0x0%x"])
        is_wide = number >= 1 << 31
        return form % number + chance.choice(["UL", "ull", "lU"] if is_wide else ["", "", "", "u", "UL", "L", "U"])

    def literal(self, number):
        """A number in brackets and behind casts, or neither."""
        text = self.digits(number)
        for _ in range(self.chance.choice([0, 0, 0, 1, 2])):
            wrap = self.chance.choice(["({})", "( {} )", "(({})", "({}))"] if self.maybe(0.1) else ["({})", "( {} )"])
            text = wrap.format(text)
            if self.chance.random() < 0.4:
                text = f"({self.chance.choice(CASTS[:5] if not self.is_wild else CASTS)}){text}"
        return text

    def key(self, number):
        """The text of a number, mostly."""
        chance = self.chance
        if self.maybe(0.02):
            return chance.choice(OTHERS)
        if number < 0:
            return chance.choice(["-%d", "(-%d)", "- %d", "-(%d)"]) % -number
        bits = [bit for bit in range(64) if number >> bit & 1]
        if len(bits) > 1 and chance.random() < 0.4:
            parts = [self.single(1 << bit) for bit in bits]
            return f"{self.blanks()}|{self.blanks()}".join(parts)
        return self.single(number)

    def single(self, number):
        """The text of a number, shifted if it is one bit, and not always."""
        bit = number.bit_length() - 1
        if number > 0 and number == 1 << bit and self.chance.random() < 0.4:
            one = self.chance.choice(["1", "(1", "((1"])
            one += self.chance.choice(["UL", "ULL"] if bit > 31 else ["UL", "U", "ULL"] if bit == 31 else ["", "U"])
            by = f"{self.blanks()}<<{self.blanks()}({bit})"
            return one + by + ")" * one.count("(")
        return self.literal(number)

    # ---- tables

    def entry(self, number):
        chance = self.chance
        name = chance.choice(NAMES) + str(chance.randrange(9)) * chance.randrange(2)
        others = [f'"{name}\\n"', name, f'"{name}" X', "NULL"]
        name = chance.choice(others) if self.maybe(0.03) else f'"{name}"'
        left, right = (self.blanks() for _ in range(2))
        return f"{{{left}{self.key(number)}{left},{right}{name}{right}}}"

    def table(self, numbers):
        """The entries of numbers, up to the end of the call."""
        numbers = [*numbers] * (MOST if self.maybe(0.003) else 1)
        comma = self.chance.choice([", ", ",", " , "])
        entries = comma.join(self.entry(number) for number in numbers[: MOST + 1])
        end = self.chance.choice([")"] * 30 + ["", ",", " {"]) if self.is_wild else ")"
        return entries + self.chance.choice(["", " ", ","]) + end

    def argument(self, field):
        """A field as it is, or an expression over it."""
        return self.chance.choice(EXPRESSIONS if self.maybe(0.1) else FIELDS).format(f"REC->{field}")

    def call(self, field, numbers, is_flags):
        entries = self.table(numbers)
        if not is_flags:
            return f"__print_symbolic({self.argument(field)},{self.blanks()}{entries}"
        delimiter = self.chance.choice(["|", "|", "", ", ", "||"])
        delimiter = self.chance.choice(["\\n", "x" * 300]) if self.maybe(0.03) else delimiter
        return f'__print_flags({self.argument(field)},{self.blanks()}"{delimiter}",{self.blanks()}{entries}'

    def numbers(self, is_flags):
        """Keys: few bits each, or small numbers, some of them below 0."""
        chance = self.chance
        width = chance.choice([3, 8, 31, 32, 33, 64])
        if is_flags:
            bits = [1 << chance.randrange(width) for _ in range(chance.choice([1, 2, 4, 8]))]
            return [bit | chance.choice([0, 0, 0, chance.choice(bits)]) for bit in bits] + chance.choice([[], [], [0]])
        few = chance.randrange(5), chance.randrange(1 << width), -chance.randrange(1, 5), chance.randrange(9)
        return chance.choices(few, k=4)

    def print_format(self, fields):
        """The line of these fields' print format, and the keys of each that may have names."""
        chance, keys, calls = self.chance, {}, []
        for field in fields:
            if chance.random() < 0.5:
                is_flags = chance.random() < 0.5
                keys[field] = self.numbers(is_flags)
                for _ in range(2 if chance.random() < 0.06 else 1):
                    calls.append(self.call(field, keys[field], is_flags))
        chance.shuffle(calls)
        texts = "".join(chance.choice([", {}", ", (REC->x) ? {} : \"none\""]).format(call) for call in calls)
        return f'print fmt: "%s {len(calls)}"{texts}', keys


# ---- lists of the kernel


def tasks(chance):
    """The lines of processes, of which some are malformed, and some come again."""
    names = [b"sh", b"", b"swapper/1", b"two words", b'"\\', b"\xff", "é".encode(), b" ", b"<...>", b"\0a"]
    pids = [b"0", b"7", b"7", b"07", b"2147483647", b"2147483648", b"-1", b"9", b"", b"7x", b" 7"]
    lines = [chance.choice(pids) + chance.choice([b" ", b" ", b" ", b"\t", b""]) + chance.choice(names)
             for _ in range(chance.choice([0, 1, 5, 20]))]
    return b"\n".join(lines) + chance.choice([b"", b"\n"])


def symbols(chance, addresses):
    """The lines of functions at and near these addresses, in any order, and of other symbols."""
    names = [b"vfs_read", b"t", b"a b", b"x|y", b"k\tm", b"\xffz", b"", b"do:it", b'"', "é".encode()]
    kinds = [b"t", b"T", b"w", b"W", b"t", b"D", b"d", b"tt", b""]
    lines = []
    for _ in range(chance.choice([0, 1, 4, 20])):
        address = chance.choice([*addresses, 0, 1, chance.randrange(1 << 64)])
        spelled = b"%x" % max(address + chance.choice([0, 0, -1, 1, -31, -4096]), 0)
        spelled = chance.choice([spelled] * 5 + [spelled.rjust(16, b"0"), spelled.upper(), b"0x" + spelled, b""])
        name = chance.choice(names) + chance.choice([b"", b"\t[mod]", b" more"])
        lines.append(spelled + b" " + chance.choice(kinds) + b" " + name)
    return b"\n".join(lines) + chance.choice([b"", b"\n"])

"""Plain fields of events, to compare with the program's: what docs/formats/program.md says, in "Fields", of the fields
that a format describes, and of their values in a payload.
"""

import re

MOST, WORD = 256, 1 << 32
NUMBER = rb"([0-9]+)"
LINE = re.compile(rb"\tfield:([^;]*);\toffset:%s;\tsize:%s;\tsigned:([01]);" % (NUMBER, NUMBER))
TYPE, NAME, FULL = rb"(?P<type>[^\[\]]+)", rb"(?P<name>[A-Za-z_][A-Za-z0-9_]*)", re.DOTALL
# Bytes that are elsewhere in the payload, by what their declaration begins with.
ELSEWHERE = {b"__data_loc ": "located", b"__rel_loc ": "relative"}
POINTING = [re.compile(form, FULL) for form in (TYPE + rb"\[\] " + NAME, TYPE + b" " + NAME + rb"(?:\[\])?")]
DIRECT = re.compile(TYPE + b" " + NAME + rb"(?:\[(?P<count>[^\[\]]*)\])?", FULL)
# The types that have so many bytes, with a comma between two.
TYPES = {
    1: "char,signed char,unsigned char,bool,_Bool,s8,u8,__s8,__u8,int8_t,uint8_t,u_int8_t,u_char,unchar",
    2: "short,short int,signed short,signed short int,unsigned short,unsigned short int,s16,u16,__s16,__u16,__le16,"
    "__be16,__sum16,int16_t,uint16_t,u_int16_t,ushort,umode_t",
    4: "int,signed,signed int,unsigned,unsigned int,s32,u32,__s32,__u32,__le32,__be32,__wsum,int32_t,uint32_t,"
    "u_int32_t,uint,pid_t,uid_t,gid_t,dev_t,mode_t,gfp_t,fmode_t,key_t,clockid_t,mqd_t",
    8: "long,long int,signed long,signed long int,unsigned long,unsigned long int,long long,long long int,"
    "signed long long,unsigned long long,unsigned long long int,s64,u64,__s64,__u64,__le64,__be64,int64_t,uint64_t,"
    "u_int64_t,ulong,size_t,ssize_t,loff_t,off_t,sector_t,blkcnt_t,ino_t,pgoff_t,time64_t,ktime_t,dma_addr_t,"
    "phys_addr_t",
}
SIZES = {tuple(name.encode().split(b" ")): size for size, names in TYPES.items() for name in names.split(",")}


class Malformed(Exception):
    """A format has a line that describes no field; its offset."""


class Uncut(Exception):
    """A payload doesn't have all bytes of a field, or these aren't a whole number of elements."""


# ---- what a line says


def number32(text):
    """The number that a text is, if it is one of 32 bits."""
    return int(text) if re.fullmatch(NUMBER, text) and int(text) < WORD else None


class Field:
    """What a line says of a field: its name, where its bytes are, how many bytes an element has, and what these are."""

    def __init__(self, line):
        found = LINE.fullmatch(line)
        if not found or None in (number32(found[2]), number32(found[3])):
            raise ValueError(line)
        self.at, self.size, self.is_signed = int(found[2]), int(found[3]), found[4] == b"1"
        declared, self.place = found[1], "here"
        for word, place in ELSEWHERE.items():
            if declared.startswith(word):
                declared, self.place = declared.removeprefix(word), place
        forms = [DIRECT] if self.place == "here" else POINTING
        parts = next((parts for parts in (form.fullmatch(declared) for form in forms) if parts), None)
        if parts is None or self.place != "here" and self.size != 4:
            raise ValueError(line)
        self.name = parts["name"]
        words = tuple(word for word in parts["type"].split(b" ") if word not in (b"", b"const", b"volatile"))
        is_address = b"*" in parts["type"]
        if is_address:
            self.base = "address"
        elif self.is_signed:
            self.base = "signed"
        else:
            self.base = "word" if words == (b"unsigned", b"long") else "unsigned"
        self.say_elements(parts.groupdict().get("count"), words, 8 if is_address else SIZES.get(words))

    def say_elements(self, count, words, of_type):
        """What the bytes are: a number, numbers with this many bytes each, a text, or bytes."""
        self.element = None
        if self.place == "here" and count is None:
            self.kind = "number" if self.size in (1, 2, 4, 8) else "bytes"
            return
        if words == (b"char",):
            self.kind = "text"
        else:
            count = number32(count or b"")
            by_count = self.place == "here" and count and self.size and self.size % count == 0
            self.element = self.size // count if by_count else of_type
            self.kind = "numbers" if self.element in (1, 2, 4, 8) else "bytes"
        if self.place == "here" and self.size == 0:
            self.place = "rest"

    def is_shown(self):
        return not self.name.startswith(b"common_")

    # ---- what a payload says

    def bytes_of(self, payload):
        """The field's bytes."""
        own = {"here": self.size, "rest": 0}.get(self.place, 4)
        if self.at + own > len(payload):
            raise Uncut
        if self.place == "here":
            return payload[self.at : self.at + own]
        if self.place == "rest":
            return payload[self.at :]
        place = int.from_bytes(payload[self.at : self.at + 2], "little")
        length = int.from_bytes(payload[self.at + 2 : self.at + 4], "little")
        place += self.at + 4 if self.place == "relative" else 0
        if place + length > len(payload):
            raise Uncut
        return payload[place : place + length]

    def value_of(self, payload):
        """The number, the numbers, the text before its first zero byte, or the bytes."""
        data = self.bytes_of(payload)
        if self.kind == "number":
            return int.from_bytes(data, "little", signed=self.base == "signed")
        if self.kind == "text":
            return data.split(b"\0")[0]
        if self.kind == "bytes":
            return data
        if len(data) % self.element:
            raise Uncut
        parts = [data[at : at + self.element] for at in range(0, len(data), self.element)]
        return [int.from_bytes(part, "little", signed=self.base == "signed") for part in parts]

    def shown(self, value, json, quoted):
        """How a value is printed; `quoted` puts a text in quotes."""
        if self.kind == "text":
            return quoted(value)
        if self.kind == "bytes":
            return b'"%s"' % value.hex().encode() if json else value.hex().encode() or b"-"
        numbers = [self.shown_number(number, json) for number in (value if self.kind == "numbers" else [value])]
        return b"[%s]" % b",".join(numbers) if self.kind == "numbers" else numbers[0]

    def shown_number(self, number, json):
        if self.base == "address":
            return b'"0x%x"' % number if json else b"0x%x" % number
        return b"0x%x" % number if self.base == "word" and not json else b"%d" % number


# ---- what a format and a payload say


def fields_of(text):
    """The fields that a format describes, in their order."""
    fields, at = [], 0
    for line in text.split(b"\n"):
        if line.startswith(b"print fmt: "):
            break
        if line.startswith(b"\tfield"):
            try:
                field = Field(line)
            except ValueError:
                raise Malformed(at) from None
            if len(fields) == MOST or field.name in [other.name for other in fields]:
                raise Malformed(at)
            fields.append(field)
        at += len(line) + 1
    return fields


class Values:
    """The fields of a payload that are shown, in their order, each with its value or None, and with the names of its
    number: those that `named` gives, each with a method `shown`."""

    def __init__(self, fields, payload, named):
        self.found = []
        for field in fields:
            if field.is_shown():
                try:
                    value = field.value_of(payload)
                except Uncut:
                    value = None
                has_number = field.kind == "number" and value is not None
                self.found.append((field, value, named(field, value) if has_number else []))

    def is_whole(self):
        return all(value is not None for _, value, _ in self.found)

    def text(self, quoted):
        """The words of a line."""
        return [
            b"%s=%s" % (field.name, b"!" if value is None else field.shown(value, False, quoted))
            + (b":" + b"|".join(name.shown(False, quoted) for name in names) if names else b"")
            for field, value, names in self.found
        ]

    def json(self, quoted):
        """The members of a line."""
        members = [
            b'"%s":%s' % (field.name, field.shown(value, True, quoted))
            for field, value, _ in self.found
            if value is not None
        ]
        named = [
            b'"%s":[%s]' % (field.name, b",".join(name.shown(True, quoted) for name in names))
            for field, _, names in self.found
            if names
        ]
        uncut = [b'"%s"' % field.name for field, value, _ in self.found if value is None]
        parts = [b'"fields":{%s}' % b",".join(members)]
        parts += [b'"names":{%s}' % b",".join(named)] * bool(named)
        return parts + [b'"uncut":[%s]' % b",".join(uncut)] * bool(uncut)

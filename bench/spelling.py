"""Items as bytes, and read from bytes and from texts, for the scripts that read traces."""
import re

CODES = {"L": 0o00, "B": 0o10, "BOOLEAN": 0o11, "A": 0o20, "J": 0o21, "I8": 0o30, "I1": 0o31, "I2": 0o32, "I4": 0o34,
         "F8": 0o40, "F4": 0o44, "U8": 0o50, "U1": 0o51, "U2": 0o52, "U4": 0o54}


def headed(kind, count, content):
    size = 1 if count < 1 << 8 else 2 if count < 1 << 16 else 3
    return bytes([CODES[kind] * 4 + size]) + count.to_bytes(size, "big") + content


def list_of(items):
    return headed("L", len(items), b"".join(items))


def u4(number):
    return headed("U4", 4, number.to_bytes(4, "big"))


def spelled(text):
    """The kind of an item, and its bytes."""
    words = re.findall(r'<\w+|>|"(?:[^"\\]|\\x..)*"|[^\s<>"]+', text)
    at = 0

    def item():
        nonlocal at
        kind, parts = words[at][1:], []
        at += 1
        while words[at] != ">":
            word = words[at]
            if word[0] == "<":
                parts.append(item())
                continue
            at += 1
            if kind == "A":
                parts.append(re.sub(rb"\\x(..)", lambda found: bytes.fromhex(found[1].decode()), word[1:-1].encode()))
            elif kind[0] in "UI":
                parts.append(int(word).to_bytes(int(kind[1]), "big", signed=kind[0] == "I"))
            else:
                parts.append(bytes.fromhex(word))
        at += 1
        content = b"".join(parts)
        return headed(kind, len(parts) if kind == "L" else len(content), content)

    return words[0][1:], item()


def parsed(spelling):
    """A list as a list, a text as its bytes, an unsigned number as a number, or None without one, a flag as 0 or 1."""
    def item(at):
        code, size = spelling[at] >> 2, spelling[at] & 3
        count, at = int.from_bytes(spelling[at + 1:at + 1 + size], "big"), at + 1 + size
        if code == CODES["A"]:
            return spelling[at:at + count], at + count
        if code != CODES["L"]:
            number = int.from_bytes(spelling[at:at + count], "big") if count else None
            return min(number, 1) if code == CODES["BOOLEAN"] else number, at + count
        items = []
        for _ in range(count):
            one, at = item(at)
            items.append(one)
        return items, at
    return item(0)[0]


def leave_for(body):
    """The text of the S6F5 that asks leave for a message of this text, by its first number and its length."""
    return list_of([u4(parsed(body)[0]), u4(len(body))])

"""Frames of a line (SEMI E4), for the scripts that write some."""


def frame(stream, function, system, body=b"", number=1, last=True, waits=True, is_tool=True, device=0):
    """The frame of one block: of the tool's or of the host's, and with or without the W that asks for a reply."""
    block = (0x8000 * is_tool | device).to_bytes(2, "big") + bytes([0x80 * waits | stream, function])
    block += (0x8000 * last | number).to_bytes(2, "big") + system.to_bytes(4, "big") + body
    return bytes([len(block)]) + block + sum(block).to_bytes(2, "big")


def frames(stream, function, system, body, **more):
    """The frames of a message."""
    parts = [body[at:at + 244] for at in range(0, len(body), 244)] or [b""]
    return [frame(stream, function, system, part, number, number == len(parts), **more)
            for number, part in enumerate(parts, 1)]

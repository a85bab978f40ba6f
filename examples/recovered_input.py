"""What `recover` reads after a crash of `store`: a session, the line `image`, and what the disk was left with."""
import sys

import stored_image


def write_input(name, image):
    """The session of an example, and an image behind it."""
    sys.stdout.buffer.write((stored_image.HERE / f"{name}.session").read_bytes() + b"image\n" + image)


def crashed(name, count):
    """The image of an example that a crash left with so many of its lines: the next gate is not open yet."""
    return b"".join(map(stored_image.block, stored_image.lines_of(name)[:count])) + b"\0"


def torn(name, count):
    """The same where the line behind them was being written: it stands there in part, and its gate is still shut."""
    return crashed(name, count) + stored_image.block(stored_image.lines_of(name)[count])[1:40]

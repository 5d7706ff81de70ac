"""The evening file in Python, an example to copy from and no part of the library: bytes in a file that is taken for good
only whole and undamaged. The file is a frame around them: their length in 8 bytes, they themselves, and in 4 bytes the
checksum of all that (CRC-32), lowest byte first; outside/evening has the same in Rust and C. For POSIX systems.
"""

import binascii
import os
import struct
from typing import Optional

_LENGTH, _CHECKSUM = struct.Struct("<Q"), struct.Struct("<I")


class Damaged(ValueError):
    """A file that is cut, longer or damaged, or no evening file."""


def framed(image: bytes) -> bytes:
    """The bytes of a file that holds the image."""
    front = _LENGTH.pack(len(image)) + image
    return front + _CHECKSUM.pack(binascii.crc32(front))


def image_in(data: bytes) -> Optional[bytes]:
    """The image that a file's bytes hold, if they are whole and undamaged."""
    if len(data) < _LENGTH.size + _CHECKSUM.size:
        return None
    image = data[_LENGTH.size : -_CHECKSUM.size]
    return image if framed(image) == data else None


def keep(path: str, image: bytes) -> None:
    """Keeps an image under the name: writes beside, brings it to the disk, renames. If this fails, the old file or the
    new one has the name, whole. When it ends well, the new one has it, on the disk, and the one that had it is kept: its
    name has ".before" behind it, or ".damaged" if it was no good evening file."""
    beside = path + ".new"
    with open(beside, "wb") as file:
        file.write(framed(image))
        file.flush()
        os.fsync(file.fileno())
    _keep_old(path)
    os.replace(beside, path)
    folder = os.open(os.path.dirname(path) or ".", os.O_RDONLY)
    try:
        os.fsync(folder)
    finally:
        os.close(folder)


def kept(path: str) -> bytes:
    """The image that was kept under the name, else Damaged. Nothing here goes back to the file before by itself: it holds
    older figures, and with them pages that were amended since would be served again."""
    with open(path, "rb") as file:
        image = image_in(file.read())
    if image is None:
        raise Damaged(f"{path} is damaged")
    return image


def _keep_old(path: str) -> None:
    """Keeps the file that has the name, if there is one, by whether it is good."""
    try:
        kept(path)
    except FileNotFoundError:
        return
    except Damaged:
        _second_name(path, path + ".damaged")
    else:
        _second_name(path, path + ".before")


def _second_name(path: str, name: str) -> None:
    """Gives the file a second name, while it has the first still."""
    second = path + ".second"
    _remove_if_there(second)
    os.link(path, second)
    os.replace(second, name)
    # Where both names were of one file already, a rename leaves both.
    _remove_if_there(second)


def _remove_if_there(path: str) -> None:
    try:
        os.remove(path)
    except FileNotFoundError:
        pass

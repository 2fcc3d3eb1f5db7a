"""The order of bytes in blocks and files, which is that of little endian on each machine."""
import array
import sys


def in_order(items: memoryview) -> memoryview:
    """Numbers as this machine has them, of those that a block or a file has; and these of such. Where this machine has
    big endian their bytes are turned round, in a copy."""
    if sys.byteorder == "little":
        return items
    turned = array.array(items.format, items.tobytes())
    turned.byteswap()
    return memoryview(turned)

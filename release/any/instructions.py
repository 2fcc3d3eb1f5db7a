"""The instructions of WebAssembly that the module has, by their codes, and what each is in C."""

# Types of values. Numbers of floating point are their bits.
KINDS = {0x7F: "u32", 0x7E: "u64", 0x7C: "u64"}
NO_KIND = 0x40
LOADS = {
    0x28: ("u32", "L32"), 0x29: ("u64", "L64"), 0x2B: ("u64", "L64"), 0x2C: ("u32", "L8S"), 0x2D: ("u32", "L8"), 0x2E: ("u32", "L16S"),
    0x2F: ("u32", "L16"), 0x30: ("u64", "L8SX"), 0x31: ("u64", "L8X"), 0x32: ("u64", "L16SX"), 0x33: ("u64", "L16X"), 0x34: ("u64", "L32SX"),
    0x35: ("u64", "L32X"),
}  # fmt: skip
STORES = {0x36: "S32", 0x37: "S64", 0x39: "S64", 0x3A: "S8", 0x3B: "S16", 0x3C: "S8", 0x3D: "S16", 0x3E: "S32"}
COUNTS = {0x67: ("u32", "CLZ32"), 0x68: ("u32", "CTZ32"), 0x79: ("u64", "CLZ64"), 0x7A: ("u64", "CTZ64")}
EXTENDED = {0xC0: ("u32", "s8"), 0xC1: ("u32", "s16"), 0xC2: ("u64", "s8"), 0xC3: ("u64", "s16"), 0xC4: ("u64", "s32"), 0xAC: ("u64", "s32")}
# From these instructions on; an s after the sign is for signed numbers.
COMPARED = ["==", "!=", "<s", "<", ">s", ">", "<=s", "<=", ">=s", ">="]
COMPARED_FROM = {0x46: 32, 0x51: 64}
CALCULATED = ["+", "-", "*", None, "/", None, "%", "&", "|", "^", "<<", ">>s", ">>", "ROTL", "ROTR"]
CALCULATED_FROM = {0x6A: 32, 0x7C: 64}

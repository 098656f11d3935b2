"""What the papers name: registers, their bits, commands, answers, and the words of IDENTIFY."""

READ_NAMES = {1: "Error", 2: "Sector-Count", 3: "Sector-Number", 4: "Cylinder-Low",
              5: "Cylinder-High", 6: "Device-Head", 7: "Status", 8: "Alternate-Status"}
WRITE_NAMES = {**READ_NAMES, 1: "Features", 7: "Command", 8: "Device-Control"}

# Names by bit, the highest first.
STATUS_BITS = {7: "BSY", 6: "DRDY", 5: "DF", 4: "DSC", 3: "DRQ", 2: "CORR", 1: "IDX", 0: "ERR"}
ERROR_BITS = {7: "BBK", 6: "UNC", 5: "MC", 4: "IDNF", 3: "MCR", 2: "ABRT", 1: "TK0NF", 0: "AMNF"}
CONTROL_BITS = {2: "SRST", 1: "nIEN"}
DEVICE_BITS = {6: "LBA", 4: "DEV"}
SRST, DEV = 0x04, 0x10

COMMANDS = {0x20: "READ SECTORS", 0x21: "READ SECTORS", 0x30: "WRITE SECTORS", 0x31: "WRITE SECTORS",
            0x40: "READ VERIFY", 0x41: "READ VERIFY", 0x90: "EXECUTE DEVICE DIAGNOSTIC",
            0x91: "INITIALIZE DEVICE PARAMETERS", 0xEC: "IDENTIFY", 0xE4: "READ BUFFER",
            0xE8: "WRITE BUFFER", 0xF1: "SET PASSWORD", 0xF2: "UNLOCK", 0xF3: "ERASE PREPARE",
            0xF4: "ERASE UNIT", 0xF5: "FREEZE", 0xF6: "DISABLE PASSWORD",
            **{code: "RECALIBRATE" for code in range(0x10, 0x20)},
            **{code: "SEEK" for code in range(0x70, 0x80)}}
IDENTIFY, DIAGNOSTIC = 0xEC, 0x90
PASSWORD_COMMANDS = {0xF1, 0xF2, 0xF4, 0xF6}
ONE_BLOCK_COMMANDS = {IDENTIFY, 0xE4, 0xE8} | PASSWORD_COMMANDS
SECTOR_COMMANDS = {0x20, 0x21, 0x30, 0x31}
READING_COMMANDS = {0x20, 0x21, 0xE4, IDENTIFY}

ANSWERS = {1: "no such register", 2: "state out of shape", 3: "sector memory of wrong length",
           4: "no transfer that way", 5: "recording malformed"}

# The words of document 01 for the replay device as it comes from setup.
FRESH_IDENTIFY = {0: 0x0040, 1: 4, 3: 2, 6: 8, 49: 0x0200, 53: 1, 54: 4, 55: 2, 56: 8, 57: 64, 60: 64,
                  80: 0x000E, 82: 0x0002, 83: 0x4000, 128: 0x0001,
                  **{place: 0x2020 for place in [*range(10, 20), *range(23, 47)]}}

LOCK_WORD = 128
LOCK_BITS = {0: "supported", 1: "enabled", 2: "locked", 3: "frozen", 4: "no attempts left"}
MAXIMUM_BIT = 8

# First and last word, name, and how the words are read: a number, a text, or bits with names.
IDENTIFY_FIELDS = [
    (0, 0, "configuration", {15: "ATAPI", 7: "removable media", 6: "not removable"}),
    (1, 1, "cylinders", "number"),
    (3, 3, "heads", "number"),
    (6, 6, "sectors per track", "number"),
    (10, 19, "serial number", "text"),
    (23, 26, "firmware revision", "text"),
    (27, 46, "model number", "text"),
    (49, 49, "capabilities", {9: "LBA", 8: "DMA"}),
    (53, 53, "valid words", {0: "54-58", 1: "64-70"}),
    (54, 54, "current cylinders", "number"),
    (55, 55, "current heads", "number"),
    (56, 56, "current sectors per track", "number"),
    (57, 58, "current capacity in sectors", "number"),
    (60, 61, "capacity in sectors", "number"),
    (80, 80, "versions", {1: "ATA-1", 2: "ATA-2", 3: "ATA-3"}),
    (82, 82, "command sets", {0: "SMART", 1: "security", 2: "removable media", 3: "power management"}),
    (83, 83, "command sets, second word", {14: "bit 14, always set"}),
    (LOCK_WORD, LOCK_WORD, "lock state", LOCK_BITS),
]


def command_name(code):
    return COMMANDS.get(code, "unknown command")


def bit_names(value, names):
    """The names of the bits that are set, in the table's order."""
    return [name for bit, name in names.items() if value >> bit & 1]


def word_bits(word, names):
    """The same for a word of IDENTIFY, and bits without a name as a number."""
    nameless = word & ~sum(1 << bit for bit in names)
    return bit_names(word, names) + ([f"{nameless:04X}h without a name"] if nameless else [])


def lock_state(word):
    """IDENTIFY's word 128 spelled out."""
    level = "Maximum" if word >> MAXIMUM_BIT & 1 else "High"
    return ", ".join([*word_bits(word & ~(1 << MAXIMUM_BIT), LOCK_BITS), f"level {level}"])

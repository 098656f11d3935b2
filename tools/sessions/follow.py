"""Follows a session as far as one can be sure by document 01 without being the disk.

It knows whose words are passed and which place in their block they have, and which writes are ignored. What it can't tell
it calls None: whether DEV is set where a write to Device/Head may have met an open transfer, whether a command that the
lock or an address may have stopped has opened one. Reading Status or Device/Head settles both.
"""
from sessions import form, papers

STATUS_DEV_SET, BSY, DRQ = 0x00, 0x80, 0x08


class Follower:
    def __init__(self):
        self.held = False  # SRST
        self.start()

    def start(self):
        """DEV clear and no transfer: after resets, power-on, SRST and 90h."""
        self.dev = self.open = False
        self.forget()

    def forget(self):
        """Whose words come next isn't known."""
        self.code, self.passed = None, 0

    @property
    def place(self):
        """The place of the next word in its block."""
        return None if self.code is None or self.open is False else self.passed % 256

    @property
    def identifies(self):
        return self.code == papers.IDENTIFY and self.place is not None

    def ignored(self, payload):
        """Why a register write does nothing, where that is sure."""
        if payload[0] != form.WRITE_REGISTER or not 1 <= payload[1] <= 7:
            return None
        if self.held:
            return "reset is held"
        if payload[1] == 7:
            return "DEV is set" if self.dev and payload[2] != papers.DIAGNOSTIC else None
        return "a transfer is open" if self.open else None

    def step(self, payload, answer):
        """One record and its answer and value, or None where these are not known."""
        kind, refused = payload[0], answer is not None and answer[0] != 0
        if kind in (form.HARDWARE_RESET, form.POWER_ON):
            self.held = False
            self.start()
        elif kind == form.WRITE_REGISTER and not refused:
            self.write(payload)
        elif kind == form.READ_REGISTER and answer and not refused:
            self.read(payload[1], answer[1])
        elif kind in (form.READ_WORD, form.WRITE_WORD):
            self.word(kind, answer)

    def write(self, payload):
        register, value = payload[1:]
        if register == 8:
            self.held = bool(value & papers.SRST)
            if self.held:
                self.start()
        elif self.ignored(payload):
            return
        elif register == 7:
            self.command(value)
        elif register == 6:
            maybe_ignored = self.open is None and value & papers.DEV
            self.dev = None if maybe_ignored else bool(value & papers.DEV)

    def command(self, code):
        if code == papers.DIAGNOSTIC:
            self.start()
            return
        self.code, self.passed = code, 0
        opens = code in papers.ONE_BLOCK_COMMANDS | papers.SECTOR_COMMANDS
        sure = self.dev is False and code in papers.ONE_BLOCK_COMMANDS - papers.PASSWORD_COMMANDS
        self.open = (sure or None) if opens else False

    def read(self, register, value):
        if register == 6 and value & papers.DEV or register in (7, 8) and value == STATUS_DEV_SET:
            self.dev, self.open = True, False
        elif register == 6:
            self.dev = False
        elif register in (7, 8) and not value & BSY:
            self.dev = False
            if value & DRQ and self.open is False:
                self.forget()
            self.open = bool(value & DRQ)

    def word(self, kind, answer):
        """A word that is answered 0 shows that the last Command ran: had it been ignored, no transfer would be open."""
        if self.code is None:
            return
        refused = answer is not None and answer[0] != 0
        against = (kind == form.READ_WORD) != (self.code in papers.READING_COMMANDS)
        if refused and against:
            return
        if refused or against:
            self.open = False if refused else None
            self.forget()
            return
        self.passed += 1
        if self.passed % 256 == 0:
            self.open = False if self.code in papers.ONE_BLOCK_COMMANDS else None
        elif answer:
            self.dev, self.open = False, True

"""What a hart is: what the head of a script of version 3 says, and which modes it has."""
from dataclasses import dataclass

PAGE = 0x1000


@dataclass(frozen=True)
class Hart:
    xlen: int = 64
    entries: int = 16
    # Bytes of its smallest region, and bits of its physical addresses.
    grain: int = 4
    bits: int = 56
    has_smepmp: bool = True
    modes: str = "MSU"
    # Which of MML, MMWP and RLB a reset leaves set.
    reset_security: int = 0
    # Up to where loads are tried, each behind which there is memory.
    memory: int = 2**56
    # What accesses memory beside plain loads and stores, by the words of suite/blob.py.
    extensions: tuple = ("lr", "float", "vector", "block", "hypervisor", "walk", "clean", "inval", "hlvx", "guest",
                         "masked")

    def head(self):
        """The first lines of its scripts: what isn't so where nothing is said."""
        bits = 56 if self.xlen == 64 else 34
        fields = (("xlen", self.xlen, 64), ("entries", self.entries, 16), ("grain", self.grain, 4),
                  ("bits", self.bits, bits), ("smepmp", "yes" if self.has_smepmp else "no", "yes"))
        yield "pmp 3"
        yield from (f"hart {name} {value}" for name, value, default in fields if value != default)

    @property
    def last(self):
        return self.entries - 1

    @property
    def ones(self):
        """The largest address that a register holds."""
        return 2**(self.bits - 2) - 1

    @property
    def low_bits(self):
        """The bits of an address register below the grain."""
        return self.grain // 4 - 1

    @property
    def eight(self):
        """The size of the smallest region by NAPOT."""
        return max(8, self.grain)

    @property
    def page(self):
        """A page, or four regions of the grain where these are larger."""
        return max(PAGE, 4 * self.grain)

    @property
    def lower(self):
        """The modes below machine mode."""
        return self.modes.replace("M", "")

    @property
    def bytes_in(self):
        """How many configuration bytes a register has."""
        return self.xlen // 8

    def configuration(self, entry):
        """The register with the entry's byte."""
        return f"pmpcfg{entry // self.bytes_in * self.bytes_in // 4}"

    def first_entry(self, name):
        """The entry whose byte is the lowest of a configuration register."""
        return 4 * int(name[6:])

    def configurations(self, entries):
        """The registers with the bytes of so many entries."""
        return [self.configuration(it) for it in range(0, entries, self.bytes_in)]

    def registers(self, entries=None):
        """The registers in the order of `pmp dump`, of so many entries."""
        entries = self.entries if entries is None else entries
        return [*self.configurations(entries), *(f"pmpaddr{it}" for it in range(entries)), "mseccfg"]

    def byte_of(self, state, entry):
        """An entry's configuration byte in the registers."""
        return state.get(self.configuration(entry), 0) >> 8 * (entry % self.bytes_in) & 0xff

    def some(self, *wanted):
        """Of these entries, or the last one in place of those that it doesn't have."""
        return sorted({min(it, self.last) for it in wanted} if self.entries else ())

    def has(self, by):
        """Whether it has the instruction of such an access."""
        word = "lr" if by == "sc" or by.startswith("amo") else {"flush": "clean", "update": "walk"}.get(by, by)
        return word in ("", "unsigned", "falling", "mprv", *self.extensions)

    def securities(self, *wanted):
        """Of these values of mseccfg those that it can have."""
        return wanted if self.has_smepmp else tuple(it for it in wanted if it == 0)

    def matchings(self, *wanted):
        """Of these modes of matching those that it can have."""
        return wanted if self.grain == 4 else tuple(it for it in wanted if it != 2)

"""Scripts at the limits, for checks/page and bench/page."""


def limit_scripts():
    """Each script by its name, and the numbers of publications after which it is asked of."""
    many = "pmp 2\n" + "".join(
        "".join(f"write pmpaddr{entry} {hex(0x20000000 + 64 * batch + entry)}\n" for entry in range(56))
        + "".join(f"write pmpcfg{it} {hex(0x1b1b1b1b1b1b1b1b ^ (batch % 8))}\n" for it in range(0, 16, 2)) + "publish\n"
        for batch in range(256))
    comb = "pmp 2\n" + "".join(f"write pmpaddr{it} {2 * it + 1}\n" for it in range(64)) + "publish\n" \
        + "".join(f"write pmpcfg{it} 0x1111111111111111\n" for it in range(0, 16, 2)) + "publish\n"
    longest = "pmp 1\n" + "publish\n" * 4000 + "write pmpaddr0 0x1f\nwrite pmpcfg0 0x9f\npublish\n"
    longest += "#" * (1048576 - len(longest))
    return {"256 publications": (many, [0, 1, 128, 256]), "the most runs": (comb, [0, 1, 2]),
            "the longest script": (longest, [0, 1, 4000, 4001])}

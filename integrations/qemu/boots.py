"""Boots by OpenSBI 1.1, 1.6 and 1.9, with and without Smepmp, of U-Boot up to its prompt and of Linux to its end: on one
hart, since which of two boots isn't given."""
import subprocess

from linux import firmware_of, linux_words
from machine import PROMPT, Machine

CPUS = ("rv64", "rv64,smepmp=true")
SUITES = ("bookworm", "trixie", "sid")
END = "user mode runs", "reboot: Power down"
# Virtual time goes by instructions, so that both tell the same times.
BY_INSTRUCTIONS = ["-icount", "shift=3,sleep=off"]


def u_boot(qemu, work, cpu, suite):
    with Machine(qemu, work, "-cpu", cpu, "-bios", firmware_of(suite), "-smp", "1") as machine:
        return (machine.console() + machine.console_to_prompt()).decode("latin-1")


def linux(qemu, work, cpu, suite):
    done = subprocess.run([qemu, *linux_words(work, cpu, suite), *BY_INSTRUCTIONS], capture_output=True, check=True)
    return done.stdout.decode("latin-1")


def compare_payloads(tally, work, stock, ours):
    for suite in SUITES:
        for cpu in CPUS:
            name = f"OpenSBI of {suite}, {cpu}"
            wanted, got = (u_boot(it, work, cpu, suite) for it in (stock, ours))
            tally.same(f"{name}: the console of U-Boot", got, wanted)
            tally.same(f"{name}: its prompt", got.encode()[-len(PROMPT):], PROMPT)
            wanted, got = (linux(it, work, cpu, suite) for it in (stock, ours))
            tally.same(f"{name}: the console of Linux", got, wanted)
            tally.same(f"{name}: its end", [it in got for it in END], [True, True])

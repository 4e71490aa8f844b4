"""Linux of Debian 13, with a root in memory that has one program, init.S."""
import glob
import os
import subprocess

HERE = os.path.dirname(os.path.realpath(__file__))
DEBIAN = os.path.join(os.path.dirname(HERE), "debian")


def root_of(suite):
    return subprocess.run([f"{DEBIAN}/root", suite], check=True, capture_output=True, text=True).stdout.strip()


def firmware_of(suite, name="fw_jump.bin"):
    return f"{root_of(suite)}/usr/lib/riscv64-linux-gnu/opensbi/generic/{name}"


def entry(name, mode, data=b""):
    """One file in cpio's format newc."""
    fields = [0, mode, 0, 0, 1, 0, len(data), 0, 0, 0, 0, len(name) + 1, 0]
    head = b"070701" + b"".join(b"%08X" % it for it in fields) + name.encode() + b"\0"
    return head + bytes(-len(head) % 4) + data + bytes(-len(data) % 4)


def make_initrd(work):
    program, path = f"{work}/init", f"{work}/initrd"
    subprocess.run(["riscv64-linux-gnu-gcc", "-static", "-nostdlib", "-Wl,--build-id=none", f"{HERE}/init.S", "-o",
                    program], check=True)
    with open(program, "rb") as it:
        data = it.read()
    with open(path, "wb") as it:
        it.write(entry("init", 0o100755, data) + entry("TRAILER!!!", 0))
    return path


def linux_words(work, cpu, suite="trixie"):
    """QEMU's, for a boot by OpenSBI of the suite. What is random comes from a seed."""
    kernel, = glob.glob(f"{root_of('trixie-riscv64')}/boot/vmlinux-*")
    return ["-M", "virt", "-cpu", cpu, "-m", "512M", "-bios", firmware_of(suite, "fw_dynamic.bin"), "-kernel", kernel,
            "-initrd", make_initrd(work), "-append", "console=ttyS0", "-seed", "1",
            "-rtc", "base=2020-01-01T00:00:00,clock=vm", "-nic", "none", "-display", "none", "-monitor", "none",
            "-serial", "stdio"]

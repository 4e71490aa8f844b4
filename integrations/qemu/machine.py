"""A QEMU that waits at its first instruction, its console, and its debugger's port, by which it is asked."""
import os
import re
import resource
import socket
import subprocess

from linux import firmware_of, root_of

FIRMWARE = firmware_of("bookworm", "fw_jump.elf")
PAYLOAD = f"{root_of('bookworm')}/usr/lib/u-boot/qemu-riscv64_smode/uboot.elf"
# Virtual time goes by instructions, and what is random comes from a seed, so that two runs of a hart do the same.
WORDS = ["-M", "virt", "-cpu", "rv64,smepmp=true,zkr=true", "-smp", "2", "-m", "128M", "-bios", FIRMWARE, "-kernel",
         PAYLOAD, "-icount", "shift=8,sleep=off", "-seed", "1", "-rtc", "base=2020-01-01T00:00:00,clock=vm", "-nic",
         "none", "-display", "none", "-monitor", "none", "-serial", "stdio", "-S"]
TRACED = ("pmpcfg_csr_write", "pmpaddr_csr_write", "mseccfg_csr_write")
PROMPT = b"\n=> "
# So many seconds of a processor has a QEMU, and then it is killed, so that no one waits for one that hangs.
LIMIT = 300


class Machine:
    def __init__(self, qemu, work, *words):
        self.port, self.log = f"{work}/gdb", f"{work}/trace"
        for path in (self.port, self.log):
            if os.path.exists(path):
                os.remove(path)
        listening = socket.socket(socket.AF_UNIX)
        listening.bind(self.port)
        listening.listen()
        traced = [it for name in TRACED for it in ("-trace", name)]
        self.process = subprocess.Popen(
            [qemu, *WORDS, *traced, "-D", self.log, "-gdb", f"unix:{self.port}", *words], stdin=subprocess.PIPE,
            stdout=subprocess.PIPE, preexec_fn=lambda: resource.setrlimit(resource.RLIMIT_CPU, (LIMIT, LIMIT)))
        self.socket = self.accept(listening)
        self.first_csr = None

    def accept(self, listening):
        """The connection that QEMU makes, unless it ends before."""
        listening.settimeout(1)
        while True:
            try:
                return listening.accept()[0]
            except TimeoutError:
                if self.process.poll() is not None:
                    raise SystemExit("QEMU ended before it was asked") from None

    def __enter__(self):
        return self

    def __exit__(self, *_):
        self.process.kill()
        self.process.communicate()
        self.socket.close()

    def send(self, text):
        self.socket.sendall(b"$%s#%02x" % (text.encode(), sum(text.encode()) % 256))

    def byte(self):
        it = self.socket.recv(1)
        if not it:
            raise SystemExit("QEMU ended, or was killed for its time")
        return it

    def answer(self):
        while self.byte() != b"$":
            pass
        text = b""
        while (it := self.byte()) != b"#":
            text += bytes([self.byte()[0] ^ 32]) if it == b"}" else it
        self.byte(), self.byte()
        self.socket.sendall(b"+")
        return text.decode("latin-1")

    def ask(self, text):
        self.send(text)
        return self.answer()

    def monitor(self, command):
        """What the monitor says to the command."""
        self.send("qRcmd," + command.encode().hex())
        said = ""
        while (it := self.answer()) != "OK":
            said += bytes.fromhex(it[1:]).decode()
        return said

    def number_of(self, csr):
        """The debugger's number of the CSR."""
        if self.first_csr is None:
            text = ""
            while (it := self.ask(f"qXfer:features:read:riscv-csr.xml:{len(text):x},800"))[0] == "m":
                text += it[1:]
            text += it[1:]
            self.first_csr = int(re.search(r'name="pmpcfg0"[^/]*regnum="(\d+)"', text)[1]) - 0x3A0
        return self.first_csr + csr

    def read(self, hart, csr):
        self.ask(f"Hg{hart + 1}")
        return int.from_bytes(bytes.fromhex(self.ask(f"p{self.number_of(csr):x}")), "little")

    def write(self, hart, csr, value):
        self.ask(f"Hg{hart + 1}")
        return self.ask(f"P{self.number_of(csr):x}={value.to_bytes(8, 'little').hex()}")

    def run_to(self, address):
        self.ask(f"Z1,{address:x},4")
        self.ask("c")
        self.ask(f"z1,{address:x},4")

    def console(self):
        """What the console has said and wasn't read yet."""
        os.set_blocking(self.process.stdout.fileno(), False)
        return self.process.stdout.read() or b""

    def console_to_prompt(self):
        os.set_blocking(self.process.stdout.fileno(), True)
        self.send("c")
        text = b""
        while not text.endswith(PROMPT):
            it = os.read(self.process.stdout.fileno(), 4096)
            if not it:
                break
            text += it
        return text

    def traced(self):
        with open(self.log, encoding="ascii") as it:
            return it.read()

    def save(self, path):
        """Sends the state there, as a migration does: as that of a machine that was paused, since no target takes one
        that a debugger stopped."""
        self.monitor(f'migrate -d "exec:cat >{path}"')
        while "completed" not in (said := self.monitor("info migrate")):
            if "failed" in said:
                raise SystemExit(f"the state isn't saved: {said}")
        with open(path, "rb") as it:
            state = it.read()
        with open(path, "wb") as it:
            it.write(state.replace(b"\0\0\0\6debug\0\0", b"\0\0\0\7paused\0"))

    def wait_for_state(self):
        while "inmigrate" in self.monitor("info status"):
            pass

#!/usr/bin/env python3
"""Tries `rvsuite` where the system fails it: see faults.sh, which starts this."""
import atexit
import os
import re
import resource
import shutil
import signal
import subprocess
import sys
import tempfile
import time

PROGRAM, REFUSE = os.path.abspath(sys.argv[1]), os.path.abspath(sys.argv[2])
ALL = ["memory", "space", "files", "disk", "streams", "devices", "inputs"]
PARTS = sys.argv[3:] or ALL
ISA = "hart_ids: [0]\nhart0:\n  ISA: RV32IM\n"
ADD = "add:\n  mnemonics:\n    add: 0\n"
FOUR = "".join(f"{op}:\n  mnemonics:\n    {op}: 0\n" for op in ("add", "lw", "beq", "jalr"))
SELF = (
    "name: self\ncommand: "
    "['{self}', reference, --isa, i.yaml, --test, '{test}', --signature, '{signature}']\n"
)
ELF = SELF.replace("{test}", "{elf}")
LOG = (
    "core   0: 0x80000000 (0x00600293) li t0, 6\n"
    "core   0: 3 0x80000000 (0x00600293) x5  0x00000006\n"
    "core   0: 3 0x80000004 (0x005282b3) x5  0x0000000c\n"
)
HITS = "a: {mnemonics: {add: 0}, val_comb: {rs1_val == 6: 0, rs1_val == 0: 0}}\n"
END = ".data\nbegin_signature:\n.word %d\nend_signature:\ntohost:\n.word 0\n"
TEST = "    lui x5, %hi(tohost)\n    addi x6, x0, 1\n    sw x6, %lo(tohost)(x5)\n" + END
CHECK = "  parts:\n    '0':\n      check: ['check ISA:=regex(.*I.*)']\n"
FILES = {
    "i.yaml": ISA,
    "add.cgf": ADD,
    "four.cgf": FOUR,
    "hits.cgf": HITS,
    "self.yaml": SELF,
    "elf.yaml": ELF,
    "t.log": LOG,
    "a.S": TEST.replace("%d", "1"),
    "c.S": TEST.replace("%d", "3"),
    "b.yaml": f"a.S:\n{CHECK}c.S:\n{CHECK}",
    "left.sig": "00000001\nffffffff\n",
    "right.sig": "00000001\r\nFFFFFFFF\r\n",
}
LABELS = ("add", "lw", "beq", "jalr")
JUDGED = [f"w/{label}{end}" for label in LABELS for end in (".S", ".reference.sig", ".device.sig")]
TAKEN = [f"w/{k}.{end}" for k in (0, 1) for end in ("elf", "reference.sig", "device.sig")]
# A call of each command, and the files that it writes, in the order in which it does.
CALLS = {
    "validate": ("--isa i.yaml", []),
    "normalize": ("--isa i.yaml --cgf four.cgf", []),
    "generate": ("--isa i.yaml --cgf add.cgf --work w", ["w/add.S"]),
    "reference": ("--isa i.yaml --test a.S --signature w/s --log w/l", ["w/s", "w/l"]),
    "coverage": ("--isa i.yaml --cgf hits.cgf --log t.log", []),
    "propagate": ("--isa i.yaml --cgf hits.cgf --log t.log --signature 0x0:0x8", []),
    "compare": ("left.sig right.sig", []),
    "select": ("--isa i.yaml --database b.yaml", []),
    "run": ("--isa i.yaml --cgf four.cgf --device self.yaml --work w", JUDGED),
    "run over a database": ("--isa i.yaml --database b.yaml --device elf.yaml --work w", TAKEN),
    "demo": ("10", []),
}
failed = 0


def differs(*what):
    global failed
    failed += 1
    print("DIFFERS", *what, flush=True)


class Folder:
    """A folder with the inputs, and an empty folder `w` in it."""

    def __init__(self, **more):
        self.path = tempfile.mkdtemp(prefix="faults-", dir=os.environ.get("FAULTS_IN"))
        atexit.register(shutil.rmtree, self.path, ignore_errors=True)
        for name, text in {**FILES, **more}.items():
            self.put(name, text)
        os.mkdir(f"{self.path}/w")

    def put(self, name, text):
        with open(f"{self.path}/{name}", "wb") as file:
            file.write(text if isinstance(text, bytes) else text.encode())

    def get(self, name):
        try:
            with open(f"{self.path}/{name}", "rb") as file:
                return file.read()
        except FileNotFoundError:
            return None

    def clear(self):
        for name in os.listdir(f"{self.path}/w"):
            os.remove(f"{self.path}/w/{name}")

    def words(self, name):
        return [PROGRAM, name.split(" ")[0], *CALLS[name][0].split(" ")]

    def run(self, words, before=None, **how):
        pipe = subprocess.PIPE
        how = {"stdin": subprocess.DEVNULL, "stdout": pipe, "stderr": pipe, **how}
        return subprocess.run(
            words, cwd=self.path, preexec_fn=before, timeout=120, restore_signals=False, **how
        )

    def left(self, names):
        return [self.get(name) for name in names]

    def inputs_changed(self):
        return [name for name, text in FILES.items() if self.get(name) != text.encode()]


class Whole:
    """A call of a command as it ends where nothing fails."""

    def __init__(self, folder, name):
        folder.clear()
        self.name, self.outputs = name, CALLS[name][1]
        ran = folder.run(folder.words(name))
        self.status, self.out = ran.returncode, ran.stdout
        self.files = folder.left(self.outputs)
        if ran.returncode != 0 or ran.stderr or None in self.files:
            differs(name, "doesn't pass where nothing fails:", ran)

    def is_front(self, left):
        """Whether files are whole up to a front of what one is to be, and none behind it."""
        done = True
        for have, want in zip(left, self.files):
            if have is not None and not (done and want.startswith(have)):
                return False
            done = done and have == want
        return True

    def told(self, folder, ran, what, may=()):
        """The status of a run with a fault, whose output and files have to be a beginning."""
        left, out, err = folder.left(self.outputs), ran.stdout or b"", (ran.stderr or b"").decode()
        if not self.out.startswith(out):
            differs(self.name, what, "output", out)
        if not self.is_front(left):
            differs(self.name, what, "files", left)
        if folder.inputs_changed():
            differs(self.name, what, "changed", folder.inputs_changed())
        if ran.returncode == self.status:
            if left != self.files or err or out != self.out and ran.stdout is not None:
                differs(self.name, what, "passes over a fault", ran)
            return "whole"
        lines = {
            4: r"rvsuite: (cannot (read|write|run)|no file) [^\n]*\n",
            5: r"(rvsuite: [^\n]*\n?)?",
            6: r"rvsuite: out of memory\n",
        }
        if ran.returncode in lines and re.fullmatch(lines[ran.returncode], err):
            return f"{ran.returncode} {err.strip()}" if ran.returncode == 4 else f"{ran.returncode}"
        for status, line in may:
            if ran.returncode == status and re.fullmatch(line, err):
                return f"{status}"
        differs(self.name, what, ran)
        return "else"


def counted(found):
    counts = {}
    for one in found:
        counts[one] = counts.get(one, 0) + 1
    return ", ".join(f"{count} times {one}" for one, count in sorted(counts.items()))


def memory():
    """Each request for memory refused in turn: status 6 and its line."""
    folder = Folder()
    for name in CALLS:
        whole, found, number = Whole(folder, name), [], 0
        while True:
            number += 1
            folder.clear()
            mark = f"{folder.path}/refused"
            env = {"PATH": os.environ["PATH"], "LD_PRELOAD": REFUSE}
            env.update({"REFUSE": str(number), "REFUSED": mark})
            ran = folder.run(folder.words(name), env=env)
            if not os.path.exists(mark):
                break
            os.remove(mark)
            found.append(whole.told(folder, ran, f"request {number}"))
        print(f"memory: {name}: {number - 1} requests: {counted(found)}", flush=True)


def limited(kind, size):
    return lambda: resource.setrlimit(kind, (size, size))


def ranges(found):
    """What came of each size, as the least of each range of sizes alike."""
    told, last = [], None
    for size, one in found:
        if one != last:
            told.append(f"{one} from {size} on")
        last = one
    return ", ".join(told)


def space():
    """Less and less room for the process (ulimit -v), in steps of 16 KiB and 1 MiB."""
    folder = Folder()
    # Below some size the loader has no room for the program and its libraries.
    loader = [
        (127, r"[^\n]*(error while loading shared libraries|cannot allocate TLS)[^\n]*\n"),
        (-signal.SIGSEGV, ""),
        (-signal.SIGKILL, ""),
    ]
    for name in CALLS:
        whole, found = Whole(folder, name), []
        for size in [*range(1 << 20, 12 << 20, 1 << 14), *range(12 << 20, 64 << 20, 1 << 20)]:
            folder.clear()
            try:
                ran = folder.run(folder.words(name), limited(resource.RLIMIT_AS, size))
            except (subprocess.SubprocessError, OSError):
                found.append((size, "isn't started"))
                continue
            found.append((size, whole.told(folder, ran, f"room {size}", loader)))
        print(f"space: {name}: {ranges(found)}", flush=True)


def files():
    """Files that take no more than so many bytes (ulimit -f), for each number of bytes."""
    folder = Folder()
    for name in CALLS:
        whole, found = Whole(folder, name), []
        longest = max([0, *map(len, whole.files)])

        def before(size):
            signal.signal(signal.SIGXFSZ, signal.SIG_IGN)
            resource.setrlimit(resource.RLIMIT_FSIZE, (size, size))

        for size in range(0, longest + 2, 1 if longest < 3000 else 7) if longest else []:
            folder.clear()
            ran = folder.run(folder.words(name), lambda: before(size))
            if b"FAIL" in ran.stdout:
                found.append(f"{ran.returncode} behind a FAIL")  # the device has the limit too
                continue
            found.append(whole.told(folder, ran, f"files of {size} bytes"))
        print(f"files: {name}: {counted(found)}", flush=True)
        found = []
        for size in range(len(whole.out) + 1):
            folder.clear()
            with open(f"{folder.path}/out", "wb") as out:
                at = 65536
                out.seek(at - size)
                ran = folder.run(folder.words(name), lambda: before(at), stdout=out)
            ran.stdout = folder.get("out")[at - size:]
            found.append(whole.told(folder, ran, f"output of {size} bytes"))
        print(f"files: output of {name}: {counted(found)}", flush=True)


def disk():
    """A disk of 64 KiB that is full but for so many pages."""
    os.environ["FAULTS_IN"] = tempfile.mkdtemp(prefix="faults-disk-")
    mounted = ["mount", "-t", "tmpfs", "-o", "size=128k", "rvsuite", os.environ["FAULTS_IN"]]
    if subprocess.run(mounted).returncode:
        print("disk: no disk could be mounted")
        return
    try:
        for name in ("generate", "reference", "run", "run over a database"):
            found = []
            folder = Folder()
            whole = Whole(folder, name)
            for pages in range(12):
                folder.clear()
                with open(f"{folder.path}/filler", "wb", buffering=0) as filler:
                    try:
                        while True:
                            filler.write(bytes(4096))
                    except OSError:
                        pass
                    filler.truncate(os.fstat(filler.fileno()).st_size - 4096 * pages)
                ran = folder.run(folder.words(name))
                os.remove(f"{folder.path}/filler")
                if b"FAIL" in ran.stdout:
                    found.append(f"{ran.returncode} behind a FAIL")  # the device found it full
                    continue
                found.append(whole.told(folder, ran, f"{pages} pages"))
            shutil.rmtree(folder.path)
            print(f"disk: {name}: {counted(found)}", flush=True)
    finally:
        place = os.environ.pop("FAULTS_IN")
        subprocess.run(["umount", place])
        os.rmdir(place)


def streams():
    """Streams that are closed, full, or have no reader."""
    folder = Folder()
    for name in CALLS:
        whole, found = Whole(folder, name), []
        for closed in [(0,), (1,), (2,), (0, 1), (0, 2), (1, 2), (0, 1, 2)]:
            folder.clear()
            how = {"stdout": None} if 1 in closed else {}
            how.update({"stderr": None} if 2 in closed else {})
            ran = folder.run(folder.words(name), lambda: [os.close(k) for k in closed], **how)
            wanted = "5" if 1 in closed else "whole"
            got = whole.told(folder, ran, f"closed {closed}")
            found.append(f"closed {closed}: {got}")
            if got != wanted:
                differs(name, "closed", closed, got)
        for what, way in (("full", "/dev/full"), ("without a reader", None)):
            folder.clear()
            if way:
                with open(way, "wb") as out:
                    ran = folder.run(folder.words(name), stdout=out)
            else:
                read, write = os.pipe()
                os.close(read)
                ran = folder.run(folder.words(name), stdout=write)
                os.close(write)
            got = whole.told(folder, ran, what)
            found.append(f"{what}: {got}")
            if got != "5":
                differs(name, what, got)
        # The words are no command, and the stream for errors is closed or full.
        for what in ("closed", "full"):
            with open("/dev/full", "wb") as full:
                before = (lambda: os.close(2)) if what == "closed" else None
                ran = folder.run([PROGRAM, name], before, stderr=None if before else full)
            if ran.returncode != 5:
                differs(name, "errors", what, ran)
        print(f"streams: {name}: {counted(found)}", flush=True)


SIG = "w/add.device.sig"
GOOD = f"printf '00000002\\n00000000\\n' >{SIG}"
SILENT, LONG = "FAIL add no signature, status 0", "FAIL add signature too long, status 0"
RIGHT = "PASS add 2 words, status 0"
# A device's script, the status, and the verdict or what the error stream has.
DEVICES = {
    "does it right": (GOOD, 0, RIGHT),
    "is killed": ("kill -9 $$", 1, "FAIL add no signature, status -1"),
    "is killed behind its work": (f"{GOOD}; kill -9 $$", 0, "PASS add 2 words, status -1"),
    "faults": ("kill -SEGV $$", 1, "FAIL add no signature, status -1"),
    "ends with 255": ("exit 255", 1, "FAIL add no signature, status 255"),
    "writes nothing": ("true", 1, SILENT),
    "takes the file away": (f"rm {SIG}", 1, SILENT),
    "writes half a word": (
        f"printf '00000002\\n0000' >{SIG}",
        1,
        "FAIL add bad signature line 2, status 0",
    ),
    "writes 1 GB of zeros": (f"head -c 1000000000 /dev/zero >{SIG}", 1, LONG),
    "writes 90 MB of words": (f"yes 00000002 | head -c 90000000 >{SIG}", 1, LONG),
    "prints 200 MB": (f"yes | head -c 200000000; {GOOD}", 0, RIGHT),
    "reads its input": (f"cat; {GOOD}", 0, RIGHT),
    "leaves a child behind": (f"sleep 20 & {GOOD}", 0, RIGHT),
    "leaves a child that writes late": (f"(sleep 1; {GOOD}) & true", 1, SILENT),
    "leaves a child that writes for ever": (
        f"timeout 3 yes 00000002 >{SIG} & sleep 1",
        1,
        LONG,
    ),
    "leaves a folder": (f"rm {SIG}; mkdir {SIG}", 4, f"rvsuite: cannot read {SIG}"),
    "leaves a link to nowhere": (f"ln -sf nowhere {SIG}", 1, SILENT),
    "leaves a link to itself": (
        f"rm {SIG}; ln -s add.device.sig {SIG}",
        4,
        f"rvsuite: cannot read {SIG}",
    ),
    "leaves a link to zeros": (f"ln -sf /dev/zero {SIG}", 1, LONG),
    "spoils the reference's file": (
        f"echo 00000007 >w/add.reference.sig; {GOOD}",
        0,
        RIGHT,
    ),
    "spoils the test": (f"echo >w/add.S; {GOOD}", 0, RIGHT),
    "spoils the inputs": (f"echo >i.yaml; echo >d.yaml; {GOOD}", 0, RIGHT),
    "takes the folder away": ("rm -r w", 1, SILENT),
}
PROGRAMS = {
    "/no/such/program": "isn't there",
    "/": "is a folder",
    "./i.yaml": "may not be started",
    "./text": "is a text without #!",
    "x" * 5000: "has a long name",
}


# What the device does on the first test of a database, the status, and the last line of either.
NEXT = {
    "spoils the next test": ("echo x >c.S", 3, "rvsuite: c.S: asm 2 line 1"),
    "takes the next test away": ("rm c.S", 4, "rvsuite: no file c.S"),
    "leaves a folder for the next test": ("rm c.S; mkdir c.S", 4, "rvsuite: cannot read c.S"),
    "makes the next test too long": (
        "head -c 67108865 /dev/zero >c.S",
        3,
        "rvsuite: c.S: length 67108864",
    ),
    "lets the next test run without end": (
        "sed -i '1i loop: j loop' c.S",
        3,
        "rvsuite: c.S: steps 1000000",
    ),
    "spoils the database": ("echo x >b.yaml", 0, "total 2 tests, 2 pass, 0 fail"),
}
GROUPS = "--cgf add.cgf"


def device_run(folder, device, tests=GROUPS):
    folder.put("d.yaml", device)
    began = time.monotonic()
    words = [PROGRAM, *f"run --isa i.yaml {tests} --device d.yaml --work w".split(" ")]
    ran = folder.run(["/usr/bin/env", "time", "-f", "%M", "-o", f"{folder.path}/most", *words])
    return ran, time.monotonic() - began, int(folder.get("most").split()[-1]) // 1024


def devices():
    """Devices that don't do what they are asked for."""
    for what, (script, status, end) in DEVICES.items():
        folder = Folder()
        folder.put("script", f"{script}\n")
        ran, seconds, most = device_run(folder, "name: d\ncommand: [sh, script]\n")
        lines = (ran.stderr if status == 4 else ran.stdout).decode().splitlines()
        told = lines[-1 if status == 4 else -2] if len(lines) > 1 or status == 4 else ""
        if (ran.returncode, told) != (status, end):
            differs("device", what, ran)
        spent = f"{seconds:.1f} s, {most} MB"
        print(f"devices: {what}: {told}, status {ran.returncode}, {spent}", flush=True)
        shutil.rmtree(folder.path)
    for what, (script, status, end) in NEXT.items():
        words = f"case $1 in a.S) {script}; echo 00000001;; *) echo 00000003;; esac >$2\n"
        folder = Folder(script=words)
        device = "name: d\ncommand: [sh, script, '{test}', '{signature}']\n"
        ran, seconds, most = device_run(folder, device, "--database b.yaml")
        told = (ran.stderr or ran.stdout).decode().splitlines()[-1]
        passed = ran.stdout.startswith(b"PASS a.S 1 words, status 0\n")
        if (ran.returncode, told, passed) != (status, end, True):
            differs("device", what, ran)
        spent = f"{seconds:.1f} s, {most} MB"
        print(f"devices: {what}: {told}, status {ran.returncode}, {spent}", flush=True)
        shutil.rmtree(folder.path)
    for program, what in PROGRAMS.items():
        folder = Folder(text=b"true\n")
        os.chmod(f"{folder.path}/text", 0o700)
        ran, _, _ = device_run(folder, f"name: d\ncommand: ['{program}']\n")
        if (ran.returncode, ran.stderr) != (4, b"rvsuite: cannot run w/add.S\n"):
            differs("device", what, ran)
        print(f"devices: the program {what}: status {ran.returncode}", flush=True)


# An input and words that read it; the statuses that may come of it.
INPUTS = [
    ("i.yaml", "validate --isa i.yaml", (0, 3)),
    ("four.cgf", "normalize --isa i.yaml --cgf four.cgf", (0, 3)),
    ("hits.cgf", "generate --isa i.yaml --cgf hits.cgf --work w", (0, 3)),
    ("t.log", "coverage --isa i.yaml --cgf hits.cgf --log t.log", (0,)),
    ("t.log", "propagate --isa i.yaml --cgf hits.cgf --log t.log --signature 0x0:0x8", (0,)),
    ("left.sig", "compare left.sig right.sig", (0, 1, 3)),
    ("right.sig", "compare left.sig right.sig", (0, 1, 3)),
    ("b.yaml", "select --isa i.yaml --database b.yaml", (0, 3)),
    ("a.S", "reference --isa i.yaml --test a.S --signature w/s --log w/l", (0, 3)),
    ("t.img", "reference --isa i.yaml --test t.img --signature w/s --log w/l", (0, 3)),
    ("t.elf", "reference --isa i.yaml --test t.elf --signature w/s --log w/l", (0, 3)),
    ("d.yaml", "run --isa i.yaml --cgf add.cgf --device d.yaml --work w", (0, 1, 3, 4)),
]


def answered(folder, words, may, what):
    folder.clear()
    ran = folder.run([PROGRAM, *words.split(" ")])
    silent = ran.returncode < 2
    line = b"" if silent else b"rvsuite: .*\n"
    if ran.returncode not in may or not re.fullmatch(line, ran.stderr, re.S):
        differs(words, what, ran)
    if ran.returncode == 3 and (ran.stdout or os.listdir(f"{folder.path}/w")):
        differs(words, what, "did something:", ran)
    return str(ran.returncode)


def inputs():
    """Each input cut off behind each of its bytes, and with each byte changed in turn."""
    image = "rvimage 1\ntext 3\n810002b7\n00100313\n0062a023\ndata 2\n00000000\n00000007\n"
    image += "tohost 81000000\nbegin 81000004\nend 81000008\n"
    folder = Folder(**{"t.img": image, "d.yaml": "name: d\ncommand: ['true', '{test}', x]\n"})
    words = folder.words("run over a database")
    folder.run(words)
    folder.put("t.elf", folder.get("w/0.elf"))
    for name, words, may in INPUTS:
        whole, found = folder.get(name), []
        for at in range(len(whole) + 1):
            folder.put(name, whole[:at])
            found.append(answered(folder, words, may, f"first {at} bytes of {name}"))
        cut, changed = counted(found), []
        for at in range(len(whole)):
            for byte in (0, 10, 13, 32, 48, 120, 255):
                folder.put(name, whole[:at] + bytes([byte]) + whole[at + 1:])
                changed.append(answered(folder, words, may, f"byte {at} of {name} is {byte}"))
        folder.put(name, whole)
        told = f"cut: {cut}; changed: {counted(changed)}"
        print(f"inputs: {name}, {words.split(' ')[0]}: {told}", flush=True)


for part in PARTS:
    globals()[part]()
print(f"{failed} differ")
sys.exit(failed > 0)

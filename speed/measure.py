"""What `run` and `streams` share: the sides are built, and each one's work on frames is counted, timed and printed.

Ours, dav1d and rav1d work on the same frames, and must leave the same samples, masks and levels. Instructions are counted
under an emulator: each program does the work once and twice, and the difference is counted, so no start, no reading and no
copying. Milliseconds are taken on x86-64 alone, of the same programs, from the call of the work to its return: the
smallest of RUNS, in processor time."""
import functools, hashlib, itertools, os, platform, re, shutil, subprocess, sys, tarfile, tempfile, urllib.request
from statistics import mean

HERE = os.path.dirname(os.path.abspath(__file__))
ROOT = os.path.dirname(HERE)
TARGET = os.path.join(HERE, "target")
POOL = "http://deb.debian.org/debian/pool/main"
VERSION = "1.0.0"
SOURCE = f"{POOL}/d/dav1d/dav1d_{VERSION}.orig.tar.xz"
SHA256 = "51737db7e4897e599684f873a4725176dd3c779e639411d7c4fce134bb5ebb82"
DAV1D = os.path.join(TARGET, f"dav1d-{VERSION}")
CC = "x86_64-linux-gnu-gcc"
FLAGS = ["-O3", "-std=gnu99", "-I", HERE, "-I", TARGET, "-I", DAV1D, "-I", f"{DAV1D}/include", "-I", f"{DAV1D}/include/dav1d"]
RUST = "x86_64-unknown-linux-gnu"
os.environ["QEMU_LD_PREFIX"] = "/usr/x86_64-linux-gnu"  # where a cross compiler's C library is
ORACLE = os.path.join(TARGET, "oracle", "release", "oracle")
COUNTER = os.path.join(TARGET, "count.so")
CLOCK = os.path.join(TARGET, "clock")
HAS_CLOCK = platform.machine() == "x86_64"  # a time under an emulator says nothing
RUNS = 100
PROGRAMS = {
    "ours": os.path.join(TARGET, "ours"),
    "dav1d C": os.path.join(TARGET, "dav1d-c"),
    "dav1d assembly": os.path.join(TARGET, "dav1d-assembly"),
    "rav1d": os.path.join(TARGET, "oracle", RUST, "release", "oracle"),
}


def say(what):
    print(what, file=sys.stderr, flush=True)


def run(*words, **more):
    return subprocess.run(words, check=True, text=True, **more)


def fetch(url, sha256):
    """Debian's file, fetched once."""
    name = os.path.join(TARGET, os.path.basename(url))
    if not os.path.exists(name):
        say(f"fetching {url}..")
        os.makedirs(TARGET, exist_ok=True)
        urllib.request.urlretrieve(url, name)
    with open(name, "rb") as file:
        if hashlib.sha256(file.read()).hexdigest() != sha256:
            sys.exit(f"{name} is not the one that is known")
    return name


def fetch_dav1d():
    if not os.path.isdir(DAV1D):
        with tarfile.open(fetch(SOURCE, SHA256)) as tar:
            tar.extractall(TARGET)
    for name, text in (("version.h", ""), ("vcs_version.h", f'#define DAV1D_VERSION "{VERSION}"')):  # dav1d's build would make them
        with open(os.path.join(TARGET, name), "w") as file:
            file.write(text)


def build_counter():
    api = 1 if int(re.search(r"version (\d+)", run("qemu-x86_64", "-version", capture_output=True).stdout).group(1)) < 9 else 2
    run("cc", "-O2", "-shared", "-fPIC", f"-DQEMU_PLUGIN_API={api}", os.path.join(HERE, "count.c"), "-o", COUNTER)
    if HAS_CLOCK:
        run("cc", "-O2", "-Wall", os.path.join(HERE, "clock.c"), "-o", CLOCK)


def build_ours():
    archive = os.environ.get("ARCHIVE")
    if not archive:
        run(os.path.join(ROOT, "tools", "prove"), "deblock")
        archive = os.path.join(ROOT, "target", "staticlib", "libdeblock.a")
    run(CC, "-O2", "-Wall", "-static", os.path.join(HERE, "ours.c"), archive, "-o", PROGRAMS["ours"])


def compile_dav1d(names, kind, *more):
    """Objects of dav1d's C; a template is compiled for both depths."""
    objects = []
    for name in names:
        for depth in (8, 16) if name.endswith("_tmpl") else (0,):
            objects.append(os.path.join(TARGET, f"{name.replace('/', '-')}{depth}-{kind}.o"))
            run(CC, *FLAGS, *more, *([f"-DBITDEPTH={depth}"] if depth else []), "-c", f"{DAV1D}/src/{name}.c", "-o", objects[-1])
    return objects


def build_dav1d():
    """Builds dav1d's C and, if there is nasm, its assembly; the answer is the sides."""
    say("building dav1d..")
    names = ["cpu", "lf_mask", "tables", "loopfilter_tmpl", "lf_apply_tmpl"]
    program = [os.path.join(HERE, "dav1d.c"), "-static", "-o"]
    run(CC, *FLAGS, *compile_dav1d(names, "c"), *program, PROGRAMS["dav1d C"])
    if not shutil.which("nasm"):
        return ["dav1d C"]
    objects = compile_dav1d([*names, "x86/cpu", "x86/loopfilter_init_tmpl"], "assembly", "-DHAVE_ASM=1")
    for name in ("cpuid", "loopfilter_sse", "loopfilter_avx2", "loopfilter_avx512", "loopfilter16_sse", "loopfilter16_avx2"):
        objects.append(os.path.join(TARGET, f"{name}.o"))
        run("nasm", "-f", "elf64", "-I", f"{HERE}/", "-I", f"{DAV1D}/src/", f"{DAV1D}/src/x86/{name}.asm", "-o", objects[-1])
    run(CC, *FLAGS, "-DHAVE_ASM=1", *objects, *program, PROGRAMS["dav1d assembly"])
    return ["dav1d C", "dav1d assembly"]


def build_rav1d():
    """Builds the oracle for this machine and, if Rust has a standard library for x86-64, for that; the answer is the sides."""
    say("building rav1d..")
    cargo = ["cargo", "build", "--release", "--offline", "--quiet", "--config", "profile.release.overflow-checks=false",
             "--manifest-path", os.path.join(ROOT, "oracle", "rust", "Cargo.toml"), "--target-dir", os.path.join(TARGET, "oracle")]
    run(*cargo)
    os.environ[f"CARGO_TARGET_{RUST.upper().replace('-', '_')}_LINKER"] = CC
    failed = subprocess.run([*cargo, "--target", RUST], stderr=subprocess.DEVNULL).returncode
    return [] if failed else ["rav1d"]


class Frame:
    """A file for ours and dav1d, or what rav1d makes the same from, and how many pieces and blocks it has."""

    def __init__(self, name, file, units, words=()):
        self.name, self.file, self.units, self.words = name, file, units, words
        self.samples = None

    def has(self, side):
        """Whether a side can do it: dav1d's assembly takes no limit tables but those of a sharpness."""
        with open(self.file, "rb") as file:
            tables = file.read(160)[32:]
        return side != "dav1d assembly" or any(tables == limits(sharpness) for sharpness in range(8))

    def program(self, side, work):
        return [PROGRAMS[side], *(("speed", work, *self.words) if side == "rav1d" else (self.file, work))]

    def check(self, side, work, samples):
        if work == "filter":
            self.samples = self.samples or samples
            if samples != self.samples:
                sys.exit(f"{self.name}: {side} leaves other samples")

    @functools.cache
    def count(self, side, work):
        """Instructions of a side's work, by function."""
        say(f"counting {self.name}, {work}: {side}..")
        by_times = []
        for times in "12":
            with tempfile.NamedTemporaryFile("r", dir=TARGET) as out:
                emulator = ["qemu-x86_64", "-cpu", "max", "-plugin", f"{COUNTER},functions={out.name}"]
                said = run(*emulator, *self.program(side, work), times, stdout=subprocess.PIPE)
                self.check(side, work, said.stdout.split())
                by_times.append({name: int(count) for count, name in (line.split(maxsplit=1) for line in out)})
        once, twice = by_times
        return {name: count - once.get(name, 0) for name, count in twice.items()}

    @functools.cache
    def milliseconds(self, sides, work):
        """Of each side the smallest of RUNS; they take turns, so that all meet the same neighbours on the machine."""
        say(f"timing {self.name}, {work}..")
        smallest = [float("inf")] * len(sides)
        for _ in range(RUNS // 2):
            for n, side in enumerate(sides):
                words = [CLOCK, addresses(PROGRAMS[side], work), *self.program(side, work), "2"]
                *samples, first, second = run(*words, stdout=subprocess.PIPE).stdout.split()
                self.check(side, work, samples)
                smallest[n] = min(smallest[n], int(first) / 1e6, int(second) / 1e6)
        return smallest


def limits(sharpness):
    i = [max(1, min(level >> (sharpness + 3 >> 2), 9 - sharpness) if sharpness else level) for level in range(64)]
    return bytes([2 * (level + 2) + i[level] for level in range(64)] + i)


@functools.cache
def addresses(program, work):
    symbols = run("nm", program, capture_output=True).stdout
    return ",".join(re.findall(rf"(?m)^(\w+) t (?:{work}|_ZN.*\d{work}_once17h\w+E)$", symbols))


def table(title, groups, work, unit, asked):
    """A row for each side of each group, which has a name and frames: its means per frame."""
    print(f"\n{title}\n")
    print(f"| frame | {unit}s | side | millions | per {unit} | ms | ours / side, instructions | ours / side, ms |")
    print("|---" * 8 + "|")
    for name, frames in groups:
        sides = tuple(side for side in asked if all(f.has(side) for f in frames))
        units = mean(f.units[work] for f in frames)
        counts = [mean(sum(f.count(side, work).values()) for f in frames) for side in sides]
        times = [mean(ms) for ms in zip(*(f.milliseconds(sides, work) for f in frames))] if HAS_CLOCK else ()
        for side, count, ms in itertools.zip_longest(sides, counts, times):
            cells = [name, f"{units:.0f}", side, f"{count / 1e6:.2f}", f"{count / units:.1f}", f"{ms:.2f}" if ms else "",
                     f"{counts[0] / count:.3f}", f"{times[0] / ms:.2f}" if ms else ""]
            print("| " + " | ".join(cells) + " |", flush=True)


def machine():
    """What the milliseconds were taken on."""
    if not HAS_CLOCK:
        return "no milliseconds: this is not x86-64, and a time under an emulator says nothing"
    with open("/proc/cpuinfo") as file:
        model = re.search(r"model name\s*: (.*)", file.read()).group(1)
    return f"milliseconds: {model}, {os.cpu_count()} processors, load {os.getloadavg()[0]:.2f}"

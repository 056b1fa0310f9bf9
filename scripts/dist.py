"""What users install: dist/ holds one wheel with the programs that people want, as Jupyter's kernels, and what it was
made of. SHA256SUMS has the wheel's sum, for sha256sum. MADE-OF has the toolchain's version, and then a sum for each
crate."""

import base64
import hashlib
import io
import json
import os
import re
import stat
import subprocess
import sys
import tempfile
import zipfile

from scripts.crates import TOP, Program, Sums, crates, is_program, octets_of, sum_of
from scripts.words import Refused

DIST = os.path.join(TOP, "dist")
SUMS, MADE_OF = "SHA256SUMS", "MADE-OF"
# The languages whose programs lie there, each with its crate.
KERNELS = {"sharith": "jkernel", "sql": "jkernel_sql"}
# The names by which Jupyter finds a kernel's logos.
LOGOS = ("logo-svg.svg", "logo-64x64.png")
# What a kernel runs with: the C library gives large pieces of memory back to the system as soon as they are free, and
# doesn't keep them for others. So what peers send at once takes half as much.
ENVIRONMENT = {"MALLOC_MMAP_THRESHOLD_": "1048576"}
# The libraries that each system of a tag manylinux has (PEP 600), of those that a program may need.
LIBRARIES = {b"libc.so.6", b"libm.so.6", b"libgcc_s.so.1", b"libpthread.so.0", b"libdl.so.2", b"librt.so.1"}
# What is said of a program that isn't there.
BUILD = "--build proves and builds it"


def build(crate):
    """Has a crate's program proved and built, if that is due."""
    words = [os.path.join(TOP, "build"), crate]
    if subprocess.run(words, stdin=subprocess.DEVNULL, stdout=sys.stderr, check=False).returncode:
        raise Refused(f"{name_of(crate)} could not be proved and built")


def name_of(crate):
    """The name of a crate's program, and of its file where it is installed."""
    return crate.replace("_", "-")


def crate_of(language):
    """The crate of a language's program."""
    own = [it for it in crates() if it.endswith("_kernel") and is_program(it)]
    named = {**{it.removesuffix("_kernel"): it for it in own}, **KERNELS}
    if language not in named:
        raise Refused(f"there is no language {language}; there are {', '.join(sorted(named))}")
    return named[language]


def said_by(program, *words):
    """What a program prints, which has to end well."""
    ran = subprocess.run([program, *words], stdin=subprocess.DEVNULL, stdout=subprocess.PIPE, text=True, check=False)
    if ran.returncode:
        raise Refused(f"{os.path.basename(program)} {' '.join(words)} ended with {ran.returncode}")
    return ran.stdout


def spec_of(program, starts, database=None):
    """The text of kernel.json: what a program prints as its kernelspec, with the word that starts it. If there is a
    database its path follows, and its name is shown."""
    spec = json.loads(said_by(program, "kernelspec"))
    spec["argv"][:1] = [starts, *(["--database", database] if database else [])]
    if database:
        spec["display_name"] += f": {os.path.basename(database)}"
    return json.dumps({**spec, "env": ENVIRONMENT}, indent=1) + "\n"


def logos_of(crate):
    """The pictures of a crate's kernel, by their names."""
    found = {it: octets_of(os.path.join(TOP, "crates", crate, "data", it)) for it in LOGOS}
    return {name: octets for name, octets in found.items() if octets}


def tag_of(programs):
    """The tag of a wheel of programs for x86-64: the oldest system that it is for, by the C library's version."""
    for octets in programs:
        # The head of an ELF file: 64 bits, little endian, for x86-64.
        if octets[:6] != b"\x7fELF\x02\x01" or octets[18:20] != b"\x3e\0":
            raise Refused("a program isn't one for x86-64")
        others = set(re.findall(rb"\0(lib[\w+-]+\.so[.\d]*)(?=\0)", octets)) - LIBRARIES
        if others:
            raise Refused(f"a program needs {b', '.join(sorted(others)).decode()}")
    versions = [it for octets in programs for it in re.findall(rb"\0GLIBC_(\d+)\.(\d+)(?=[.\0])", octets)]
    return "py3-none-manylinux_{}_{}_x86_64".format(*max((int(major), int(minor)) for major, minor in versions))


class Member(tuple):
    """A file of a wheel: its path, its rights, and its octets."""

    def __new__(cls, path, octets, rights=0o644):
        return super().__new__(cls, (path, rights, octets))


def kernel_members(crate, language, program, front):
    """The files of a kernel in a wheel: the program in the kernel's own folder, from which Jupyter starts it."""
    folder, name = f"{front}.data/data/share/jupyter/kernels/{language}", name_of(crate)
    yield Member(f"{folder}/kernel.json", spec_of(program, f"{{resource_dir}}/{name}").encode())
    yield Member(f"{folder}/{name}", octets_of(program), 0o755)
    for logo, octets in logos_of(crate).items():
        yield Member(f"{folder}/{logo}", octets)


def record_of(members, path):
    """The list of a wheel's files, each with its sum and size ('Binary distribution format', "RECORD")."""
    lines = []
    for name, _, octets in members:
        digest = base64.urlsafe_b64encode(hashlib.sha256(octets).digest()).rstrip(b"=").decode()
        lines.append(f"{name},sha256={digest},{len(octets)}\n")
    return Member(path, "".join([*lines, f"{path},,\n"]).encode())


def wheel_of(programs):
    """The name and the files of a wheel of programs, which are paths by their crates."""
    versions = {said_by(it, "--version").split()[-1] for it in programs.values()}
    if len(versions) != 1:
        raise Refused(f"the programs have the versions {', '.join(sorted(versions))}")
    front, tag = f"jkernel-{versions.pop()}", tag_of([octets_of(it) for it in programs.values()])
    members = []
    for language, crate in KERNELS.items():
        members += kernel_members(crate, language, programs[crate], front)
    with open(os.path.join(TOP, "scripts", "METADATA"), encoding="utf-8") as file:
        metadata = file.read().replace("VERSION", front.rpartition("-")[2])
    info = f"{front}.dist-info"
    members.append(Member(f"{info}/METADATA", metadata.encode()))
    wheel = f"Wheel-Version: 1.0\nGenerator: ./release\nRoot-Is-Purelib: false\nTag: {tag}\n"
    members.append(Member(f"{info}/WHEEL", wheel.encode()))
    members.append(Member(f"{info}/licenses/LICENSE", octets_of(os.path.join(TOP, "LICENSE"))))
    return f"{front}-{tag}.whl", [*members, record_of(members, f"{info}/RECORD")]


def packed(members):
    """A wheel's octets, which are the same each time."""
    found = io.BytesIO()
    with zipfile.ZipFile(found, "w", zipfile.ZIP_DEFLATED, compresslevel=9) as wheel:
        for path, rights, octets in members:
            info = zipfile.ZipInfo(path)
            info.compress_type, info.create_system = zipfile.ZIP_DEFLATED, 3
            info.external_attr = (stat.S_IFREG | rights) << 16
            wheel.writestr(info, octets)
    return found.getvalue()


def unpacked(octets):
    """The files of a wheel."""
    with zipfile.ZipFile(io.BytesIO(octets)) as wheel:
        infos = wheel.infolist()
        return [Member(it.filename, wheel.read(it), it.external_attr >> 16 & 0o777) for it in infos]


class Dist:
    """What lies in dist/. If its wheel isn't the one that SHA256SUMS names, this refuses."""

    def __init__(self):
        named = octets_of(os.path.join(DIST, SUMS)).decode().split()
        kit, *lines = octets_of(os.path.join(DIST, MADE_OF)).decode().splitlines() or [""]
        if len(named) != 2:
            raise Refused(f"dist/{SUMS} names no wheel")
        self.name, octets = named[1], octets_of(os.path.join(DIST, named[1]))
        if sum_of(octets) != named[0]:
            raise Refused(f"dist/{self.name} isn't the one whose sum dist/{SUMS} has")
        try:
            self.kit, self.made_of = kit, {crate: digest for digest, crate in map(str.split, lines)}
            self.members = unpacked(octets)
        except (ValueError, zipfile.BadZipFile) as why:
            raise Refused(f"dist/{self.name} and dist/{MADE_OF} can't be read: {why}") from why

    def program(self, crate):
        """The octets of a crate's program; none if it isn't among these."""
        return next((octets for path, _, octets in self.members if path.endswith(f"/{name_of(crate)}")), None)

    def newer(self, names, known):
        """Those of the crates of these names that aren't as they were when the programs were made."""
        return [it for it in names if self.made_of.get(it) != known[it]]

    def programs_in(self, room):
        """Writes the programs into a folder, each as its crate's, and gives their paths."""
        found = {}
        for crate in KERNELS.values():
            found[crate] = os.path.join(room, crate)
            with open(found[crate], "wb") as file:
                file.write(self.program(crate) or b"")
            os.chmod(found[crate], 0o755)
        return found


def taken(crate):
    """The octets of a crate's program: the one that was built here, or the one in dist/, if it is one of just these
    sources."""
    program, known = Program(crate), Sums()
    if program.is_fresh(program.sums(known)):
        return octets_of(program.here)
    if crate not in KERNELS.values():
        raise Refused(f"{name_of(crate)} isn't built yet, or its sources are newer; {BUILD}")
    dist = Dist()
    newer = dist.newer(program.names, known)
    if newer:
        more = f" and {len(newer) - 3} more" if len(newer) > 3 else ""
        raise Refused(f"the sources are newer than {name_of(crate)} in dist: {', '.join(newer[:3])}{more}; {BUILD}")
    return dist.program(crate)


def renew(programs, kit, known):
    """Writes dist/ anew, of programs that were built of crates with these sums, and answers the wheel's path."""
    name, members = wheel_of(programs)
    octets = packed(members)
    names = {it for crate in programs for it in Program(crate).names}
    os.makedirs(DIST, exist_ok=True)
    for it in os.listdir(DIST):
        os.remove(os.path.join(DIST, it))
    made_of = "".join([f"{kit}\n", *(f"{known[it]}  {it}\n" for it in sorted(names))])
    files = {name: octets, SUMS: f"{sum_of(octets)}  {name}\n".encode(), MADE_OF: made_of.encode()}
    for file, its in files.items():
        with open(os.path.join(DIST, file), "wb") as written:
            written.write(its)
    return os.path.join(DIST, name)


def differs(programs, kit):
    """How dist/ differs from what it has to be, a line each: from its own sums, from the sources, from the files that
    the wheel has besides programs, and from programs that were built, if there are any and this toolchain is the one
    that is named there."""
    try:
        dist = Dist()
    except Refused as why:
        return [str(why)]
    found = [f"another file in dist: {it}" for it in set(os.listdir(DIST)) - {dist.name, SUMS, MADE_OF}]
    if f"`{dist.kit}`".encode() not in octets_of(os.path.join(TOP, "README.md")):
        found.append(f"README.md doesn't name the toolchain that made it: {dist.kit}")
    names = sorted({it for crate in KERNELS.values() for it in Program(crate).names})
    found += [f"the sources of {it} are newer than dist" for it in dist.newer(names, Sums())]
    with tempfile.TemporaryDirectory(prefix="jkernel-dist-") as room:
        try:
            name, due = wheel_of(dist.programs_in(room))
        except (OSError, Refused) as why:
            return [*found, str(why)]
    if dist.name != name:
        found.append(f"the wheel should be {name}")
    found += [f"in the wheel: {it[0]}" for it in sorted(set(due) ^ set(dist.members))]
    if kit == dist.kit:
        for crate, program in programs.items():
            if dist.program(crate) != octets_of(program):
                found.append(f"{name_of(crate)} in dist isn't what its sources make")
    return found

"""Finds kernels of Linux, and boots them under QEMU, for linux/run and linux/record."""
import glob
import os
import re
import shutil
import subprocess
from typing import NamedTuple

HERE = os.path.dirname(os.path.abspath(__file__))
TO_BOOT = ["gcc", "qemu-system-x86_64", "cpio"]
QEMU = ("qemu-system-x86_64 -machine pc -cpu max -m 256 -smp 2 -accel tcg,thread=multi -vga none -nic none -display none"
        " -monitor none -no-reboot").split()
# The kernel prints warnings, except those that a busy host causes. It does not check its timer, which such a host delays. A panic
# ends QEMU. A kernel that runs longer than SECONDS is ended too.
WORDS = ("console=ttyS0 loglevel=5 panic=-1 oops=panic preempt=full nowatchdog rcupdate.rcu_cpu_stall_suppress=1"
         " no_timer_check")
SECONDS = 900
CC = "gcc -O2 -Wall -Wextra -Werror".split()
# What a kernel prints on its console if something is wrong with it or with /init.
TROUBLE = re.compile(r"^.*(?:BUG|WARNING|Oops|Call Trace|invalid opcode|Kernel panic|INFO: task|init:).*$", re.M)


class Failure(Exception):
    """A failed check, with its description."""


class Linux(NamedTuple):
    """A kernel: its version, its folder of headers, and its image or None."""

    version: str
    headers: str
    image: str | None


def check(holds, what):
    if not holds:
        raise Failure(what)


def output_of(command, **how):
    try:
        done = subprocess.run(command, stdout=subprocess.PIPE, stderr=subprocess.STDOUT, text=True, check=False, **how)
    except OSError as error:
        raise Failure(f"cannot run {command[0]}: {error.strerror}") from None
    check(done.returncode == 0, f"{' '.join(command)}: {done.stdout.strip()}")
    return done.stdout


def check_tools(tools):
    missing = [tool for tool in dict.fromkeys(tools) if not shutil.which(tool)]
    check(not missing, f"{' and '.join(missing)} not installed")


def kernels():
    """Returns the kernels that linux/fetch has left, or else those whose headers are installed."""
    fetched = output_of([f"{HERE}/fetch", "--folder"]).strip()
    for pattern in (f"{glob.escape(fetched)}/*", ""):
        found = []
        for config in sorted(glob.glob(f"{pattern}/usr/src/linux-headers-*/.config")):
            headers = os.path.dirname(config)
            version = os.path.basename(headers).removeprefix("linux-headers-")
            image = os.path.join(headers, f"../../../boot/vmlinuz-{version}")
            found.append(Linux(version, headers, os.path.normpath(image) if os.access(image, os.R_OK) else None))
        if found:
            return found
    return []


def bootable(found):
    """Returns the kernels that have an image. Fails if none has one."""
    with_image = [linux for linux in found if linux.image]
    check(with_image, "there is no image of Linux: linux/fetch downloads Debian's and unpacks them")
    return with_image


def boot(linux, root, folder, more=""):
    """Boots a kernel with `more` words on its command line. Its files are those of the folder `root`, and it runs /init. Returns
    what was sent to port 0xe9. Leaves this, and what the kernel printed, in `folder`. Fails if the kernel printed a warning."""
    initrd, console, lines = (os.path.join(folder, f"{linux.version}.{name}") for name in ("initrd", "console", "lines"))
    names = "\n".join(os.path.relpath(path, root) for path in glob.glob(f"{root}/**", recursive=True)[1:])
    with open(initrd, "wb") as file:
        subprocess.run(["cpio", "-o", "-H", "newc", "--quiet"], cwd=root, input=names.encode(), stdout=file, check=True)
    files = ["-serial", f"file:{console}", "-debugcon", f"file:{lines}", "-kernel", linux.image, "-initrd", initrd]
    try:
        subprocess.run([*QEMU, *files, "-append", f"{WORDS} {more}"], capture_output=True, timeout=SECONDS, check=False)
    except subprocess.TimeoutExpired:
        print(f"linux: {linux.version} was ended after {SECONDS} seconds")
    os.remove(initrd)
    with open(console, encoding="utf-8", errors="replace") as file:
        trouble = TROUBLE.search(file.read())
    check(not trouble, f"{linux.version}: its console has: {trouble and trouble[0].strip()}")
    with open(lines, encoding="utf-8", errors="replace") as file:
        return file.read()

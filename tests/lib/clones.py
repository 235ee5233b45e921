"""Makes fresh clones of the repository, with its uncommitted changes, for tests that paste the commands of the pages."""
import os
import shutil
import subprocess

TOP = os.path.dirname(os.path.dirname(os.path.dirname(os.path.abspath(__file__))))
PROGRAMS = ["partmem", "framemap", "partcheck"]
KINDS = ["", "_kernel", "_linux", "_watched", "_arm64", "_kernel_arm64", "_riscv64", "_kernel_riscv64"]
ARCHIVES = [f"out/lib/libpartmem{kind}.a" for kind in KINDS]
MODULE = "out/lib/kernel/module.ll"
BUILT = [*(f"crates/{name}/out/{name}" for name in PROGRAMS), *ARCHIVES, MODULE]
# Stands in for the command `rt` if the programs are built: `run` runs the built program, `lib` and `all` do nothing, and
# the other commands go to the real `rt`.
RT = r"""#!/bin/sh
case $1 in
    run) shift; [ "${1-}" != --jobs ] || shift 2; [ "${1-}" != -- ] || shift; exec "out/$(basename "$PWD")" "$@" ;;
    lib | all) ;;
    *) exec REAL "$@" ;;
esac
"""
# Stands in for tools/unproved: instead of building without proofs, it copies what was built with proofs.
UNPROVED = r"""#!/bin/sh
cd "$(dirname "$0")/.." && mkdir -p out
for name in "$@"; do
    case $name in
        library)
            cp out/lib/libpartmem.a out/libpartmem-unproved.a
            cp out/lib/libpartmem_watched.a out/libpartmem_watched-unproved.a ;;
        linux | *kernel* | arm64 | riscv64) cp "out/lib/libpartmem_$name.a" "out/libpartmem_$name-unproved.a" ;;
        *) cp "crates/$name/out/$name" "out/$name-unproved" ;;
    esac
done
"""
# Replaces tools/unproved in clones whose pages build the same. The first clone that needs a program or a library builds it, and
# the others get a copy.
SHARED = r"""#!/bin/sh
cd "$(dirname "$0")/.." && mkdir -p out BUILDS
for name in "$@"; do
    flock "BUILDS/$name.lock" sh -euc '
        [ -e BUILDS/$1 ] || { tools/unproved-itself "$1" && mkdir BUILDS/$1.new
            case $1 in
                library) cp out/libpartmem-unproved.a out/libpartmem_watched-unproved.a BUILDS/$1.new ;;
                linux | *kernel* | arm64 | riscv64) cp "out/libpartmem_$1-unproved.a" BUILDS/$1.new ;;
                *) cp "out/$1-unproved" BUILDS/$1.new ;;
            esac
            mv BUILDS/$1.new BUILDS/$1; }
        cp BUILDS/$1/* out' sh "$name" || exit
done
"""
# Stands in for tools/library if its archives are built: it does nothing.
LIBRARY = "#!/bin/sh\n"


def changed_files(folder, *commit):
    """Returns the files of a folder that git neither tracks nor ignores, and the tracked ones that differ from the commit, or from
    the index if no commit is given."""
    asked = ["ls-files", "-o", "--exclude-standard"], ["diff", "--name-only", "--no-renames", *commit]
    ran = [subprocess.run(["git", "-C", folder, *words], stdout=subprocess.PIPE, text=True, check=True) for words in asked]
    return [path for one in ran for path in one.stdout.splitlines()]


def put(path, folder):
    """Copies a file of the repository into the folder, or removes it there if the repository no longer has it."""
    to = os.path.join(folder, path)
    os.makedirs(os.path.dirname(to), exist_ok=True)
    if os.path.exists(os.path.join(TOP, path)):
        shutil.copy2(os.path.join(TOP, path), to)
    elif os.path.exists(to):
        os.remove(to)


def fresh_clone(work):
    """Makes a clone that has the uncommitted changes and nothing built. Returns its folder."""
    folder = os.path.join(work, "partmem")
    subprocess.run(["git", "clone", "-q", TOP, folder], check=True)
    for path in changed_files(TOP, "HEAD"):
        put(path, folder)
    subprocess.run(["git", "-C", folder, "add", "-A"], check=True)
    return folder


def write_script(path, text):
    with open(path, "w", encoding="utf-8") as script:
        script.write(text)
    os.chmod(path, 0o755)


def with_shared_builds(folder, builds):
    """Replaces tools/unproved by a stand-in that builds each program once for all clones that share the folder `builds`."""
    os.rename(os.path.join(folder, "tools/unproved"), os.path.join(folder, "tools/unproved-itself"))
    write_script(os.path.join(folder, "tools/unproved"), SHARED.replace("BUILDS", builds))
    subprocess.run(["git", "-C", folder, "add", "tools"], check=True)


def with_stand_ins(work, folder):
    """Replaces `rt`, tools/unproved and tools/library by stand-ins that use what is built in the folder. Returns the environment
    whose PATH finds the stand-in for `rt` first."""
    write_script(os.path.join(folder, "tools/unproved"), UNPROVED)
    write_script(os.path.join(folder, "tools/library"), LIBRARY)
    subprocess.run(["git", "-C", folder, "add", "tools"], check=True)
    os.mkdir(os.path.join(work, "bin"))
    write_script(os.path.join(work, "bin/rt"), RT.replace("REAL", shutil.which("rt") or "rt"))
    return {**os.environ, "PATH": os.path.join(work, "bin") + ":" + os.environ["PATH"]}

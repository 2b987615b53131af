"""The words before a build of foreign text, so that it can read the compiler and the text, and nothing else.

A text in C reads files: `#include "/etc/passwd"`, `.incbin`. If the system lets a user have a name space of its own, by
bubblewrap or by `unshare`, a build has a file system of the folders of programs, of include and tools, and of the text alone.
"""
import functools
import os
import shutil
import sys
from pathlib import Path

import bounds

TOP = Path(__file__).resolve().parents[2]

SYSTEM = ("/usr", "/bin", "/sbin", "/lib", "/lib32", "/lib64", "/libx32")
PIECES = ("/etc/alternatives", "/etc/ld.so.cache")
PATH = "/usr/local/sbin:/usr/local/bin:/usr/sbin:/usr/bin:/sbin:/bin"
# The arguments: the folder that becomes the root, the folder to begin in, how many paths are shown, these, and the command.
# A link is made anew, a folder or a file is bound. /dev/null is the only device.
BY_UNSHARE = """set -e
root=$1 begin=$2 shown=$3
shift 3
mount -t tmpfs tmpfs "$root"
while [ "$shown" -gt 0 ]; do
    shown=$((shown - 1)) path=$1
    shift
    mkdir -p "$root${path%/*}"
    if [ -L "$path" ]; then
        cp -P "$path" "$root$path"
    elif [ -d "$path" ]; then
        mkdir -p "$root$path"
        mount --rbind "$path" "$root$path"
    else
        : > "$root$path"
        mount --bind "$path" "$root$path"
    fi
done
exec chroot "$root" /bin/sh -c 'cd "$0" && exec "$@"' "$begin" "$@"
"""


def room_in(folder):
    """The folder of the text, in a folder that was made for one build."""
    for name in ("room", "root"):
        (folder / name).mkdir()
    return folder / "room"


def folder_of(program):
    """The folders of a program that does not lie with those of the system: its own, and a `lib` beside it."""
    for path in {Path(program), Path(program).resolve()}:
        if not path.is_relative_to("/usr") and path.parent not in map(Path, SYSTEM):
            yield path.parent
            yield path.parent.parent / "lib"


def shown(room, programs):
    """What a build sees, in the order in which it is put there."""
    given = [*SYSTEM, *PIECES, "/dev/null", room, TOP / "include", TOP / "tools",
             *(folder for program in (*programs, sys.executable) for folder in folder_of(program))]
    paths = list(dict.fromkeys(os.fspath(path) for path in given if os.path.exists(path)))
    return sorted(paths, key=lambda path: path.count("/"))


def by_bubblewrap(room, programs):
    """The words of bubblewrap."""
    words = ["bwrap", "--unshare-all", "--die-with-parent"]
    for path in shown(room, programs):
        if os.path.islink(path):
            words += ["--symlink", os.readlink(path), path]
        elif path == "/dev/null":
            words += ["--dev-bind", path, path]
        else:
            words += ["--bind" if path == os.fspath(room) else "--ro-bind", path, path]
    return [*words, "--chdir", os.fspath(room), "--"]


def by_unshare(room, programs):
    """The words of unshare; the folder `root` beside the room becomes the root."""
    paths = shown(room, programs)
    return ["env", f"PATH={PATH}", "unshare", "--user", "--map-root-user", "--mount", "--net", "--ipc", "--pid", "--fork",
            "--kill-child", "/bin/sh", "-c", BY_UNSHARE, "sh", os.fspath(room.parent / "root"), os.fspath(room), str(len(paths)), *paths,
            "env",
            f"PATH={os.environ.get('PATH', PATH)}"]


def holds(way, run):
    """Whether a way works here: the file of the room is read, and one beside the room is not."""
    with bounds.folder() as folder:
        room, outside = room_in(folder), folder / "outside"
        for file in (room / "inside", outside):
            file.write_text("x")
        look = 'test -r "$0" && ! test -e "$1" && ! test -e /etc/passwd'
        return run([*way(room, []), "/bin/sh", "-c", look, room / "inside", outside])


@functools.lru_cache
def way_of(run):
    """The first way that holds on this system, or None. `run` does a command and says whether its status is 0."""
    for name, way in (("bwrap", by_bubblewrap), ("unshare", by_unshare)):
        if shutil.which(name, path=os.environ.get("PATH", "") + ":" + PATH) and holds(way, run):
            return way
    return None

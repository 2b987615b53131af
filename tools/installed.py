"""The list of what `./ocp install` wrote below a prefix: its lines are for `sha256sum -c`; `# made FOLDER` names a folder that it made.
"""
import hashlib
import os

LIST = "share/ocp/installed"
NEW = ".ocp-new"  # the ending of a file that is not complete


def below(prefix):
    """Where the files of a prefix are written: below $DESTDIR, if it is set."""
    return os.environ.get("DESTDIR", "") + os.path.abspath(prefix)


def sum_of(octets):
    return hashlib.sha256(octets).hexdigest()


def sum_at(path):
    """The sum of a file; none if there is none."""
    try:
        with open(path, "rb") as file:
            return sum_of(file.read())
    except (FileNotFoundError, NotADirectoryError, IsADirectoryError):
        return None


def listed(top):
    """The sums by file, and the folders, that an earlier install wrote. An interrupted one leaves two sums of a file, old and new."""
    sums, made = {}, []
    try:
        with open(f"{top}/{LIST}", encoding="utf-8") as file:
            for line in file.read().splitlines():
                if line.startswith("# made "):
                    made.append(line.removeprefix("# made "))
                else:
                    total, _, path = line.partition("  ")
                    sums.setdefault(path, set()).add(total)
    except (FileNotFoundError, NotADirectoryError):
        pass
    return sums, made


def text_of(sums, made):
    return "".join([*(f"# made {it}\n" for it in made), *(f"{total}  {path}\n" for path in sorted(sums) for total in sorted(sums[path]))])


def remove_folders(top, made):
    """Removes the folders of a list that are empty, the deepest first."""
    for folder in sorted(made, key=len, reverse=True):
        try:
            os.rmdir(f"{top}/{folder}")
        except OSError:
            pass

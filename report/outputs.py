"""Output files of the Python programs of this repository, by the rules of `pie -o`. No output is an input or another
output, by device and inode. An existing file is kept, unless the caller may replace it. A file has its name once all
of it is written."""
import contextlib
import os
import stat

STANDARD = ("/dev/stdout", "/dev/fd/1", "/proc/self/fd/1")
MAX_NAMES = 100


class OutputError(Exception):
    """The reason why a file cannot be an output."""


def is_stream(name):
    """Returns true for a pipe, a device, and a name of standard output. They are written as they are."""
    if name in STANDARD:
        return True
    with contextlib.suppress(FileNotFoundError):
        kind = os.stat(name).st_mode
        return not stat.S_ISREG(kind) and not stat.S_ISDIR(kind)
    return False


def identity(name):
    """Returns the device and the inode of a file, or of its folder with its name if the file does not exist."""
    with contextlib.suppress(FileNotFoundError):
        known = os.stat(name)
        return known.st_dev, known.st_ino
    folder, last = os.path.split(os.path.realpath(name))
    known = os.stat(folder)
    return known.st_dev, known.st_ino, last


def identities(names):
    """Returns the identities of these files, without those that cannot be looked up."""
    found = set()
    for name in names:
        with contextlib.suppress(OSError):
            found.add(identity(name))
    return found


def check_outputs(outputs, inputs=(), may_replace=lambda name: False):
    """Raises `OutputError` if one of the outputs is an input or another output, is a folder or in a folder that does
    not exist, or is an existing file for which `may_replace` is false."""
    known, before = None, set()
    for name in outputs:
        try:
            own = identity(name)
        except OSError as fault:
            raise OutputError(f"{name}: {fault.strerror}") from None
        if own in before:
            raise OutputError(f"{name}: two outputs cannot be one file")
        before.add(own)
        if is_stream(name) or not os.path.lexists(name):
            continue
        known = identities(inputs) if known is None else known
        if own in known:
            raise OutputError(f"{name}: the input file cannot be the output file")
        if os.path.isdir(name):
            raise OutputError(f"{name}: this is a folder")
        if not may_replace(name):
            raise OutputError(f"{name}: the file exists; --force replaces it")


def _create_beside(name):
    """Creates a file beside `name`, with the permissions of the file that it may replace. Returns its name and its
    descriptor."""
    replaced = os.stat(name) if os.path.exists(name) else None
    for count in range(1, MAX_NAMES + 1):
        made = f"{name}.partial" if count == 1 else f"{name}.partial.{count}"
        with contextlib.suppress(FileExistsError):
            descriptor = os.open(made, os.O_WRONLY | os.O_CREAT | os.O_EXCL | os.O_CLOEXEC, stat.S_IMODE(replaced.st_mode) if replaced else 0o666)
            if replaced:
                os.fchmod(descriptor, stat.S_IMODE(replaced.st_mode))
            return made, descriptor
    raise OutputError(f"{name}: too many partial files exist beside it")


def _move_to_free(made, name):
    """Moves a file onto a name that no file has. A hard link fails if a file has the name. If the folder has no links,
    an empty file takes the name first, which replaces no file."""
    try:
        os.link(made, name)
    except FileExistsError:
        raise OutputError(f"{name}: the file exists; --force replaces it") from None
    except OSError:
        os.close(os.open(name, os.O_WRONLY | os.O_CREAT | os.O_EXCL))
        os.replace(made, name)
    else:
        os.unlink(made)


@contextlib.contextmanager
def output_file(name, may_replace=False, mode="wb", **how):
    """Opens a new file beside `name` to write to it, with the arguments of `open`. After the block the file is written
    to its disk and moved onto `name`. If the block or the move fails, the new file is removed, and a file of that name
    is unchanged."""
    if is_stream(name):
        is_standard = name in STANDARD
        with open(1 if is_standard else name, mode, closefd=not is_standard, **how) as out:
            yield out
        return
    made, descriptor = _create_beside(name)
    try:
        with open(descriptor, mode, **how) as out:
            yield out
            out.flush()
            os.fsync(out.fileno())
        if may_replace:
            os.replace(made, name)
        else:
            _move_to_free(made, name)
    except BaseException:
        with contextlib.suppress(FileNotFoundError):
            os.unlink(made)
        raise

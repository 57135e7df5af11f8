"""nginx's cache, which still has the replies from before a restore. It belongs to nginx's user; no other user
follows links in it."""
import contextlib
import errno
import os
import pwd
import shutil
from collections.abc import Callable, Iterator

from life_operate.archive import Refused
from life_operate.privileges import call_as

# The content of the cache is first moved here, next to it, because removing it can take long.
OLD = ".old-"
FOLDER = os.O_RDONLY | os.O_DIRECTORY | os.O_NOFOLLOW


@contextlib.contextmanager
def opened(name: str, within: int | None = None, flags: int = FOLDER) -> Iterator[int]:
    number = os.open(name, flags, dir_fd=within)
    try:
        yield number
    finally:
        os.close(number)


@contextlib.contextmanager
def site_and_cache(folder: str) -> Iterator[tuple[int, int] | None]:
    """Opens the site's folder and the cache in it; None if there is no cache."""
    with contextlib.ExitStack() as stack:
        try:
            site = stack.enter_context(opened(folder, flags=os.O_RDONLY | os.O_DIRECTORY))
            found: tuple[int, int] | None = (site, stack.enter_context(opened("cache", site)))
        except FileNotFoundError:
            found = None
        except OSError as fault:
            if fault.errno in (errno.ELOOP, errno.ENOTDIR):
                raise Refused(f"{folder}/cache is a link or not a folder, and was not emptied") from fault
            raise
        yield found


def look(folder: str) -> None:
    """Refuses a cache that can't be emptied."""
    with site_and_cache(folder) as found:
        if found and not all(os.access(".", os.W_OK | os.X_OK, dir_fd=number) for number in found):
            raise Refused(f"{folder}/cache can't be emptied by user {os.geteuid()}")


def move(name: str, cache: int, old: int) -> None:
    try:
        os.rename(name, name, src_dir_fd=cache, dst_dir_fd=old)
    except FileNotFoundError:
        # nginx removed it itself.
        return
    except OSError as fault:
        if fault.errno != errno.EXDEV:
            raise
        # The cache is a separate disk.
        shutil.rmtree(name, dir_fd=cache)


def move_away(folder: str) -> int:
    """Empties the cache by renaming everything in it; returns how many names that were."""
    with site_and_cache(folder) as found:
        names = os.listdir(found[1]) if found else []
        if found and names:
            place = f"{OLD}{os.getpid()}-{os.urandom(4).hex()}"
            os.mkdir(place, 0o700, dir_fd=found[0])
            with opened(place, found[0]) as old:
                for name in names:
                    move(name, found[1], old)
                # So that nothing old is served after a power cut either.
                os.fsync(found[1])
        return len(names)


def remove_old(folder: str) -> None:
    """Removes the folders that were moved away, also by killed commands."""
    with site_and_cache(folder) as found:
        if found is None:
            return
        for name in os.listdir(found[0]):
            if name.startswith(OLD):
                shutil.rmtree(name, ignore_errors=True, dir_fd=found[0])


def as_owner(function: Callable[[str], object], folder: str) -> object:
    """Calls one of these functions as the user who owns the folder."""
    if os.geteuid() != 0 or not os.path.isdir(folder):
        return function(folder)
    number = os.stat(folder).st_uid
    try:
        owner = pwd.getpwuid(number)
    except KeyError as fault:
        raise Refused(f"{folder} belongs to user {number}, who has no name") from fault
    return call_as(owner, function, folder)

"""Objects that become new files, each with its name only when all of it is there."""

import errno
import os

from . import Failed, path_below, tell, write_all


class NewFile:
    """A file that gets its name when all of it is there."""

    def __init__(self, path):
        self.path, self.file, self.part, self.made = path, None, None, []

    def make(self):
        if os.path.lexists(self.path):
            raise FileExistsError(errno.EEXIST, os.strerror(errno.EEXIST))
        folder = os.path.dirname(self.path)
        # the folders in which something is made
        above = folder
        while not os.path.isdir(above):
            above = os.path.dirname(above) or b"."
            self.made.append(above)
        os.makedirs(folder, exist_ok=True)
        part = os.path.join(folder, b".session-" + os.urandom(8).hex().encode())
        self.file, self.part = os.open(part, os.O_WRONLY | os.O_CREAT | os.O_EXCL, 0o666), part

    def write(self, piece):
        if self.file is None:
            self.make()
        write_all(self.file, piece)

    def place(self):
        """Gives it its name, where nothing has it yet."""
        if self.file is None:
            self.make()
        os.fsync(self.file)
        file, self.file = self.file, None
        os.close(file)
        for folder in self.made:
            sync_folder(folder)
        try:
            os.link(self.part, self.path)
        except OSError as why:
            # some file systems have no second names
            if why.errno not in (errno.EPERM, errno.EOPNOTSUPP, errno.ENOSYS, errno.EMLINK) or os.path.lexists(self.path):
                raise
            os.rename(self.part, self.path)
            self.part = None
        sync_folder(os.path.dirname(self.path))

    def end(self):
        """Takes away what has another name."""
        try:
            if self.file is not None:
                os.close(self.file)
            if self.part is not None:
                os.unlink(self.part)
        except OSError as why:
            tell(f"left behind, {why.strerror}:", self.part or self.path)


def sync_folder(folder):
    file = os.open(folder or b".", os.O_RDONLY | os.O_DIRECTORY)
    try:
        os.fsync(file)
    except OSError as why:
        # some file systems sync no folder
        if why.errno != errno.EINVAL:
            raise
    finally:
        os.close(file)


def get(session, folder, names):
    """Writes the objects as new files, and says whether all of them were written."""
    whole = True
    for name in names:
        try:
            file = NewFile(path_below(folder, name))
            try:
                session.read(name, file.write)
                file.place()
            except OSError as why:
                raise Failed(f"not written: {why.strerror}:") from None
            finally:
                file.end()
        except Failed as why:
            whole = False
            tell(str(why), name)
    return whole

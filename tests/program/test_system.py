"""The program and the system: devices and pipes as its files, output that cannot be written, and little stack."""

import contextlib
import errno
import os
import signal
import subprocess
import threading
import unittest

from test_program import FILES, Folder

WHOLE = (
    "finished\nlive 4\nfollowed 5\nhanded 1\nrefused 0\nmoved 18\ncarrying 0\n"
    "box 0 followed 3 won 2 lost 1 handed 1\nbox 1 followed 2 won 1 lost 0 handed 0\n"
    "dead 4 500\ndead 5 600\nfreed 1100\n"
)
LIMITS = {"store.cat": 62_064, "order.run": 65_536}

# What is refused where a file is filled up with zeros to its limit.
AT_LIMIT = {"store.cat": "refusal 2\n", "order.run": "refusal 9\n"}

# A `read` that fails where it is asked for one byte.
FAILING_READ = """
#include <errno.h>
#include <sys/syscall.h>
#include <unistd.h>
ssize_t read(int fd, void *bytes, size_t count) {
    if (count == 1) {
        errno = EIO;
        return -1;
    }
    return syscall(SYS_read, fd, bytes, count);
}
"""


class Files(Folder):
    def test_endless_device(self):
        for name in FILES:
            data = (self.folder / name).read_bytes()
            (self.folder / name).unlink()
            (self.folder / name).symlink_to("/dev/zero")
            self.assertEqual(self.run_program(), "refusal 11\n")
            (self.folder / name).unlink()
            self.write(name, data)

    def test_read_past_the_limit_fails(self):
        shim = self.folder / "shim.so"
        subprocess.run(["gcc", "-shared", "-fPIC", "-x", "c", "-", "-o", shim], input=FAILING_READ.encode(), check=True)
        shim.chmod(0o755)
        preloaded = {"env": os.environ | {"LD_PRELOAD": str(shim)}}
        self.assertEqual(self.run_program(**preloaded), WHOLE)
        for name in FILES:
            data = (self.folder / name).read_bytes()
            self.write(name, data + bytes(LIMITS[name] - len(data)))
            self.assertEqual(self.run_program(), AT_LIMIT[name])
            self.assertEqual(self.run_program(**preloaded), "refusal 12\n")
            self.write(name, data)


class Pipes(Folder):
    """Named pipes as files. Either end of a pipe waits in its open for the other, so it is fed beside the program."""

    @contextlib.contextmanager
    def fed(self, name, pieces):
        """The file as a pipe that is given these pieces; afterwards it is as before."""
        path = self.folder / name
        data = path.read_bytes()
        path.unlink()
        os.mkfifo(path)
        # The mode that mkfifo is given would be narrowed by the umask.
        path.chmod(0o644)

        def feed():
            # The program may have enough before all is written.
            with contextlib.suppress(BrokenPipeError), open(path, "wb", buffering=0) as pipe:
                for piece in pieces:
                    pipe.write(piece)

        feeder = threading.Thread(target=feed)
        feeder.start()
        try:
            yield
        finally:
            # Lets the feeder go on if the program has not opened the pipe.
            os.close(os.open(path, os.O_RDONLY | os.O_NONBLOCK))
            feeder.join()
            path.unlink()
            self.write(name, data)

    def test_pieces(self):
        for name in FILES:
            data = (self.folder / name).read_bytes()
            for size in (1, 7, len(data)):
                with self.fed(name, [data[at : at + size] for at in range(0, len(data), size)]):
                    self.assertEqual(self.run_program(), WHOLE)

    def test_both(self):
        with self.fed("order.run", [self.order]), self.fed("store.cat", [self.store]):
            self.assertEqual(self.run_program(), WHOLE)

    def test_limits(self):
        for name in FILES:
            data = (self.folder / name).read_bytes()
            full = data + bytes(LIMITS[name] - len(data))
            for pieces, told in (([full], AT_LIMIT[name]), ([full, b"\0"], "refusal 11\n"), ([full] * 9, "refusal 11\n")):
                with self.fed(name, pieces):
                    self.assertEqual(self.run_program(), told)

    def test_nothing(self):
        with self.fed("store.cat", []):
            self.assertEqual(self.run_program(), "refusal 1\n")

    def test_pipe_that_is_not_opened(self):
        (self.folder / "store.cat").chmod(0)
        with self.fed("order.run", [self.order]):
            (self.folder / "order.run").chmod(0)
            self.assertEqual(self.run_program(), "refusal 12\n")


class Output(Folder):
    """Where the answer cannot be written whole, standard error says so; the exit status stays 0."""

    def told(self, number):
        return f"collect: the answer was not written whole: {os.strerror(number)}\n".encode()

    def shell(self, line, **options):
        """The program by a line of the shell, with its path as $0."""
        return self.start("sh", "-c", line, self.program, **options)

    def test_closed(self):
        done = self.shell('exec "$0" >&-')
        self.assertEqual((done.returncode, done.stdout, done.stderr), (0, b"", self.told(errno.EBADF)))

    def test_read_only(self):
        done = self.shell('exec "$0" 1</dev/null')
        self.assertEqual((done.returncode, done.stderr), (0, self.told(errno.EBADF)))

    def test_full_device(self):
        done = self.shell('exec "$0" >/dev/full')
        self.assertEqual((done.returncode, done.stderr), (0, self.told(errno.ENOSPC)))

    def test_full_pipe(self):
        reader, writer = os.pipe()
        os.set_blocking(writer, False)
        with contextlib.suppress(BlockingIOError):
            while True:
                os.write(writer, bytes(4096))
        done = self.start(stdout=writer)
        os.close(reader)
        os.close(writer)
        self.assertEqual((done.returncode, done.stderr), (0, self.told(errno.EAGAIN)))

    def test_pipe_without_reader(self):
        reader, writer = os.pipe()
        os.close(reader)
        done = self.start(stdout=writer)
        os.close(writer)
        self.assertEqual((done.returncode, done.stderr), (0, self.told(errno.EPIPE)))

    def limited(self, prepare):
        """What stands in a file that may have 20 bytes, and how the program ended."""
        out = self.folder / "out"
        with open(out, "wb") as file:
            command = ("prlimit", "--fsize=20", "sh", "-c", prepare + 'exec "$0"', self.program)
            done = self.start(*command, stdout=file)
        self.assertEqual(out.read_bytes(), WHOLE[:20].encode())
        return done.returncode, done.stderr

    def test_file_size_limit(self):
        self.assertEqual(self.limited(""), (-signal.SIGXFSZ, b""))
        self.assertEqual(self.limited("trap '' XFSZ; "), (0, self.told(errno.EFBIG)))

    def test_no_standard_error(self):
        done = self.shell('exec "$0" >/dev/full 2>&-')
        self.assertEqual((done.returncode, done.stderr), (0, b""))


class Stack(Folder):
    def test_half_a_megabyte(self):
        """It is enough beside the largest environment that the system takes with so little."""
        large = {"env": os.environ | {"LARGE": "x" * 100_000}}
        self.assertEqual(self.run_program("sh", "-c", 'ulimit -s 512; exec "$0"', self.program, **large), WHOLE)


if __name__ == "__main__":
    unittest.main()

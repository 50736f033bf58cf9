"""Runs the programs of a case: writes its standard input as the case says, and collects its outputs."""
import dataclasses
import fcntl
import os
import pty
import signal
import socket
import struct
import subprocess
import termios
import threading
import time
import tty

from cases import INTERRUPT, Case, Command, Mark, Stream, bytes_of

# a program that has not ended after this number of seconds is ended
LONGEST_RUN = 60
# a program that has not read its input, or has not answered, after this number of seconds is not waited for
LONGEST_PAUSE = 10
# the pipes of a case are made, and its program starts, while no other program starts, because for a moment, a new process has a copy of
# every pipe, and would be a reader of a pipe that nobody should read
STARTING = threading.Lock()


@dataclasses.dataclass
class Found:
    """What a program did."""
    stdout: bytes
    stderr: bytes
    status: object
    stdout_writes: int
    stderr_writes: int
    problems: list


class Output:
    """An output of the program. `handle` is the end that the program gets. The bytes are collected until its end."""

    def __init__(self, stream: Stream) -> None:
        self.mode = stream.mode
        self.collected = bytearray()
        self.writes = 0
        self.ours = None
        self.handle = self.open()
        self.thread = None

    def open(self) -> int:
        """Opens the output. Sets `ours`, the end that is read, and returns the end of the program."""
        if self.mode == 'full':
            return os.open('/dev/full', os.O_WRONLY)
        if self.mode == 'terminal':
            self.ours, handle = pty.openpty()
            tty.setraw(handle)
            return handle
        if self.mode.endswith('writes'):
            # this socket keeps each write as one message
            ours, its = socket.socketpair(socket.AF_UNIX, socket.SOCK_SEQPACKET)
            self.ours = ours.detach()
            return its.detach()
        ours, handle = os.pipe()
        if self.mode == 'closed':
            os.close(ours)
        else:
            self.ours = ours
        return handle

    def start(self) -> None:
        """Begins to collect the bytes, after the program has started."""
        os.close(self.handle)
        if self.ours is not None:
            self.thread = threading.Thread(target=self.collect, daemon=True)
            self.thread.start()

    def collect(self) -> None:
        """Collects the bytes until the end, or until the end of the first line."""
        size = 1 if self.mode == 'until a line' else 1_000_000
        while True:
            try:
                read = os.read(self.ours, size)
            except OSError:
                # a terminal that the program has closed
                break
            self.collected += read
            self.writes += 1
            if not read or (self.mode == 'until a line' and read == b'\n'):
                break
        os.close(self.ours)

    def is_open(self) -> bool:
        """Whether more bytes can come."""
        return self.thread is not None and self.thread.is_alive()

    def finish(self) -> bytes:
        """Waits until all bytes are collected, and returns them."""
        if self.thread is not None:
            self.thread.join(LONGEST_PAUSE)
        return bytes(self.collected)


class Input:
    """Standard input of the program. `handle` is the end that the program gets."""

    def __init__(self, stream: Stream, folder: str) -> None:
        self.stream = stream
        self.ours = None
        self.problems = []
        if stream.mode.startswith('from '):
            self.handle = os.open(os.path.join(folder, stream.mode[len('from '):]), os.O_RDONLY)
        elif INTERRUPT in stream.text:
            self.handle = self.open_socket()
        else:
            self.handle, self.ours = os.pipe()
        if stream.mode == 'that fails':
            os.write(self.ours, bytes_of(stream.text))
            os.set_blocking(self.handle, False)

    def open_socket(self) -> int:
        """Opens a socket. Its reads have a time limit, so they fail with EINTR if the process is stopped and goes on: see signal(7)."""
        ours, its = socket.socketpair(socket.AF_UNIX, socket.SOCK_STREAM)
        its.setsockopt(socket.SOL_SOCKET, socket.SO_RCVTIMEO, struct.pack('ll', 10 * LONGEST_PAUSE, 0))
        self.ours = ours.detach()
        return its.detach()

    def write(self, process: subprocess.Popen, stdout: Output, answers: list) -> None:
        """Writes the input, in pieces if the case says so. `answers` has the pieces of the output that are due at each pause."""
        os.close(self.handle)
        if self.ours is None:
            return
        try:
            self.write_pieces(process, stdout, answers)
        except BrokenPipeError:
            # the program does not read any more
            pass
        if self.stream.mode == 'that fails':
            # an end of the input would be no failure
            process.wait()
        os.close(self.ours)

    def write_pieces(self, process: subprocess.Popen, stdout: Output, answers: list) -> None:
        """Writes the pieces of the input."""
        if self.stream.mode == 'that fails':
            return
        pauses = 0
        for part in self.stream.text:
            if isinstance(part, Mark):
                self.wait_until_read(process)
                if part is INTERRUPT:
                    interrupt(process)
                pauses += 1
                self.wait_for(stdout, b''.join(answers[:pauses]), pauses)
            elif self.stream.mode == 'byte by byte':
                for byte in part:
                    os.write(self.ours, bytes([byte]))
                    self.wait_until_read(process)
            else:
                write_all(self.ours, part)

    def wait_until_read(self, process: subprocess.Popen) -> None:
        """Waits until the program has read all that was written, or has ended."""
        request = termios.TIOCOUTQ if INTERRUPT in self.stream.text else termios.FIONREAD
        end = time.monotonic() + LONGEST_PAUSE
        while struct.unpack('i', fcntl.ioctl(self.ours, request, b'\0\0\0\0'))[0] and process.poll() is None:
            if time.monotonic() > end:
                self.problems.append('the program does not read its input')
                return
            time.sleep(0.0002)

    def wait_for(self, stdout: Output, wanted: bytes, pauses: int) -> None:
        """Waits until the program has written the bytes that are due at this pause."""
        end = time.monotonic() + LONGEST_PAUSE
        while len(stdout.collected) < len(wanted):
            if time.monotonic() > end or not stdout.is_open():
                self.problems.append(f'the program has not written before pause {pauses} of its input ends what it should')
                return
            time.sleep(0.0002)


def write_all(handle: int, text: bytes) -> None:
    """Writes all bytes."""
    rest = memoryview(text)
    while rest:
        rest = rest[os.write(handle, rest):]


def state_of(process: subprocess.Popen) -> str:
    """The state of a process on Linux: `S` if it waits, `T` if it is stopped, and nothing if it has ended."""
    try:
        with open(f'/proc/{process.pid}/stat', encoding='ascii', errors='replace') as file:
            return file.read().rpartition(')')[2].split()[0]
    except OSError:
        return ''


def wait_for_state(process: subprocess.Popen, state: str) -> None:
    """Waits until a process is in a state, or has ended."""
    end = time.monotonic() + LONGEST_PAUSE
    while process.poll() is None and state_of(process) != state and time.monotonic() < end:
        time.sleep(0.0002)


def interrupt(process: subprocess.Popen) -> None:
    """Interrupts the read for which the program waits: stops the program, and lets it go on."""
    wait_for_state(process, 'S')
    process.send_signal(signal.SIGSTOP)
    wait_for_state(process, 'T')
    process.send_signal(signal.SIGCONT)


def make_files(case: Case, folder: str) -> None:
    """Makes the files and the folders of a case."""
    root = os.fsencode(folder)
    for name in case.folders:
        os.mkdir(os.path.join(root, name))
    for name, text in case.files.items():
        with open(os.path.join(root, name), 'wb') as file:
            file.write(text)


def environment_of(case: Case) -> dict:
    """The environment of the program."""
    kept = {name: value for name, value in os.environ.items() if name != 'NO_COLOR'}
    return {**kept, 'TERM': 'xterm', **case.environment}


def run_command(case: Case, command: Command, program: str, folder: str) -> Found:
    """Runs a command of a case in a folder. `program` is the path of its program."""
    make_files(case, folder)
    answers = [bytes_of(it) for it in case.stdout.pieces()[:-1]]
    with STARTING:
        stdin, stdout, stderr = Input(case.stdin, folder), Output(case.stdout), Output(case.stderr)
        process = subprocess.Popen([os.fsencode(program), *command.words], stdin=stdin.handle, stdout=stdout.handle,
                                   stderr=subprocess.STDOUT if case.stdout.mode == 'with stderr' else stderr.handle, cwd=folder, env=environment_of(case))
    stdout.start()
    stderr.start()
    writer = threading.Thread(target=stdin.write, args=(process, stdout, answers), daemon=True)
    writer.start()
    try:
        status = process.wait(LONGEST_RUN)
    except subprocess.TimeoutExpired:
        process.kill()
        status = process.wait()
        stdin.problems.append(f'the program had not ended after {LONGEST_RUN} seconds')
    writer.join(LONGEST_PAUSE)
    found = stdout.finish(), stderr.finish()
    return Found(*found, status, max(0, stdout.writes - 1), max(0, stderr.writes - 1), stdin.problems)

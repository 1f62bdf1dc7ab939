"""A live master beside a scheduler: `mrjob serve` over a pipe.

    lines = head(Cluster({"a": Worker("r"), "b": Worker("r")}), {"s": Split(10, ["a"])})
    with Master(lines, log="job.log") as master:
        start, = master.wave().starts
        master.done(start.attempt)

Each call is answered before it returns, and any number of threads may call. A call that the master refuses raises
Ignored or Faulty, and changes nothing. `workers`, `open_work` and `outputs` ask how the master stands, `audit` has the
last wave as a text for `mrjob check`. `commit` starts a plan of one's own, or raises NotCertified. `AsyncMaster` has the
same calls to be awaited. With a log each line that asks nothing is kept before it is sent: where the master or its
client has ended, `Master.recover` tells the log to a new master, which comes to where the old one was. A log without
plans of one's own is, with its `end`, a script for `mrjob play`.
"""
import asyncio
import os
import subprocess
import threading
from asyncio.subprocess import Process
from pathlib import Path
from types import TracebackType
from typing import BinaryIO, Iterable, List, Mapping, Optional, Sequence, Tuple, Type, TypeVar, Union

from . import calls
from .calls import QUERIES, Ahead, Call, Copy, Ended, Faulty, Ignored, NamedPrices, NotCertified, OpenWork, Reduce
from .calls import Standing, Start, Wave, head

__all__ = ["Ahead", "AsyncMaster", "Copy", "Ended", "Faulty", "Ignored", "Master", "MasterEnded", "NoSession"]
__all__ += ["NotCertified", "OpenWork", "Reduce", "Standing", "Start", "Wave", "head"]

T = TypeVar("T")
Place = Union[str, "os.PathLike[str]"]
# The name of a program, or the words that it is called by.
Program = Union[str, Sequence[str]]

# A line of an index has at most so many bytes.
MOST_BYTES = 1 << 24
# So many bytes wait in a pipe for a reader that is busy.
PIPE_BYTES = 1 << 15


class MasterEnded(Exception):
    """The master gave no whole answer, since it has ended with this status. What it was told last may have been done;
    its log has it, so that a new master does it."""

    def __init__(self, status: int) -> None:
        super().__init__(f"the master ended with status {status}")
        self.status = status


class NoSession(ValueError):
    """The head of a session has a fault; the words name its line."""


class Log:
    """The lines that a master is told, but for queries, each put there before it is sent. With no path they are kept
    nowhere."""

    def __init__(self, path: Optional[Place], durable: bool, is_new: bool) -> None:
        self.file: Optional[BinaryIO] = None if path is None else open(path, "xb" if is_new else "r+b")
        self.durable = durable

    def whole_lines(self) -> List[str]:
        """What it has; a line that was cut off was never sent, and goes."""
        assert self.file is not None
        text = self.file.read()
        whole = text[: text.rfind(b"\n") + 1]
        self.file.truncate(len(whole))
        self.file.seek(len(whole))
        return whole.decode().split("\n")[:-1]

    def keep(self, text: bytes) -> None:
        if self.file:
            self.file.write(text)
            self.file.flush()
            if self.durable:
                os.fsync(self.file.fileno())

    def close(self) -> None:
        if self.file:
            self.file.close()


def serve(program: Program, audits: bool) -> List[str]:
    """The words by which a master is called; without audits it keeps no wave for one."""
    return [*([program] if isinstance(program, str) else program), "serve", *([] if audits else ["--no-audit"])]


def sent(lines: Iterable[str]) -> bytes:
    return "".join(f"{line}\n" for line in lines).encode()


def is_query(lines: Sequence[str]) -> bool:
    """A query is put into no log, as it changes nothing."""
    return len(lines) == 1 and lines[0] in QUERIES


def one_line_each(lines: Sequence[str]) -> None:
    if any("\n" in line for line in lines):
        raise ValueError("a line has no line feed")


def batches(lines: Iterable[str]) -> List[List[str]]:
    """Lines in batches that a pipe has room for, so that the master is never waited for as it waits itself."""
    found: List[List[str]] = []
    room = 0
    for line in lines:
        room -= len(line.encode()) + 1
        if room < 0:
            found.append([])
            room = PIPE_BYTES - len(line.encode()) - 1
        found[-1].append(line)
    return found


def opened(answer: Sequence[str]) -> None:
    if answer:
        raise NoSession(answer[0])


def parted(log: Sequence[str], path: Place) -> Tuple[Sequence[str], Sequence[str]]:
    """The head with its `begin`, and the calls after it."""
    if "begin" not in log:
        raise NoSession(f"{os.fspath(path)}: there is no line 'begin'")
    return log[: log.index("begin") + 1], log[log.index("begin") + 1 :]


class Master:
    """A master of the job that a head declares: the lines of a script up to its `begin`, without it.

    `program` is its name, or words in front of `serve`. `log` is a file that must not be there yet; with `durable` each
    of its lines is on the disk before it is sent. Without `audits` no wave is kept for `audit`, which is then ignored,
    and a wave copies no problem. Leaving `with` closes the pipe, and the master ends by itself; `status` is then what
    it ended with.
    """

    def __init__(
        self,
        head: Iterable[str],
        *,
        program: Program = "mrjob",
        log: Optional[Place] = None,
        durable: bool = False,
        audits: bool = True,
    ) -> None:
        self._begin(serve(program, audits), Log(log, durable, True))
        try:
            opened(self._told([*head, "begin"]))
        except BaseException:
            self.close()
            raise

    @classmethod
    def recover(
        cls, log: Place, *, program: Program = "mrjob", durable: bool = False, audits: bool = True
    ) -> "Master":
        """A new master that was told a log, and goes on with it. `told` has each line with its answer: of the last one
        the old master may not have answered."""
        master = cls.__new__(cls)
        master._begin(serve(program, audits), Log(log, durable, False))
        try:
            first, rest = parted(master._log.whole_lines(), log)
            writer = threading.Thread(target=master._write, args=(sent([*first, *rest]),), daemon=True)
            writer.start()
            opened(master._answer())
            master.told = [(line, master._answer()) for line in rest]
            writer.join()
        except BaseException:
            master.close()
            raise
        return master

    def _begin(self, words: Sequence[str], log: Log) -> None:
        self.told: List[Tuple[str, List[str]]] = []
        self.status: Optional[int] = None
        self._log, self._turn = log, threading.Lock()
        try:
            self._process = subprocess.Popen(words, stdin=subprocess.PIPE, stdout=subprocess.PIPE)
        except BaseException:
            log.close()
            raise

    def _told(self, lines: Sequence[str]) -> List[str]:
        text = sent(lines)
        if not is_query(lines):
            self._log.keep(text)
        self._write(text)
        return self._answer()

    def _write(self, text: bytes) -> None:
        assert self._process.stdin is not None
        try:
            self._process.stdin.write(text)
            self._process.stdin.flush()
        except BrokenPipeError:
            pass  # (it has ended, and reading on tells so)

    def _answer(self) -> List[str]:
        assert self._process.stdout is not None
        lines: List[str] = []
        while True:
            line = self._process.stdout.readline()
            if line == b"\n":
                return lines
            if not line.endswith(b"\n"):
                raise MasterEnded(self._process.wait())
            lines.append(line[:-1].decode())

    def tell(self, line: str) -> List[str]:
        """The lines of the answer to a line, whatever it is."""
        with self._turn:
            return self._tell_all([line])[0]

    def tell_all(self, lines: Iterable[str]) -> List[List[str]]:
        """The answers to lines of which none asks. They are sent many at once, and so sooner than one by one."""
        with self._turn:
            return [answer for batch in batches(lines) for answer in self._tell_all(batch)]

    def _tell_all(self, lines: Sequence[str]) -> List[List[str]]:
        """The answers to some lines, which are sent at once; for who has the turn."""
        one_line_each(lines)
        if self.status is not None:
            raise MasterEnded(self.status)
        if not lines:
            return []
        try:
            first = self._told(lines)
            answers = [first, *(self._answer() for _ in lines[1:])]
        except BaseException:  # (whose answer was not read, so no other could be)
            self.kill()
            raise
        if lines[-1] == "end":
            self.status = self._process.wait()
        return answers

    def do(self, call: Call[T]) -> T:
        return call.answered(self.tell(call.line))

    def wave(self) -> Wave:
        """Starts as many pending splits as any admissible assignment can, at the least byte-distance."""
        return self.do(calls.wave())

    def ahead(self, places: Iterable[int]) -> Ahead:
        """Plans all pending splits onto the workers' queues, as well as can be, and starts as many of each queue as its
        worker has free slots. `places` has a number for each worker, in the order of the head, 0 to 255: so many splits
        its queue holds, and at least as many as it has free slots. With all 0 it starts a wave."""
        return self.do(calls.ahead(places))

    def commit(self, starts: Mapping[str, str], prices: NamedPrices) -> Wave:
        """Starts a plan of one's own: these splits, each on its worker, if the prices certify that no assignment of the
        present state is better. Else NotCertified has the first condition that fails, and nothing starts."""
        plan = calls.plan(starts, prices)
        with self._turn:
            answers = self._tell_all([it.line for it in plan])
            try:
                for call, answer in zip(plan, answers):
                    call.answered(answer)
                return calls.commit().answered(self._tell_all(["commit"])[0])
            except Faulty:
                self._tell_all(["drop"])
                raise

    def done(self, attempt: int) -> None:
        """An attempt of a split or of a part is done."""
        self.do(calls.done(attempt))

    def fail(self, attempt: int) -> None:
        """An attempt failed; a split does not start on that worker again."""
        self.do(calls.fail(attempt))

    def withdraw(self, attempt: int) -> None:
        """An attempt of a split was not begun."""
        self.do(calls.withdraw(attempt))

    def die(self, worker: str) -> None:
        self.do(calls.die(worker))

    def join(self, worker: str, splits: Iterable[str] = ()) -> None:
        """A dead worker returns with these splits."""
        self.do(calls.join(worker, splits))

    def add(self, split: str, worker: str) -> None:
        """A worker holds a split more."""
        self.do(calls.add(split, worker))

    def lose(self, split: str, worker: str) -> None:
        """A worker holds a split less."""
        self.do(calls.lose(split, worker))

    def sweep(self, beats: Iterable[int]) -> Tuple[str, ...]:
        """The workers that die by a sweep; `beats` has a count for each worker, in the order of the head."""
        return self.do(calls.sweep(beats))

    def reduce(self) -> Reduce:
        """Starts the lowest pending part, once all splits are done."""
        return self.do(calls.reduce())

    def backup(self, split: str, worker: str) -> Start:
        """Starts a second attempt of a split that runs."""
        return self.do(calls.backup(split, worker))

    def copies(self) -> Tuple[Copy, ...]:
        """The copies that bring each split to its target of holders; nothing changes."""
        return self.do(calls.copies())

    def workers(self) -> Tuple[Standing, ...]:
        """How each worker stands, in the order of the head. This and the next two ask, and change nothing."""
        return self.do(calls.workers())

    def open_work(self) -> OpenWork:
        """The splits and parts that are not done, with the attempts that run."""
        return self.do(calls.open_work())

    def outputs(self) -> Tuple[Start, ...]:
        """Of each split that is done the accepted attempt, and the worker on which it ran."""
        return self.do(calls.outputs())

    def audit(self) -> str:
        """The last wave as a text that `mrjob check` certifies: the problem that it found, its starts and its prices."""
        return self.do(calls.audit())

    def end(self) -> Ended:
        """Ends the session: the index, or what is open."""
        return self.do(calls.end())

    def kill(self) -> None:
        """Ends the master as a crash does; each later call raises MasterEnded."""
        self._process.kill()

    def close(self) -> None:
        for stream in (self._process.stdin, self._process.stdout):
            assert stream is not None
            try:
                stream.close()
            except BrokenPipeError:
                pass
        self.status = self._process.wait()
        self._log.close()

    def __enter__(self) -> "Master":
        return self

    def __exit__(
        self, kind: Optional[Type[BaseException]], error: Optional[BaseException], at: Optional[TracebackType]
    ) -> None:
        self.close()


class AsyncMaster:
    """The calls of Master, each to be awaited; made by `await AsyncMaster.open(head)` or `recover(log)`."""

    def __init__(self, process: Process, log: Log) -> None:
        self.told: List[Tuple[str, List[str]]] = []
        self.status: Optional[int] = None
        self._process, self._log, self._turn = process, log, asyncio.Lock()

    @classmethod
    async def _begin(cls, words: Sequence[str], log: Log) -> "AsyncMaster":
        pipe = asyncio.subprocess.PIPE
        try:
            process = await asyncio.create_subprocess_exec(*words, stdin=pipe, stdout=pipe, limit=MOST_BYTES)
        except BaseException:
            log.close()
            raise
        return cls(process, log)

    @classmethod
    async def open(
        cls,
        head: Iterable[str],
        *,
        program: Program = "mrjob",
        log: Optional[Place] = None,
        durable: bool = False,
        audits: bool = True,
    ) -> "AsyncMaster":
        master = await cls._begin(serve(program, audits), Log(log, durable, True))
        try:
            opened(await master._told([*head, "begin"]))
        except BaseException:
            await master.close()
            raise
        return master

    @classmethod
    async def recover(
        cls, log: Place, *, program: Program = "mrjob", durable: bool = False, audits: bool = True
    ) -> "AsyncMaster":
        master = await cls._begin(serve(program, audits), Log(log, durable, False))
        try:
            first, rest = parted(master._log.whole_lines(), log)
            writing = asyncio.ensure_future(master._write(sent([*first, *rest])))
            opened(await master._answer())
            master.told = [(line, await master._answer()) for line in rest]
            await writing
        except BaseException:
            await master.close()
            raise
        return master

    async def _told(self, lines: Sequence[str]) -> List[str]:
        text = sent(lines)
        if not is_query(lines):
            self._log.keep(text)
        await self._write(text)
        return await self._answer()

    async def _write(self, text: bytes) -> None:
        assert self._process.stdin is not None
        try:
            self._process.stdin.write(text)
            await self._process.stdin.drain()
        except (BrokenPipeError, ConnectionResetError):
            pass  # (it has ended, and reading on tells so)

    async def _answer(self) -> List[str]:
        assert self._process.stdout is not None
        lines: List[str] = []
        while True:
            line = await self._process.stdout.readline()
            if line == b"\n":
                return lines
            if not line.endswith(b"\n"):
                raise MasterEnded(await self._process.wait())
            lines.append(line[:-1].decode())

    async def tell(self, line: str) -> List[str]:
        # (a caller that is cancelled leaves no answer unread)
        return await asyncio.shield(self._tell(line))

    async def tell_all(self, lines: Iterable[str]) -> List[List[str]]:
        return await asyncio.shield(self._tell_batches(batches(lines)))

    async def _tell_batches(self, of_lines: Iterable[Sequence[str]]) -> List[List[str]]:
        async with self._turn:
            return [answer for batch in of_lines for answer in await self._tell_all(batch)]

    async def _tell(self, line: str) -> List[str]:
        async with self._turn:
            return (await self._tell_all([line]))[0]

    async def _tell_all(self, lines: Sequence[str]) -> List[List[str]]:
        one_line_each(lines)
        if self.status is not None:
            raise MasterEnded(self.status)
        if not lines:
            return []
        first = await self._told(lines)
        answers = [first, *[await self._answer() for _ in lines[1:]]]
        if lines[-1] == "end":
            self.status = await self._process.wait()
        return answers

    async def _commit(self, plan: Sequence[Call[None]]) -> Wave:
        async with self._turn:
            answers = await self._tell_all([it.line for it in plan])
            try:
                for call, answer in zip(plan, answers):
                    call.answered(answer)
                return calls.commit().answered((await self._tell_all(["commit"]))[0])
            except Faulty:
                await self._tell_all(["drop"])
                raise

    async def do(self, call: Call[T]) -> T:
        return call.answered(await self.tell(call.line))

    async def wave(self) -> Wave:
        return await self.do(calls.wave())

    async def ahead(self, places: Iterable[int]) -> Ahead:
        return await self.do(calls.ahead(places))

    async def commit(self, starts: Mapping[str, str], prices: NamedPrices) -> Wave:
        return await asyncio.shield(self._commit(calls.plan(starts, prices)))

    async def done(self, attempt: int) -> None:
        await self.do(calls.done(attempt))

    async def fail(self, attempt: int) -> None:
        await self.do(calls.fail(attempt))

    async def withdraw(self, attempt: int) -> None:
        await self.do(calls.withdraw(attempt))

    async def die(self, worker: str) -> None:
        await self.do(calls.die(worker))

    async def join(self, worker: str, splits: Iterable[str] = ()) -> None:
        await self.do(calls.join(worker, splits))

    async def add(self, split: str, worker: str) -> None:
        await self.do(calls.add(split, worker))

    async def lose(self, split: str, worker: str) -> None:
        await self.do(calls.lose(split, worker))

    async def sweep(self, beats: Iterable[int]) -> Tuple[str, ...]:
        return await self.do(calls.sweep(beats))

    async def reduce(self) -> Reduce:
        return await self.do(calls.reduce())

    async def backup(self, split: str, worker: str) -> Start:
        return await self.do(calls.backup(split, worker))

    async def copies(self) -> Tuple[Copy, ...]:
        return await self.do(calls.copies())

    async def workers(self) -> Tuple[Standing, ...]:
        return await self.do(calls.workers())

    async def open_work(self) -> OpenWork:
        return await self.do(calls.open_work())

    async def outputs(self) -> Tuple[Start, ...]:
        return await self.do(calls.outputs())

    async def audit(self) -> str:
        return await self.do(calls.audit())

    async def end(self) -> Ended:
        return await self.do(calls.end())

    def kill(self) -> None:
        self._process.kill()

    async def close(self) -> None:
        assert self._process.stdin is not None
        self._process.stdin.close()
        self.status = await self._process.wait()
        self._log.close()

    async def __aenter__(self) -> "AsyncMaster":
        return self

    async def __aexit__(
        self, kind: Optional[Type[BaseException]], error: Optional[BaseException], at: Optional[TracebackType]
    ) -> None:
        await self.close()

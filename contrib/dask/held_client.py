"""A client whose maps wait, for tests that kill it: held_client.py SCHEDULER_FILE ROOM."""
from __future__ import annotations

import sys
from pathlib import Path

sys.dont_write_bytecode = True
from trial import Gate, place_of  # (which finds the packages)

from distributed import Client
from mrjob_dask import Job, Keys, Work
from mrjob_dask.calls import look

from words import reduce_words


def main() -> None:
    file, room = sys.argv[1:]
    client = Client(scheduler_file=file, set_as_default=False)
    workers, blocks = [*look(client).workers], Keys(client, replicas=3)
    for number in range(12):
        key = f"held-{number}"
        blocks.put(key, b"some text", [(key, 0, 9)], workers[number % 4 : number % 4 + 3])
    blocks.lay()
    closed = {pieces[0] for pieces in blocks.pieces.values()}
    tell = lambda job: (Path(room) / "maps-run").touch() if job.attempts else None
    Job(client, blocks, Work(Gate(room).map(closed), reduce_words, 2), place_of, step=tell).run()


if __name__ == "__main__":
    main()

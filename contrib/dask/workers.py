"""Workers of one thread each in this process: workers.py SCHEDULER_FILE NAME.."""
import asyncio
import sys

from distributed import Worker


async def main() -> None:
    file, *names = sys.argv[1:]
    how = {"nthreads": 1, "host": "127.0.0.1", "dashboard": False, "memory_limit": 0}
    workers = [Worker(scheduler_file=file, name=name, **how) for name in names]
    await asyncio.gather(*workers)
    await asyncio.gather(*(it.finished() for it in workers))


if __name__ == "__main__":
    asyncio.run(main())

"""The engine: dask.distributed, which places tasks on workers, runs them again where a worker died, and says when each has ended."""

import contextlib
import logging
import tempfile
import uuid
from collections.abc import Callable, Iterator
from typing import Any

import dask
import distributed

from focusd_cluster.faults import Busy, Fault
from focusd_cluster.tasks import Order

# How often the engine runs a task again that found its folder busy, and, on a local cluster, whose worker died.
RETRIES = 600
# A connection that was closed is an OSError.
LOST = (OSError, distributed.CancelledError, TimeoutError)


class Engine:
    """A connection to a scheduler."""

    def __init__(self, client: distributed.Client):
        self.client = client

    def done(self, task: Callable[[Order], Order], orders: list[Order]) -> Iterator[Order]:
        """What a task returns for each order, as it ends; a fault is one of the answers."""
        # Each has a key of its own: what an earlier command was answered isn't asked for again.
        futures = {self.client.submit(task, order, key=f"{task.__name__}-{uuid.uuid4().hex}", retries=RETRIES): order for order in orders}
        for future in distributed.as_completed(list(futures), loop=self.client.loop):
            name = futures[future]["name"]
            try:
                yield future.result()
            except distributed.KilledWorker:
                yield {"name": name, "fault": f"{name}: workers died while they worked on it: {future.exception()}. What to do: run the command again"}
            except Busy:
                yield {"name": name, "fault": f"{name}: another program has the folder open. What to do: wait until it ends, and run the command again"}
            except LOST as why:
                raise Fault(f"the scheduler was lost ({type(why).__name__}: {why}). What to do: run the command again") from why
            except Exception as why:
                yield {"name": name, "fault": f"{name}: {type(why).__name__}: {why}"}
            future.release()

    def all(self, task: Callable[[Order], Order], orders: list[Order]) -> list[Order]:
        """What a task returns for each order, in their order. It raises all faults together."""
        found = {answer["name"]: answer for answer in self.done(task, orders)}
        raise_faults(list(found.values()))
        return [found[order["name"]] for order in orders]


def raise_faults(answers: list[Order]) -> None:
    """Raises the faults among the answers of tasks, at most 20 of them, in the order of their names."""
    faults = sorted(answer["fault"] for answer in answers if "fault" in answer)
    if faults:
        more = [f".. and {len(faults) - 20} more"] if len(faults) > 20 else []
        raise Fault("\n".join(faults[:20] + more))


@contextlib.contextmanager
def engine_of(scheduler: str | None, local: int) -> Iterator[Engine]:
    """The engine at an address, or one with so many worker processes on this machine."""
    with contextlib.ExitStack() as stack:
        # What the engine logs of connections that it closes is nothing that a person could act on.
        for name in ("distributed", "asyncio", "tornado"):
            logging.getLogger(name).setLevel(logging.CRITICAL + 1)
        if not scheduler:
            scratch = stack.enter_context(tempfile.TemporaryDirectory(prefix="focusd-cluster-", ignore_cleanup_errors=True))
            # A worker waits for its program: what the engine would note of that a hundred times a second costs more than it tells.
            dask.config.set({"distributed.scheduler.allowed-failures": RETRIES, "distributed.worker.profile.enabled": False, "temporary-directory": scratch})
            options: dict[str, Any] = {"dashboard_address": ":0", "silence_logs": logging.CRITICAL, "local_directory": scratch}
            # Two tasks at hand: while the program of one waits for the disk, that of the other computes.
            started = distributed.LocalCluster(n_workers=local, threads_per_worker=2, processes=True, **options)
            scheduler = stack.enter_context(started).scheduler_address
        try:
            client = distributed.Client(scheduler, timeout=30, set_as_default=False)
        except (OSError, TimeoutError, ValueError) as why:
            raise Fault(f"{scheduler}: no scheduler answers there ({why}). What to do: start one by dask-scheduler") from why
        yield Engine(stack.enter_context(client))

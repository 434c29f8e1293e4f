"""How programs for asyncio end."""

import asyncio

import pytest
from bozintar.running import within

# at which step of the loop the work is cancelled: before and after it ends
STEPS = range(8)


async def is_cancelled(step: int) -> bool:
    """Whether a task that waits for work is cancelled, unless it had ended before."""
    work = asyncio.get_running_loop().create_future()

    async def waits() -> None:
        await work

    task = asyncio.ensure_future(within(60, waits()))
    for _ in range(3):
        await asyncio.sleep(0)
    work.set_result(None)
    for _ in range(step):
        await asyncio.sleep(0)
    if task.done():
        return True
    task.cancel()
    await asyncio.wait({task})
    return task.cancelled()


@pytest.mark.parametrize("step", STEPS)
def test_cancellation_as_work_ends(step: int) -> None:
    """A cancellation isn't lost if it comes as the work ends, so that SIGTERM ends a program."""
    assert asyncio.run(is_cancelled(step))


def test_work_that_takes_long() -> None:
    """Work that takes too long is given up."""
    with pytest.raises(asyncio.TimeoutError):
        asyncio.run(within(0.01, asyncio.sleep(60)))

"""Callers that ask one call after another, and what they saw."""
import asyncio
import collections
import dataclasses
import random

# The seconds between an answer and the next call, in the mean, and those before calls are counted, besides a system's round trips.
PAUSE, BEFORE = 0.01, 1.0
MOST = 4


@dataclasses.dataclass(frozen=True)
class Cell:
    """What is measured at once: a system by its name, the stock, the callers and the weight of each site, and a way's seconds."""

    system: str
    stock: int
    callers: tuple
    weights: tuple
    way: float


@dataclasses.dataclass(frozen=True)
class Seen:
    """An answer: whose, at which site, when, after how many seconds, what was printed, and what was left, where that is known."""

    number: int
    site: int
    at: float
    took: float
    printed: int
    left: int | None


class Crowd:
    def __init__(self, system, cell, seed):
        self.system, self.cell, self.random, self.seen, self.is_over = system, cell, random.Random(seed), [], False
        self.clock = asyncio.get_running_loop().time

    async def run(self, seconds):
        """Lets all callers ask for so long, and returns what was seen within the time that counts, once none has an open call."""
        sites = [site for site, count in enumerate(self.cell.callers) for _ in range(count)]
        calls = [await self.system.caller(site, number) for number, site in enumerate(sites)]
        callers = [asyncio.create_task(self.ask(number, site, call)) for number, (site, call) in enumerate(zip(sites, calls))]
        begin = self.clock() + BEFORE + self.system.trips * 2 * self.cell.way
        ended, _ = await asyncio.wait(callers, timeout=begin + seconds - self.clock(), return_when=asyncio.FIRST_EXCEPTION)
        self.is_over = True
        await asyncio.gather(*callers)
        if ended:
            raise AssertionError("a caller has ended before its time")
        return [it for it in self.seen if begin <= it.at < begin + seconds]

    async def ask(self, number, site, call):
        await asyncio.sleep(self.random.random() * PAUSE)
        while not self.is_over:
            amount, began = self.random.randint(1, MOST), self.clock()
            printed, left = await call(amount)
            if abs(printed) != amount:
                raise AssertionError(f"{amount} were asked for, and {printed} are printed")
            self.seen.append(Seen(number, site, self.clock(), self.clock() - began, printed, left))
            await asyncio.sleep(self.random.expovariate(1 / PAUSE))

    def check(self, last):
        """The last stocks are what the calls leave, and none was ever below nothing or above what there may be."""
        stock, wanted = self.cell.stock, collections.Counter()
        for it in self.seen:
            wanted[self.system.stock_of(it.number)] += (stock if it.printed < 0 else 0) - abs(it.printed)
        for number, value in enumerate(last):
            if value != stock + wanted[number] or not 0 <= value <= stock:
                raise AssertionError(f"stock {number} ends with {value}, and the calls leave {stock + wanted[number]}")
        outside = [it for it in self.seen if it.left is not None and not 0 <= it.left <= stock]
        if outside:
            raise AssertionError(f"a call left {outside[0].left}")

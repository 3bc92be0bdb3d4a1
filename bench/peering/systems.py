"""What live nodes are compared with. Each has the same transaction, and answers what it printed and what is left:

    left := read(stock); if n <= left then { write(stock = left - n); print(n) } else { write(stock = left + MOST - n); print(-n) }

`Central` is PostgreSQL at the first site, serializable. A call is one message there and one back: the transaction is a function of the
database, and where it could not be serialized, it is tried again beside the database. `Script` is Redis there, with the same as a script.

`TwoPhase` is PostgreSQL at every site, each with a copy of the stock, and PREPARE TRANSACTION. The first site coordinates all calls on a
stock, in the order in which they come, so that none waits for another in a circle: it locks the stock and prepares, lets the others
prepare, and commits and answers as soon as all have. So a stock is locked for a round trip. `Apart` is the same where no two callers
meet: each has a stock of its own, and its own site coordinates.
"""
import asyncio

from peering import servers

FUNCTION = """
drop table if exists stocks;
create table stocks (name int primary key, items int not null check (items between 0 and {most}));
insert into stocks select name, {most} from generate_series(0, {count}) name;
create or replace function buy(wanted int, amount int) returns text language plpgsql as $$
declare remaining int;
begin
  select items into remaining from stocks where name = wanted for update;
  if amount <= remaining then
    update stocks set items = remaining - amount where name = wanted;
    return amount || ' ' || remaining - amount;
  end if;
  update stocks set items = remaining + {most} - amount where name = wanted;
  return -amount || ' ' || remaining + {most} - amount;
end $$
"""
SCRIPT = """
local left, amount, most = tonumber(redis.call('GET', KEYS[1])), tonumber(ARGV[1]), tonumber(ARGV[2])
if amount <= left then
  redis.call('SET', KEYS[1], left - amount)
  return {amount, left - amount}
end
redis.call('SET', KEYS[1], left + most - amount)
return {-amount, left + most - amount}
"""
# What PostgreSQL says of a transaction that may be tried again.
AGAIN = {"40001", "40P01"}
# The site of a central database, and how many sites and callers there are.
HOME, SITES, CALLERS = 0, 3, 24


class System:
    """One of them in a cell, over servers that run: `begin` before the callers, `caller` for each, and `last` behind them."""

    # (after so many round trips calls take as long as later on)
    trips = 2

    def __init__(self, cell, ways, running):
        self.cell, self.ways, self.running, self.sessions, self.again = cell, ways, running, [], 0

    async def kept(self, opening):
        self.sessions.append(await opening)
        return self.sessions[-1]

    async def end(self):
        for it in self.sessions:
            await it.close()

    def stock_of(self, number):
        """Which of the last stocks a caller bought of."""
        return 0


class Central(System):
    async def begin(self):
        session = await self.kept(self.running.databases.session(HOME))
        await session.run(FUNCTION.format(most=self.cell.stock, count=0))

    async def caller(self, site, number):
        session = await self.kept(self.running.databases.session(HOME))

        async def call(amount):
            await self.ways.go(site, HOME)
            answer = await self.made(session, amount)
            await self.ways.go(HOME, site)
            return answer

        return call

    async def made(self, session, amount):
        while True:
            try:
                ((said,),) = await session.run(f"select buy(0, {amount})")
                return tuple(map(int, said.split()))
            except servers.Refused as it:
                if it.code not in AGAIN:
                    raise
                self.again += 1

    async def last(self):
        ((items,),) = await self.sessions[0].run("select items from stocks where name = 0")
        return [int(items)]


class Script(System):
    async def begin(self):
        session = await self.kept(self.running.redis.session())
        await session.run("SET", "stock", self.cell.stock)
        self.script = await session.run("SCRIPT", "LOAD", SCRIPT)

    async def caller(self, site, number):
        session = await self.kept(self.running.redis.session())

        async def call(amount):
            await self.ways.go(site, HOME)
            answer = await session.run("EVALSHA", self.script, 1, "stock", amount, self.cell.stock)
            await self.ways.go(HOME, site)
            return tuple(answer)

        return call

    async def last(self):
        return [int(await self.sessions[0].run("GET", "stock"))]


class TwoPhase(System):
    stocks, trips = 1, CALLERS

    async def begin(self):
        self.number, self.committing, self.turns = 0, set(), [asyncio.Lock() for _ in range(self.stocks)]
        for site in range(SITES):
            session = await self.kept(self.running.databases.session(site))
            await session.run(FUNCTION.format(most=self.cell.stock, count=self.stocks - 1))

    def home(self, site):
        return HOME

    async def caller(self, site, number):
        sessions = [await self.kept(self.running.databases.session(it)) for it in range(SITES)]

        async def call(amount):
            home = self.home(site)
            await self.ways.go(site, home)
            async with self.turns[self.stock_of(number)]:
                answer = await self.made(sessions, home, self.stock_of(number), amount)
            await self.ways.go(home, site)
            return answer

        return call

    async def made(self, sessions, home, stock, amount):
        """A call at its coordinator: the answer as soon as that has committed."""
        self.number += 1
        name, others = f"call{self.number}", [site for site in range(SITES) if site != home]
        answer = await self.prepare(sessions[home], name, stock, amount)
        votes = await asyncio.gather(*(self.at(home, it, self.prepare(sessions[it], name, stock, amount)) for it in others))
        if any(vote != answer for vote in votes):
            raise AssertionError(f"the copies differ: {answer} and {votes}")
        await sessions[home].run(f"commit prepared '{name}'")
        for it in others:
            committing = asyncio.create_task(self.at(home, it, sessions[it].run(f"commit prepared '{name}'")))
            self.committing.add(committing)
            committing.add_done_callback(self.committing.discard)
        return answer

    async def at(self, home, site, step):
        """A step at another site, there and back."""
        await self.ways.go(home, site)
        answer = await step
        await self.ways.go(site, home)
        return answer

    async def prepare(self, session, name, stock, amount):
        # (the lock on the row that is read holds to the end, so that it is serializable by this level too)
        rows = await session.run(f"begin isolation level read committed; select buy({stock}, {amount}); prepare transaction '{name}'")
        return tuple(map(int, rows[0][0].split()))

    async def last(self):
        await asyncio.gather(*self.committing)
        found = [await it.run("select items from stocks order by name") for it in self.sessions[:SITES]]
        open_ones = [await it.run("select gid from pg_prepared_xacts") for it in self.sessions[:SITES]]
        if any(it != found[0] for it in found) or any(open_ones):
            raise AssertionError(f"the copies end as {found}, with {open_ones} prepared")
        return [int(items) for (items,) in found[0]]


class Apart(TwoPhase):
    stocks, trips = CALLERS, System.trips

    def home(self, site):
        return site

    def stock_of(self, number):
        return number

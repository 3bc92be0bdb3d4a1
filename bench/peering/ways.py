"""The ways between sites: each message takes its time, and is counted."""
import asyncio


class Ways:
    """So many seconds from any site to any other, and none within a site."""

    def __init__(self, seconds):
        self.seconds, self.messages = seconds, 0

    async def go(self, source, dest):
        """Takes as long as a message from the one site to the other."""
        if source != dest:
            self.messages += 1
            await asyncio.sleep(self.seconds)

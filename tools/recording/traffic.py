"""A proxy that passes on what clients send, and records it: what arrives on each connection, and when."""

import asyncio
import os
import re
import signal
import time

from lib import recordings, tool

MOST_READ = 1 << 16
HOME = "127.0.0.1"
CONNECT_LIMIT, CLOSE_LIMIT = 10, 5  # seconds


def address(word):
    """Host and port of PORT or HOST:PORT."""
    host, _, port = word.rpartition(":")
    if not re.fullmatch("[0-9]{1,5}", port) or not 1 <= int(port) <= 65535:
        raise tool.Wrong("%s is no port from 1 to 65535, nor HOST:PORT" % word)
    return host.strip("[]") or HOME, int(port)


def reason(error):
    """Why a place cannot be listened at or reached, in words."""
    return os.strerror(error.errno).lower() if error.errno and error.errno > 0 else tool.reason(error)


class Place:
    """A tenant, where its clients come, and where its server is."""

    def __init__(self, tenant, here, there):
        if not re.fullmatch("[0-9]{1,2}", tenant) or int(tenant) > 63:
            raise tool.Wrong("a tenant is a number from 0 to 63, and not %s" % tenant)
        self.tenant, self.here, self.there = int(tenant), address(here), address(there)


class Recorder:
    """The records so far, and how they are come by. `tell` is given what a person should know, a line each."""

    def __init__(self, places, tell):
        self.places, self.tell = places, tell
        self.records, self.size, self.begun, self.full = [], len(recordings.recording([])), 0.0, False
        self.connections = self.received = 0
        self.open_links = set()

    def recording(self):
        return recordings.recording(self.records)

    # ---- records

    def add(self, record):
        """Adds a record, or none any more where it has no room: a recording without a part in its middle would be of something that never was."""
        if not self.full and self.size + len(record) > recordings.MOST_BYTES:
            self.full = True
            self.tell("the recording is full; what comes from now on is passed on, and is not in it")
        if not self.full:
            self.size += len(record)
            self.records.append(record)
        return not self.full

    def moment(self):
        return int((time.monotonic() - self.begun) * 1000)

    def begin(self, tenant):
        """The link of a connection, or None where it is not recorded."""
        if not self.full and self.connections == recordings.MOST_CONNECTIONS:
            self.full = True
            self.tell("%d connections are recorded; what comes from now on is passed on, and is not in it" % self.connections)
        if not self.add(recordings.begin(self.moment(), self.connections, tenant)):
            return None
        self.open_links.add(self.connections)
        self.connections += 1
        return self.connections - 1

    def piece(self, link, data):
        if link is not None and self.add(recordings.piece(self.moment(), link, data)):
            self.received += len(data)

    def close(self, link):
        if link in self.open_links:
            self.open_links.discard(link)
            self.add(recordings.close(self.moment(), link))

    # ---- one connection

    async def pass_requests(self, link, reader, onward):
        """Passes on what the client sends, and records it, until it sends no more."""
        try:
            while data := await reader.read(MOST_READ):
                self.piece(link, data)
                onward.write(data)
                await onward.drain()
        finally:
            self.close(link)
            onward.write_eof()

    async def pass_replies(self, reader, back):
        while data := await reader.read(MOST_READ):
            back.write(data)
            await back.drain()

    async def serve(self, place, reader, writer):
        """One client: it is over when its server has closed the connection, or the client has broken it off."""
        link = self.begin(place.tenant)
        onward = requests = None
        try:
            from_server, onward = await asyncio.wait_for(asyncio.open_connection(*place.there), CONNECT_LIMIT)
            requests = asyncio.ensure_future(self.pass_requests(link, reader, onward))
            await self.pass_replies(from_server, writer)
        except asyncio.TimeoutError:
            self.tell("%s:%d did not answer within %d seconds" % (*place.there, CONNECT_LIMIT))
        except OSError as error:
            # One that breaks off later is the client's or the server's to tell.
            if onward is None:
                self.tell("%s:%d cannot be reached: %s" % (*place.there, reason(error)))
        finally:
            if requests is not None:
                requests.cancel()
                await asyncio.gather(requests, return_exceptions=True)
            self.close(link)
            for stream in (onward, writer):
                if stream is not None:
                    stream.close()

    # ---- all of them

    async def listen(self, seconds):
        ended, loop, served = asyncio.Event(), asyncio.get_running_loop(), set()
        for number in (signal.SIGINT, signal.SIGTERM):
            loop.add_signal_handler(number, ended.set)

        def handler(place):
            async def handle(reader, writer):
                served.add(asyncio.current_task())
                try:
                    await self.serve(place, reader, writer)
                except asyncio.CancelledError:
                    pass
                finally:
                    served.discard(asyncio.current_task())

            return handle

        servers = []
        try:
            for place in self.places:
                servers.append(await asyncio.start_server(handler(place), *place.here))
        except OSError as error:
            raise tool.Wrong("%s:%d cannot be listened at: %s" % (*place.here, reason(error))) from None
        self.begun = time.monotonic()
        self.tell("recording")
        try:
            await asyncio.wait_for(ended.wait(), seconds)
        except asyncio.TimeoutError:
            self.tell("%g seconds are over" % seconds)
        # The recording ends here: a connection that is open now is open at its end.
        self.full = True
        for server in servers:
            server.close()
        for task in served:
            task.cancel()
        if served:
            await asyncio.wait(served, timeout=CLOSE_LIMIT)

    def run(self, seconds):
        asyncio.run(self.listen(seconds))

"""Passes requests that change a store on to the machine that writes it, and its answers back.

Tested (tools/tests), not proved. It needs aiohttp.
"""

import asyncio
from typing import Dict, Optional, Tuple

import aiohttp
from aiohttp import web

from .client import PersistError

__all__ = ['PASSED', 'InDoubt', 'NotBegun', 'Passing']

# What a request has that was passed on once. It is not passed on again.
PASSED = 'Persist-Passed'
# What goes with a request, and with its answer.
SENT = ('Authorization', 'Content-Type', 'Accept', 'Persist-After')
GIVEN = ('Content-Type', 'Persist-Number', 'Retry-After')


class NotBegun(PersistError):
    """The other machine was not reached, or does not write the store: nothing was carried out."""


class InDoubt(PersistError):
    """The other machine does not answer. Whether it carries the request out is not known."""


class Passing:
    """The way to other machines."""

    def __init__(self, seconds: float) -> None:
        self._seconds = seconds
        self._session: Optional[aiohttp.ClientSession] = None

    async def send(self, url: str, request: web.BaseRequest, data: bytes) -> Tuple[int, Dict[str, str], bytes]:
        """The status, head and body of the answer of a machine."""
        if self._session is None:
            # Each request has a connection of its own: one that was closed meanwhile would leave it in doubt.
            timeout = aiohttp.ClientTimeout(total=self._seconds, sock_connect=2)
            self._session = aiohttp.ClientSession(connector=aiohttp.TCPConnector(force_close=True, limit=0), timeout=timeout)
        headers = {PASSED: '1', **{name: request.headers[name] for name in SENT if name in request.headers}}
        try:
            async with self._session.request(request.method, url + request.raw_path, data=data, headers=headers, allow_redirects=False) as answer:
                body = await answer.read()
        except (aiohttp.ClientConnectorError, aiohttp.ServerTimeoutError) as error:
            if isinstance(error, aiohttp.ServerTimeoutError) and 'Connection timeout' not in str(error):
                raise InDoubt(f'{url} does not answer') from error
            raise NotBegun(f'{url} is not reached') from error
        except (aiohttp.ClientError, asyncio.TimeoutError, OSError) as error:
            raise InDoubt(f'{url} does not answer') from error
        if answer.status == 421:
            raise NotBegun(f'{url} does not write this store')
        return answer.status, {name: answer.headers[name] for name in GIVEN if name in answer.headers}, body

    async def end(self) -> None:
        """Closes what is open."""
        if self._session is not None:
            await self._session.close()

"""A client of etcd by its HTTP gateway (JSON under `/v3`), on asyncio and nothing but the standard library.

Nothing is tried again here, but for a token that ran out: whoever asks reads the state again, and goes on from there.
"""
from __future__ import annotations

import asyncio
import base64
import json
import pathlib
import re
import ssl
import time
from dataclasses import dataclass
from typing import Any, AsyncIterator, Callable, Dict, List, Optional, Sequence, Tuple
from urllib.parse import urlsplit

from .errors import BentzoluError
from .fleet_calls import Answer, Call, Change, Compare, Created, Done, Equals, Event, Get, Grant, Keep, Pair, Put, Span, Txn

TOKEN_LASTS = 240.0  # seconds after which another token is asked for; etcd's default is 300
TOKEN_WAIT = 30.0  # seconds that one asking for a token may take
MOST_LINE = 1 << 26  # bytes of a line of an answer
LEAST, BELOW = (3, 4), (4, 0)  # versions of etcd
NOT_YET, NO_MORE = 9, 10  # what OpenSSL says of a certificate whose time is not now


class EtcdError(BentzoluError):
    """What etcd refused, or why it can't be asked; the text says what to do."""


@dataclass
class Access:
    """Where etcd is, and as who it is asked. `endpoints` are URLs; the others are paths, but `user` and `password`."""

    endpoints: Sequence[str]
    ca: Optional[str] = None
    certificate: Optional[str] = None
    key: Optional[str] = None
    user: Optional[str] = None
    password: Optional[str] = None

    def context(self) -> Optional[ssl.SSLContext]:
        """TLS, or None where no endpoint wants it.

        Raises
        ------
        EtcdError
            Where a file can't be read.
        """
        for end in self.endpoints:
            if urlsplit(end).scheme not in ("http", "https") or not urlsplit(end).hostname:
                raise EtcdError(f"{end!r} is not an endpoint: write https://HOST:2379")
        if not any(end.startswith("https:") for end in self.endpoints):
            return None
        try:
            context = ssl.create_default_context(cafile=self.ca)
            if self.certificate:
                context.load_cert_chain(self.certificate, self.key)
        except (OSError, ssl.SSLError) as fault:
            names = ", ".join(filter(None, (self.ca, self.certificate, self.key)))
            raise EtcdError(f"the files {names} can't be read ({fault}): give the right files") from None
        return context


def b64(text: str) -> str:
    return base64.b64encode(text.encode()).decode()


def unb64(text: Optional[str]) -> str:
    return base64.b64decode(text).decode("utf-8", "replace") if text else ""


def change_json(change: Change) -> Dict[str, Any]:
    """A change of a transaction, as the gateway reads it."""
    if isinstance(change, Put):
        put = {"key": b64(change.key), "value": b64(change.value)}
        return {"request_put": {**put, "lease": str(change.lease)} if change.lease else put}
    if isinstance(change, Get):
        get: Dict[str, Any] = {"key": b64(change.key)}
        if change.end is not None:
            get["range_end"] = b64(change.end)
        return {"request_range": {**get, "keys_only": True} if change.keys_only else get}
    return {"request_delete_range": {"key": b64(change.key)}}


def compare_json(it: Compare) -> Dict[str, Any]:
    """A comparison of a transaction, as the gateway reads it."""
    found = {"key": b64(it.key), "result": "EQUAL"}
    if isinstance(it, Equals):
        return {**found, "target": "VALUE", "value": b64(it.value)}
    if isinstance(it, Created):
        return {**found, "target": "CREATE", "create_revision": str(it.revision)}
    return {**found, "target": "MOD", "mod_revision": str(it.revision)}


def pair_of(found: Dict[str, Any]) -> Pair:
    return Pair(unb64(found["key"]), unb64(found.get("value")), int(found["create_revision"]), int(found["mod_revision"]),
                int(found.get("lease", 0)))


def event_of(found: Dict[str, Any]) -> Event:
    pair = found["kv"]
    value = None if found.get("type") == "DELETE" else unb64(pair.get("value"))
    return Event(unb64(pair["key"]), value, int(pair["mod_revision"]))


class Etcd:
    """The way to one endpoint at a time; `rotate` goes to the next one."""

    def __init__(self, access: Access, first: int = 0) -> None:
        self.access, self.at, self.token, self.token_since = access, first, "", 0.0
        self.asking: Optional["asyncio.Future[None]"] = None
        self.asked_at = ""
        self.tls = access.context()
        self.idle: List[Tuple[asyncio.StreamReader, asyncio.StreamWriter]] = []
        self.known: Dict[str, str] = {}
        self.bytes_in = self.bytes_out = 0

    @property
    def endpoint(self) -> str:
        """The endpoint that is asked now."""
        return self.access.endpoints[self.at % len(self.access.endpoints)]

    def rotate(self) -> None:
        """Goes to the next endpoint, by new connections."""
        self.at += 1
        self.token = ""
        for _, writer in self.idle:
            writer.transport.abort()
        self.idle = []

    # HTTP

    async def open(self) -> Tuple[asyncio.StreamReader, asyncio.StreamWriter]:
        url = urlsplit(self.endpoint)
        tls = self.tls if url.scheme == "https" else None
        try:
            return await asyncio.open_connection(url.hostname, url.port or 2379, ssl=tls, limit=MOST_LINE)
        except ssl.SSLCertVerificationError as fault:
            asked = "is this machine's clock right? If it is, make new certificates" if fault.verify_code in (NOT_YET, NO_MORE) else "is `ca` the authority's file?"
            raise EtcdError(f"the certificate of {self.endpoint} is not valid ({fault.verify_message}): {asked}") from None
        except ssl.SSLError as fault:
            raise EtcdError(f"TLS with {self.endpoint} failed ({fault.reason}): are `certificate` and `key` those of this client?") from None

    def send(self, writer: asyncio.StreamWriter, method: str, path: str, body: bytes) -> None:
        head = [f"{method} {path} HTTP/1.1", f"Host: {urlsplit(self.endpoint).netloc}", "Content-Type: application/json",
                f"Content-Length: {len(body)}", "Grpc-Metadata-hasleader: true"]
        head += [f"Authorization: {self.token}"] if self.token else []
        data = ("\r\n".join(head) + "\r\n\r\n").encode() + body
        self.bytes_out += len(data)
        writer.write(data)

    async def head(self, reader: asyncio.StreamReader) -> Tuple[int, Dict[str, str]]:
        """The status and the headers of an answer."""
        line = await reader.readline()
        words = line.split()
        if len(words) < 2 or not words[1].isdigit():
            raise ConnectionResetError(f"{self.endpoint} has closed the connection")
        headers: Dict[str, str] = {}
        while (line := await reader.readline()) not in (b"\r\n", b"\n", b""):
            name, _, value = line.decode("latin-1").partition(":")
            headers[name.strip().lower()] = value.strip()
        return int(words[1]), headers

    async def pieces(self, reader: asyncio.StreamReader, headers: Dict[str, str]) -> AsyncIterator[bytes]:
        if headers.get("transfer-encoding") != "chunked":
            size = int(headers.get("content-length", "0"))
            self.bytes_in += size
            yield await reader.readexactly(size)
            return
        while True:
            line = await reader.readline()
            if not line.strip():
                raise ConnectionResetError(f"{self.endpoint} has closed the connection")
            size = int(line.strip(), 16)
            if size == 0:  # trailers come with refusals above all; left unread they were the next answer
                while (await reader.readline()) not in (b"\r\n", b"\n", b""):
                    pass
                return
            piece = await reader.readexactly(size)
            await reader.readexactly(2)
            self.bytes_in += size
            yield piece

    async def exchange(self, method: str, path: str, body: bytes) -> Tuple[int, bytes]:
        reader, writer = self.idle.pop() if self.idle else await self.open()
        idle = self.idle
        try:
            self.send(writer, method, path, body)
            status, headers = await self.head(reader)
            data = b"".join([piece async for piece in self.pieces(reader, headers)])
        except BaseException:
            writer.transport.abort()
            raise
        if headers.get("connection") == "close" or idle is not self.idle:
            writer.close()
        else:
            idle.append((reader, writer))
        return status, data

    async def post(self, path: str, body: Dict[str, Any]) -> Dict[str, Any]:
        """The answer to one call; EtcdError where it is refused."""
        if self.endpoint not in self.known:
            await self.meet()
        for again in (True, False):
            if self.access.user and path != "/v3/auth/authenticate" and (not self.token or time.monotonic() - self.token_since > TOKEN_LASTS):
                await self.authenticate()
            status, data = await self.exchange("POST", path, json.dumps(body, separators=(",", ":")).encode())
            found = self.found_in(path, status, data)
            said = found.get("error", found.get("message") if status != 200 else None)
            if said is None and status == 200:
                result = found.get("result", found)
                return result if isinstance(result, dict) else {}
            if again and "invalid auth token" in str(said):
                self.token = ""
                continue
            break
        raise EtcdError(self.sentence(path, str(said.get("message") if isinstance(said, dict) else said or status)))

    def found_in(self, path: str, status: int, data: bytes) -> Dict[str, Any]:
        try:
            found = json.loads(data) if data else {}
        except ValueError:
            raise EtcdError(f"{self.endpoint}{path} answers {status} {data[:80]!r}: is it etcd?") from None
        return found if isinstance(found, dict) else {}

    def sentence(self, path: str, said: str) -> str:
        """What a refusal means, and what to do."""
        user = self.access.user or "nobody"
        if "authentication failed" in said or "invalid user" in said:
            return f"etcd refuses the user {user}: is it the password from `fleet users`?"
        if "user name is empty" in said or "permission denied" in said:
            return f"etcd does not permit {user} this ({path}): give the user and its role by `fleet users`, and `user` in the configuration"
        if "CommonName" in said:
            return f"etcd: {said}: make client certificates whose subject has no CN"
        return f"etcd at {self.endpoint}: {said}"

    async def meet(self) -> None:
        """Asks an endpoint for its version, once."""
        status, data = await self.exchange("GET", "/version", b"")
        version = str(self.found_in("/version", status, data).get("etcdserver", ""))
        numbers = tuple(map(int, re.findall(r"\d+", version)[:2]))
        if not LEAST <= numbers < BELOW:
            raise EtcdError(f"{self.endpoint} is etcd {version or 'of no known version'}: 3.4 or a later version of 3 is needed")
        self.known[self.endpoint] = version

    async def authenticate(self) -> None:
        """Gets a token. Asking for one goes on where the call that wanted it is given up, and the next call waits for the same:
        etcd takes long over a password, and longer where many ask at once; who asked anew each time would never get one."""
        if self.asking is None or self.asking.done() or self.asked_at != self.endpoint:
            self.asked_at = self.endpoint
            self.asking = asyncio.ensure_future(self.ask_token())
            self.asking.add_done_callback(lambda it: None if it.cancelled() else it.exception() and None)
        await asyncio.shield(self.asking)

    async def ask_token(self) -> None:
        try:
            await asyncio.wait_for(self.log_in(), TOKEN_WAIT)
        except asyncio.TimeoutError:
            raise ConnectionResetError(f"no token in {TOKEN_WAIT:g} s") from None

    async def log_in(self) -> None:
        found = await self.post("/v3/auth/authenticate", {"name": self.access.user, "password": self.access.password or ""})
        self.token, self.token_since = str(found.get("token", "")), time.monotonic()

    # calls

    async def ask(self, call: Call) -> Answer:
        """The answer to a call.

        Raises
        ------
        EtcdError, OSError, EOFError, ValueError
            Where there is none. Then it may be carried out all the same, later.
        """
        if isinstance(call, Grant):
            return int((await self.post("/v3/lease/grant", {"TTL": str(call.seconds)}))["ID"])
        if isinstance(call, Keep):
            return int((await self.post("/v3/lease/keepalive", {"ID": str(call.lease)})).get("TTL", 0))
        found = await self.post("/v3/kv/txn", {
            "compare": [compare_json(it) for it in call.compare], "success": [change_json(it) for it in call.then],
            "failure": [change_json(it) for it in call.otherwise]})
        answers = [it["response_range"].get("kvs", []) for it in found.get("responses", []) if "response_range" in it]
        pairs = tuple(tuple(map(pair_of, it)) for it in answers)
        return Done(bool(found.get("succeeded")), int(found["header"]["revision"]), pairs)

    async def txn(self, call: Txn) -> Done:
        """The answer to a transaction."""
        answer = await self.ask(call)
        assert isinstance(answer, Done)
        return answer

    async def follow(self, spans: Sequence[Span], revision: int, take: Callable[[List[Event]], None]) -> None:
        """Hands on events of ranges from a revision on, by one stream, until that ends.

        Raises
        ------
        EtcdError, OSError, EOFError, ValueError
            When it ends.
        """
        if self.access.user and not self.token:
            await self.authenticate()
        body = b""
        for key, end in spans:
            asked: Dict[str, Any] = {"key": b64(key), "start_revision": str(revision)}
            asked.update({"range_end": b64(end)} if end is not None else {})
            body += json.dumps({"create_request": asked}).encode()
        reader, writer = await self.open()
        try:
            self.send(writer, "POST", "/v3/watch", body)
            _, headers = await self.head(reader)
            rest = b""
            async for piece in self.pieces(reader, headers):
                *lines, rest = (rest + piece).split(b"\n")
                events = [event for line in lines if line.strip() for event in self.events_in(line)]
                if events:
                    take(events)
            raise ConnectionResetError(f"the watch at {self.endpoint} has ended")
        finally:
            writer.transport.abort()

    def events_in(self, line: bytes) -> List[Event]:
        found = json.loads(line)
        if "error" in found:
            raise EtcdError(self.sentence("/v3/watch", str(found["error"].get("message", found["error"]))))
        found = found["result"]
        if int(found.get("compact_revision", 0)):
            raise EtcdError("the events to follow are compacted; all is read again")
        if found.get("canceled"):
            raise EtcdError(self.sentence("/v3/watch", str(found.get("cancel_reason"))))
        return [event_of(it) for it in found.get("events", [])]


def password_of(path: Optional[str]) -> Optional[str]:
    """The password in a file, without the end of its line; EtcdError where it can't be read."""
    if path is None:
        return None
    try:
        return pathlib.Path(path).read_text(encoding="utf-8").rstrip("\n")
    except (OSError, ValueError) as fault:
        raise EtcdError(f"the password file {path} can't be read ({fault})") from None

"""Clients of tcp_echo: `tcp_echo_clients.py PORT [PID]`. Each case compares all bytes that come back; with PID, the server's open
files are counted before and after. Prints a line a case, `NAME: passed` or `NAME: failed`; each case has a minute."""
import asyncio
import os
import socket
import struct
import sys

PORT = int(sys.argv[1])
PID = sys.argv[2] if len(sys.argv) > 2 else None
# as many connections as the server takes at a time
LIMIT = 1152


async def connect():
    return await asyncio.open_connection("127.0.0.1", PORT)


def block_of(client, number, size=700):
    """The numbered block of a client; no two are the same."""
    head = b"%d %d " % (client, number)
    return head + bytes((client * 7 + number * 13 + at) % 251 for at in range(size - len(head)))


async def blocks(client, many=8):
    """Numbered blocks, each back before the next is sent; then the sending side is shut."""
    reader, writer = await connect()
    for number in range(many):
        block = block_of(client, number)
        writer.write(block)
        if await reader.readexactly(len(block)) != block:
            return False
    writer.write_eof()
    rest = await reader.read()
    writer.close()
    return rest == b""


async def all_blocks():
    """64 clients at a time."""
    return all(await asyncio.gather(*(blocks(client) for client in range(64))))


async def half_close(client):
    """The sending side is shut right behind the last byte."""
    reader, writer = await connect()
    block = block_of(client, 0)
    writer.write(block)
    writer.write_eof()
    came = await reader.read()
    writer.close()
    return came == block


async def half_closes():
    """300 clients that half-close right behind their last byte, 50 at a time."""
    good = True
    for first in range(0, 300, 50):
        good = all(await asyncio.gather(*(half_close(first + at) for at in range(50)))) and good
    return good


async def reset(client):
    """The connection is reset while bytes are on their way back."""
    reader, writer = await connect()
    writer.write(block_of(client, 0, 60000))
    await reader.readexactly(1)
    peer = writer.get_extra_info("socket")
    peer.setsockopt(socket.SOL_SOCKET, socket.SO_LINGER, struct.pack("ii", 1, 0))
    writer.transport.abort()
    return True


async def resets():
    """100 clients that reset, and one that is served then."""
    await asyncio.gather(*(reset(client) for client in range(100)))
    return await blocks(1)


async def slow_sender():
    """A client that sends a byte each 50 milliseconds."""
    reader, writer = await connect()
    good = True
    for at in range(20):
        writer.write(bytes([at]))
        good = good and await reader.readexactly(1) == bytes([at])
        await asyncio.sleep(0.05)
    writer.close()
    return good


async def slow_reader(size=400000):
    """A client that sends much and reads a little at a time."""
    reader, writer = await asyncio.open_connection("127.0.0.1", PORT, limit=2048)
    sent = block_of(5, 5, size)

    async def send():
        writer.write(sent)
        await writer.drain()
        writer.write_eof()

    sending = asyncio.create_task(send())
    came = b""
    while piece := await reader.read(1500):
        came += piece
        if len(came) % 37500 < 1500:
            await asyncio.sleep(0.005)
    await sending
    writer.close()
    return came == sent


async def never_reads():
    """A client that sends until nothing more is taken and never reads; others are served meanwhile."""
    peer = socket.create_connection(("127.0.0.1", PORT))
    peer.setblocking(False)
    for _ in range(200):
        try:
            peer.send(bytes(65536))
        except BlockingIOError:
            await asyncio.sleep(0.002)
    served = await blocks(2)
    peer.close()
    return served


async def silent_and_idle():
    """1,000 connections that say nothing, and one that is served among them."""
    idle = []
    for _ in range(20):
        idle += await asyncio.gather(*(connect() for _ in range(50)))
    served = await blocks(3)
    for at, (reader, writer) in enumerate(idle):
        if at % 10 == 0:
            block = block_of(at, 9)
            writer.write(block)
            served = served and await reader.readexactly(len(block)) == block
        writer.close()
    return served


async def above_the_limit():
    """More connections than the server takes at a time: the others wait until some part."""
    many = [await connect() for _ in range(LIMIT)]
    more = [asyncio.create_task(blocks(at, 2)) for at in range(20)]
    await asyncio.sleep(0.3)
    waited = not any(task.done() for task in more)
    for _, writer in many:
        writer.close()
    return waited and all(await asyncio.gather(*more))


def files_of(pid):
    return len(os.listdir(f"/proc/{pid}/fd"))


async def all_cases():
    cases = [all_blocks, half_closes, resets, slow_sender, slow_reader, never_reads, silent_and_idle, above_the_limit]
    before = files_of(PID) if PID else 0
    failed = 0
    for case in cases:
        try:
            good = await asyncio.wait_for(case(), 60)
        except (OSError, asyncio.TimeoutError, asyncio.IncompleteReadError) as error:
            good = False
            print(f"# {case.__name__}: {error!r}")
        print(f"{case.__name__}: {'passed' if good else 'failed'}", flush=True)
        failed += not good
    if PID:
        for _ in range(100):
            await asyncio.sleep(0.05)
            if files_of(PID) == before:
                break
        good = files_of(PID) == before
        print(f"no_file_is_left: {'passed' if good else 'failed'}")
        failed += not good
    return failed


sys.exit(min(asyncio.run(all_cases()), 1))

"""Clients of chat: `chat_clients.py PORT PID ROOM..`, over the server's rooms, five of them. Each case compares the lines that
come; the server's open files are counted before and after. Prints a line a case, `NAME: passed` or `NAME: failed`; each case has
twenty seconds."""
import asyncio
import os
import socket
import sys

PORT, PID, ROOMS = int(sys.argv[1]), sys.argv[2], sys.argv[3:]


class Member:
    """A client that has joined, or asks to."""

    def __init__(self, room, name):
        self.first = f"{room} {name}\n".encode()
        self.name = name.encode()

    async def connect(self):
        self.reader, self.writer = await asyncio.open_connection("127.0.0.1", PORT)
        return self

    async def join(self):
        """Connects, and is told that it joined."""
        await self.connect()
        self.writer.write(self.first)
        return self if await self.line() == b"* " + self.name + b" joined\n" else None

    def say(self, line):
        self.writer.write(line)

    async def line(self):
        return await self.reader.readline()

    async def rest(self):
        """What comes up to the end of the connection."""
        return await self.reader.read()

    def close(self):
        self.writer.close()


async def joined(room, count):
    """So many members of a room, each of which has seen all later ones join."""
    members = []
    for number in range(count):
        members.append(await Member(room, f"m{number}").join())
        for earlier in members[:-1]:
            if await earlier.line() != b"* m%d joined\n" % number:
                return None
    return members


async def left(members):
    """All leave, and are gone once the last has seen the others leave."""
    for member in members[:-1]:
        member.close()
    seen = [await members[-1].line() for _ in members[:-1]]
    members[-1].close()
    return sorted(seen) == sorted(b"* %s left\n" % member.name for member in members[:-1])


async def lines_of(member, count):
    return [await member.line() for _ in range(count)]


async def one_room(room, clients=20, lines=30):
    """Each member sends its numbered lines while it reads those of all."""
    members = await joined(room, clients)
    reads = [asyncio.create_task(lines_of(member, clients * lines)) for member in members]
    for number in range(lines):
        for member in members:
            member.say(b"%s %s %d\n" % (room.encode(), member.name, number))
            await asyncio.sleep(0)
        await asyncio.sleep(0.005)
    seen = await asyncio.gather(*reads)
    own = [[line for line in seen[0] if line.startswith(member.name + b": ")] for member in members]
    wanted = [[b"%s: %s %s %d\n" % (member.name, room.encode(), member.name, number) for number in range(lines)]
              for member in members]
    return all(one == seen[0] for one in seen) and own == wanted and await left(members)


async def one_order_in_each_room():
    """100 clients in 5 rooms: all members of a room see the same lines in one order, and none is lost."""
    return all(await asyncio.gather(*(one_room(room) for room in ROOMS)))


async def lines_cut_anywhere():
    """A first line and two more, cut at every byte; and one byte at a time."""
    text = ROOMS[0].encode() + b" cutter\nfirst\r\nsecond line\n"
    wanted = [b"* cutter joined\n", b"cutter: first\n", b"cutter: second line\n"]
    good = True
    for cut in list(range(len(text))) + [None]:
        member = await Member(ROOMS[0], "cutter").connect()
        member.writer.get_extra_info("socket").setsockopt(socket.IPPROTO_TCP, socket.TCP_NODELAY, 1)
        for piece in [text[:cut], text[cut:]] if cut is not None else [bytes([byte]) for byte in text]:
            member.say(piece)
            await member.writer.drain()
            await asyncio.sleep(0.002)
        good = good and await lines_of(member, 3) == wanted
        member.close()
        # (it is gone before the next one joins)
        good = good and await empty(ROOMS[0])
    return good


async def empty(room):
    """Waits until nobody else is in a room: nothing but its own line comes to one who joins and speaks."""
    for _ in range(100):
        probe = await Member(room, "probe").join()
        probe.say(b"x\n")
        alone = await probe.line() == b"probe: x\n"
        probe.close()
        await asyncio.sleep(0.01)
        if alone:
            return True
    return False


async def answer_to(text):
    """All that comes to a client that sends this, up to its end."""
    member = await Member("", "").connect()
    member.say(text)
    came = await member.rest()
    member.close()
    return came


async def refusals():
    """A first line that names no room, or no name, and lines that are too long, close the connection with one line."""
    room = ROOMS[1].encode()
    unknown, long_line = b"* no such room\n", b"* the line is too long\n"
    cases = [(b"nowhere me\n", unknown), (b"\n", unknown), (room + b"\n", unknown), (room + b" \n", unknown),
             (room + b" two words\n", unknown), (b"x" * 513, long_line), (b"x" * 600 + b"\n", long_line),
             (room + b" me\n" + b"y" * 513, b"* me joined\n" + long_line)]
    return all([await answer_to(text) == wanted for text, wanted in cases]) and await empty(ROOMS[1])


async def longest_lines():
    """Lines of 512 bytes are said; one more byte ends."""
    first, second = await joined(ROOMS[2], 2)
    first.say(b"z" * 512 + b"\n" + b"z" * 513 + b"\n")
    good = await second.line() == b"m0: " + b"z" * 512 + b"\n" and await second.line() == b"* m0 left\n"
    good = good and await first.rest() == b"m0: " + b"z" * 512 + b"\n* the line is too long\n"
    second.close()
    return good


async def slow_member():
    """A member that reads nothing is dropped while the others go on and see each line."""
    first, second = await joined(ROOMS[3], 2)
    slow = socket.socket()
    slow.setsockopt(socket.SOL_SOCKET, socket.SO_RCVBUF, 4096)
    slow.connect(("127.0.0.1", PORT))
    slow.sendall(ROOMS[3].encode() + b" slow\n")
    good = await first.line() == b"* slow joined\n" and await second.line() == b"* slow joined\n"
    dropped = False
    for number in range(20000):
        line = b"%d " % number + b"w" * 500 + b"\n"
        first.say(line)
        for member in (first, second):
            came = await member.line()
            while came == b"* slow left\n":
                dropped = True
                came = await member.line()
            good = good and came == b"m0: " + line
        if dropped:
            break
    slow.close()
    first.close()
    good = good and await second.line() in (b"* slow left\n", b"* m0 left\n")
    second.close()
    return good and dropped


async def full_room(most=64):
    """The member after the last for whom there is room is told so."""
    members = await joined(ROOMS[4], most)
    good = await answer_to(ROOMS[4].encode() + b" more\n") == b"* the room is full\n"
    return good and await left(members)


def files():
    return len(os.listdir(f"/proc/{PID}/fd"))


async def all_cases():
    cases = [one_order_in_each_room, lines_cut_anywhere, refusals, longest_lines, slow_member, full_room]
    before, failed = files(), 0
    for case in cases:
        try:
            good = await asyncio.wait_for(case(), 20)
        except (OSError, asyncio.TimeoutError, asyncio.IncompleteReadError, AttributeError, TypeError) as error:
            good = False
            print(f"# {case.__name__}: {error!r}")
        print(f"{case.__name__}: {'passed' if good else 'failed'}", flush=True)
        failed += not good
    for _ in range(100):
        if files() == before:
            break
        await asyncio.sleep(0.05)
    good = files() == before
    print(f"no_file_is_left: {'passed' if good else 'failed'}")
    return failed + (not good)


sys.exit(min(asyncio.run(all_cases()), 1))

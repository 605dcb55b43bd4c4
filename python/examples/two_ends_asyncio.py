"""Two ends of a session over a stream: one sends texts and a close, the other takes each once."""
import asyncio

from krbrelay import Address, Closed, Mode, Receiver, Refusal, Sealer, Text

# The key of the session, of encryption type 17, comes from the exchange before it.
KEY = b"chicken teriyaki"
ALICE, BOB = Address.ip("10.0.0.1"), Address.ip("10.0.0.255")


async def write_frame(writer, frame):
    """A frame follows the four bytes of its length."""
    writer.write(len(frame).to_bytes(4, "big") + frame)
    await writer.drain()


async def read_frame(reader):
    """The next frame. EOFError where the stream ends before it does, ConnectionError where it
    can't be one: what follows can't be read either."""
    size = int.from_bytes(await reader.readexactly(4), "big")
    if size > 1_005_000:
        raise ConnectionError(f"a frame of {size} bytes: 1,005,000 is the most")
    return await reader.readexactly(size)


async def take_all(reader):
    """Takes records up to the close. A frame that is refused is dropped."""
    with Receiver(17, KEY, mode=Mode.PRIV, sender=ALICE, receiver=BOB, expected=1) as receiver:
        while not receiver.state.closed:
            try:
                record = receiver.take(await read_frame(reader))
                print("closed" if isinstance(record, Closed) else record.data.decode())
            except Refusal as refusal:
                print(f"refused: {refusal.name}")


async def receive(reader, writer, received):
    """Tells how the stream ended: by the close, or by a fault. Whoever waits gets an answer."""
    try:
        await take_all(reader)
    except (EOFError, OSError) as fault:
        received.set_exception(fault)
    else:
        received.set_result(None)
    finally:
        writer.close()


async def send(port):
    """Sends two texts, the first twice, and the close."""
    _, writer = await asyncio.open_connection("127.0.0.1", port)
    with Sealer(17, KEY, mode=Mode.PRIV, sender=ALICE, receiver=BOB, first=1) as sealer:
        for record, times in ((Text(b"hello"), 2), (Text(b"again"), 1), (Closed(), 1)):
            frame = sealer.seal_record(record)
            for _ in range(times):
                await write_frame(writer, frame)
    writer.close()


async def main():
    received = asyncio.get_running_loop().create_future()
    server = await asyncio.start_server(lambda *both: receive(*both, received), "127.0.0.1", 0)
    async with server:
        await send(server.sockets[0].getsockname()[1])
        await received


asyncio.run(main())

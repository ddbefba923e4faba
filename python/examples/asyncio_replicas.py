"""A server whose replica many clients catch up with, and which catches up with each, by asyncio: two clients here, one after the other."""
import asyncio

from mst import LIMIT, Replica


async def send(writer: asyncio.StreamWriter, message: bytes) -> None:
    writer.write(len(message).to_bytes(8, "little") + message)
    await writer.drain()


async def receive(reader: asyncio.StreamReader) -> bytes:
    size = int.from_bytes(await reader.readexactly(8), "little")
    if size > LIMIT:
        raise ValueError("the message is too long")
    return await reader.readexactly(size)


async def catch_up(replica: Replica, reader: asyncio.StreamReader, writer: asyncio.StreamWriter) -> int:
    steps = replica.catch_up_steps()
    question = next(steps)
    while True:
        await send(writer, question)
        reply = await receive(reader)
        try:
            question = steps.send(reply)
        except StopIteration as end:
            await send(writer, b"")
            came: int = end.value
            return came


async def serve(replica: Replica, reader: asyncio.StreamReader, writer: asyncio.StreamWriter) -> None:
    while question := await receive(reader):
        await send(writer, replica.answer(question))


async def client(replica: Replica, path: str) -> None:
    reader, writer = await asyncio.open_unix_connection(path)
    print(await catch_up(replica, reader, writer), "rows came")
    await serve(replica, reader, writer)
    writer.close()
    await writer.wait_closed()


async def main(path: str) -> None:
    hub, turn = Replica(), asyncio.Lock()

    async def answer(reader: asyncio.StreamReader, writer: asyncio.StreamWriter) -> None:
        try:
            await serve(hub, reader, writer)
            async with turn:    # a replica is in one catch-up at a time
                await catch_up(hub, reader, writer)
        finally:
            writer.close()

    async with await asyncio.start_unix_server(answer, path):
        first = Replica((b"key%04d" % number, b"1") for number in range(1000))
        second = Replica((b"key%04d" % number, b"2") for number in range(990, 1010))
        await client(first, path)
        await client(second, path)
        await client(first, path)
    print(len(hub), len(first), hub.root_hash() == first.root_hash())


if __name__ == "__main__":
    import tempfile
    with tempfile.TemporaryDirectory() as folder:
        asyncio.run(main(f"{folder}/socket"))

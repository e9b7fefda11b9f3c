"""httpx_client.py KIND PORT UPLOAD: the requests of a file of dialogues by httpx (over httpcore and hyper-h2)."""
import asyncio
import sys

import httpx

kind, port, upload = sys.argv[1:4]
URL = f"http://127.0.0.1:{port}"
CONTENT = open(upload, "rb").read()


async def send(client, bit, method, path, content=None):
    try:
        response = await client.request(method, URL + path, content=content)
        print(bit, response.status_code, len(response.content))
        return 0 if response.status_code < 400 else bit
    except Exception as error:  # any fault of the library is what its user sees
        print(bit, "fails:", type(error).__name__, str(error)[:200])
        return bit


async def main():
    async with httpx.AsyncClient(http1=False, http2=True, timeout=20) as client:
        if kind == "get":
            return await send(client, 1, "GET", "/")
        if kind == "upload":
            return await send(client, 1, "POST", "/p", CONTENT)
        if kind == "two-requests":
            return sum(await asyncio.gather(send(client, 1, "GET", "/1"), send(client, 2, "GET", "/2")))
        if kind == "next-request":
            return await send(client, 1, "GET", "/1") + await send(client, 2, "GET", "/2")
        return 9


sys.exit(asyncio.run(main()))

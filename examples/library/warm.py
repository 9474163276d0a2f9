"""An instance of examples/library/squares.wasm is warmed up, and copied; each copy has what it has. WOLQEDIR_SO names the shared
library, and PYTHONPATH has bindings/python."""
import sys

from wolqedir import Host, Refused, code_text


def frames(host, when):
    """Prints how many frames are in use, and how many pages share them."""
    told = host.report()
    print(f"{when}: {told.used_frames} frames used, {told.shared_frames} shared by {told.sharers} pages")


def take(host, instance, at):
    """Takes the square of a number: the call's result."""
    call = host.invoke(instance, "take", [at], fuel=1000)
    host.run(1000000)
    return host.status(instance, call).value


def main(path="examples/library/squares.wasm"):
    with Host() as host:
        with open(path, "rb") as file:
            squares = host.load(file.read())
        template = host.admit(squares, min=8, max=16)
        host.invoke(template, "warm", fuel=1000000)
        try:
            host.fork(template, max=16)
        except Refused as refused:
            print("too early:", code_text(refused.code))
        host.run(1000000)
        frames(host, "warm")
        square = host.read(template, 1072, 4)
        print("seen:", int.from_bytes(square, "little"))
        copies = [host.fork(template, max=16) for _ in range(3)]
        frames(host, "copied")
        print("taken:", *(take(host, copy, 12) for copy in copies))
        frames(host, "called")
        for copy in copies:
            host.release(copy)


main(*sys.argv[1:])

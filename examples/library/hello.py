"""Two instances of examples/hello.wasm on one host, called, refuelled, scanned, reported and released by the library.
WOLQEDIR_SO names the shared library, and PYTHONPATH has bindings/python."""
import sys

from wolqedir import Host, Refused, code_text


def run(host, name, instance, call):
    """Lets everybody run, and prints how far a call is."""
    host.run(1000000)
    status = host.status(instance, call)
    end = {"returned": f", returned {status.value}", "fuel": ", waits for fuel"}.get(status.kind, "")
    print(f"{name}: {status.charges} charges{end}")


def report(told):
    """Prints what the host and each instance use."""
    shared = f"{told.shared_frames} shared by {told.sharers} pages"
    print(f"frames: {told.used_frames} of {told.frames} used, {shared}; slots: {told.used_slots} of {told.slots} used")
    for row in told.instances:
        print(f"instance {row.instance.number}: {row.charged} of {row.max} frames, {row.active} active; {row.swapped} pages swapped")


def main(path="examples/hello.wasm"):
    with Host() as host:
        with open(path, "rb") as file:
            hello = host.load(file.read())
        a = host.admit(hello, fuel=100, inputs=[40, 2])
        b = host.admit(hello, fuel=100, inputs=[1, 2])
        run(host, "a", a, host.invoke(a, "run", fuel=1000))
        call = host.invoke(b, "run", fuel=3)
        run(host, "b", b, call)
        host.refuel(b, 1000)
        run(host, "b", b, call)
        host.scan()
        report(host.report())
        print("a put out", host.release(a).hex())
        print("b put out", host.release(b).hex())
        try:
            host.release(b)
        except Refused as refused:
            print("b again:", code_text(refused.code))


main(*sys.argv[1:])

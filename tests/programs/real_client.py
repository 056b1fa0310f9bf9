"""A client of a running kernel by Jupyter's own library, as Debian packages it (python3-jupyter-client).

usage: real_client.py CONNECTION_FILE

It says that it is ready, and runs cells until its standard input ends. It looks at each reply, and at each publication
of a cell from busy to idle. In the end it prints how many cells it ran; if anything of a cell is lost, doubled or
misplaced it says what, and its exit status is 1.
"""

import os
import queue
import sys
import threading

PYTHON = "/usr/bin/python3"
# For how many seconds a message is waited for.
PATIENCE = 120

try:
    from jupyter_client import BlockingKernelClient
except ImportError:
    if os.path.exists(PYTHON) and os.path.realpath(sys.executable) != os.path.realpath(PYTHON):
        os.execv(PYTHON, [PYTHON, *sys.argv])
    raise


def equal(found, wanted, what):
    """Refuses what isn't as wanted."""
    if found != wanted:
        sys.exit(f"{what} is {found!r:.500}, not {wanted!r:.500}")


def block_of(client, asked):
    """What is published from the busy of a request to its idle: what others asked for is left out."""
    found = []
    while True:
        message = client.get_iopub_msg(timeout=PATIENCE)
        if message["parent_header"].get("msg_id") == asked:
            found.append((message["msg_type"], message["content"]))
            if found[-1] == ("status", {"execution_state": "idle"}):
                return found


def run_cell(client, number):
    """Runs a cell, and looks at what comes of it."""
    asked = client.execute(f"{number}; {number}+1", store_history=False)
    reply = client.get_shell_msg(timeout=PATIENCE)
    equal((reply["parent_header"]["msg_id"], reply["content"]["status"]), (asked, "ok"), "a reply")
    kinds = [(kind, content.get("text") or content.get("data")) for kind, content in block_of(client, asked)]
    wanted = [
        ("status", None),
        ("execute_input", None),
        ("stream", f"{number}\n"),
        ("execute_result", {"text/plain": str(number + 1)}),
        ("status", None),
    ]
    equal(kinds, wanted, "what is published of a cell")


def main(file):
    client = BlockingKernelClient()
    client.load_connection_file(file)
    client.start_channels()
    client.wait_for_ready(timeout=PATIENCE)
    ends = threading.Event()
    threading.Thread(target=lambda: (sys.stdin.read(), ends.set()), daemon=True).start()
    print("ready", flush=True)
    count = 0
    while not ends.is_set():
        try:
            run_cell(client, count)
        except queue.Empty:
            sys.exit(f"after {PATIENCE} s nothing came of cell {count}")
        count += 1
    client.stop_channels()
    print(count, flush=True)


if __name__ == "__main__":
    main(*sys.argv[1:])

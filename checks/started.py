"""The command `serve` of a program, started for the scripts that ask it over sockets."""
import json, socket, subprocess, time


def start(program, config, links):
    """The process, with this configuration, for so many links, and the port on which it listens."""
    with socket.socket() as free:
        free.bind(("127.0.0.1", 0))
        port = free.getsockname()[1]
    server = subprocess.Popen([program, "serve", f"127.0.0.1:{port}", str(links)], stdin=subprocess.PIPE, stdout=subprocess.PIPE, text=True)
    server.stdin.write(f"config {json.dumps(config)}\n")
    server.stdin.close()
    for _ in range(200):
        with socket.socket() as probe:
            # a bound port refuses this one; so nothing is connected, which would count as a link
            try:
                probe.bind(("127.0.0.1", port))
            except OSError:
                break
        time.sleep(0.05)
    time.sleep(0.2)
    return server, port

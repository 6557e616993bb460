"""Tests of the daliserver link, over a server that threads play. All answers of the server are put down by hand."""

import concurrent.futures
import os
import signal
import socket
import struct
import subprocess
import sys
import threading
import time

from adapter_desk import ADAPTERS, player, run, shown_frames, want_link_without_frames, want_named_descriptors
from base import want
from driven import load

DALISERVER = ADAPTERS / "daliserver_link.py"
PATIENCE = 20  # seconds after which a connection or a run counts as hanging
LIMIT = 2  # seconds, the time limit that an adapter is given here: long enough for a busy machine
NONE, ONE = "02000000", "02010100"  # no answer, and the answer 01
SECOND = 5 * ["pause"]  # in which the stand-in command sends nothing


class Server:
    """Plays a daliserver.

    For each connection it has a list of turns, the first of them for when it is made, the others for after each
    request. A turn's parts are the hexadecimal digits of what it sends, seconds to wait, `echo` to answer the second
    byte of the frame, and `close` or `reset` to end the connection. After the last turn it only listens.
    """

    def __init__(self, *connections, address="127.0.0.1", port=0):
        self.listener = socket.create_server((address, port))
        self.port = self.listener.getsockname()[1]
        self.connections = connections
        self.heard, self.first_heard, self.threads = [], None, []
        self.accepting = threading.Thread(target=self._accept, daemon=True)
        self.accepting.start()

    def _accept(self):
        while True:
            try:
                connection, _ = self.listener.accept()
            except OSError:
                return
            turns = self.connections[len(self.heard)] if len(self.heard) < len(self.connections) else [["close"]]
            self.heard.append([])
            play = threading.Thread(target=self._play, args=(connection, turns, self.heard[-1]), daemon=True)
            self.threads.append(play)
            play.start()

    def _play(self, connection, turns, heard):
        connection.settimeout(PATIENCE)
        with connection:
            try:
                goes_on = self._take_turn(connection, turns[0], None)
                while goes_on and (request := connection.recv(4)):
                    self.first_heard = self.first_heard or time.monotonic()
                    heard.append(request.hex())
                    turn = turns[len(heard)] if len(heard) < len(turns) else []
                    goes_on = self._take_turn(connection, turn, request)
            except OSError:
                pass  # the adapter is gone

    def _take_turn(self, connection, turn, request):
        """Do what is to be done; tell whether the connection goes on."""
        for part in turn:
            if part in ("close", "reset"):
                if part == "reset":
                    connection.setsockopt(socket.SOL_SOCKET, socket.SO_LINGER, struct.pack("ii", 1, 0))
                return False
            if part == "echo":
                connection.sendall(b"\2\1" + request[3:] + b"\0")
            elif isinstance(part, str):
                connection.sendall(bytes.fromhex(part))
            else:
                time.sleep(part)
        return True

    def close(self):
        """Take no more connections, and wait for the end of those that stand."""
        self.listener.shutdown(socket.SHUT_RDWR)
        self.listener.close()
        for thread in [self.accepting, *self.threads]:
            thread.join()


def options_for(port, *more):
    """Give the options for a server of this port."""
    return ["--host", "127.0.0.1", "--port", port, "--time-limit", LIMIT, *more]


def over_server(turns, words, *options):
    """Run a stand-in command over one connection; return its status, the answers, what the server heard, the text."""
    server = Server([[], *turns])
    status, answers, told = run(DALISERVER, options_for(server.port, *options), words)
    server.close()
    assert "Traceback" not in told, told
    want(len(server.heard), 1)
    return status, answers, server.heard[0], told


def beside_each_other(find, cases):
    """Give each case with what is found for it."""
    with concurrent.futures.ThreadPoolExecutor(12) as pool:
        return list(zip(cases, pool.map(find, cases)))


def refused_port(held):
    """Give a port of 127.0.0.1 on which nobody listens, and which nobody gets while the socket is held."""
    held.bind(("127.0.0.1", 0))
    return held.getsockname()[1]


def wait_for_frame(server):
    """Wait until the server has heard a frame on its first connection."""
    latest = time.monotonic() + PATIENCE
    while not (server.heard and server.heard[0]):
        assert time.monotonic() < latest, "no frame came"
        time.sleep(0.05)


# Answers


def test_daliserver_answers(folder):
    table = [("C301", "0200c301", "02000000", "--"), ("0B9C", "02000b9c", "02010100", "01"),
             ("0B98", "02000b98", "02010000", "00"), ("0BC5", "02000bc5", "0201FF00", "FF"),
             ("A300", "0200a300", "02000000", "--"), ("0B81", "02000b81", "02000000", "--"),
             ("0B81", "02000b81", "02000000", "--"), ("C7AF", "0200c7af", "0201AF00", "AF"),
             ("0BC5", "02000bc5", "0200FF00", "--"), ("FFFF", "0200ffff", "0201C000", "C0"),
             ("0000", "02000000", "02010200", "02")]
    frames, requests, replies, answers = zip(*table)
    status, found, heard, told = over_server([[reply] for reply in replies], frames)
    want((status, found, heard), (7, list(answers), list(requests)))
    want(told, "answers -- 01 00 FF -- -- -- AF -- C0 02\n")


def test_daliserver_slow_answers(folder):
    turns = [[1, NONE], ["02", 0.3, "01", 0.3, "5A", 0.3, "00"], [1, "02016000"], ["02016100"]]
    want(over_server(turns, "C301 0B9C 0B98 0BC5".split(), "--time-limit", 4)[:3],
         (7, "-- 5A 60 61".split(), ["0200c301", "02000b9c", "02000b98", "02000bc5"]))


def test_daliserver_frames_are_shown(folder):
    words = "C301 0B9C 0B98".split()
    status, answers, heard, told = over_server([[NONE], [0.5, ONE], ["02FF0000"]], words, "--frames")
    want((status, answers, heard), (4, ["--", "01", "end"], ["0200c301", "02000b9c", "02000b98"]))
    shown, _, took = shown_frames(told)
    want(shown, list(zip(words, "-- 01 ??".split())))
    assert 500 <= took[1] < 1000 * LIMIT, took


def test_daliserver_goes_on_where_frames_cannot_be_shown(folder):
    for told_to in ("/dev/full", "&-"):
        server = Server([[], [NONE], [ONE]])
        found = want_link_without_frames(DALISERVER, options_for(server.port), told_to, "C301 0B9C".split(), folder)
        server.close()
        want((told_to, found, server.heard), (told_to, ["--", "01"], [["0200c301", "02000b9c"]]))


def test_daliserver_tells_no_answer_as_damaged(folder):
    words = "A900 FF96 0B91 0BC5".split()
    want(over_server([[NONE]] * 4, words)[:2], (7, 4 * ["--"]))
    for word in words:
        status, answers, _, told = over_server([[NONE], ["02FF0000"]], ["C301", word])
        want((word, status, answers, "the server tells an error" in told), (word, 4, ["--", "end"], True))


# Turns that close the link

NO_FORM = "is none that it may give"
BREAKS = [
    ("silent", [], "no answer in 2 seconds"),
    ("slow, over the limit", [2.5, ONE], "no answer in 2 seconds"),
    ("an error", ["02FF0000"], "the server tells an error"),
    ("an error with a byte", ["02FF0100"], "the server tells an error"),
    ("version 0", ["00010100"], f"the server's answer 00 01 01 00 {NO_FORM}"),
    ("version 1", ["01010100"], NO_FORM),
    ("version 3, no answer", ["03000000"], NO_FORM),
    ("an error of another version", ["01FF0000"], NO_FORM),
    ("status 2", ["02020100"], NO_FORM),
    ("status 3", ["02030000"], NO_FORM),
    ("status 128", ["02800000"], NO_FORM),
    ("status 254", ["02FE0000"], NO_FORM),
    ("a last byte that isn't 0", ["02010101"], NO_FORM),
    ("no answer, with a last byte", ["0200009C"], NO_FORM),
    ("a byte too many", [ONE + "00"], NO_FORM),
    ("two answers", [ONE + NONE], NO_FORM),
    ("a short answer", ["020101"], "no answer in 2 seconds"),
    ("one byte, and a close", ["02", "close"], "closed the connection before its answer was whole"),
    ("a short answer, and a close", ["020101", "close"], "closed the connection before its answer was whole"),
    ("a short answer, and a reset", ["020101", 0.1, "reset"], "Connection reset by peer"),
    ("a close", ["close"], "closed the connection before its answer was whole"),
    ("a reset", ["reset"], "Connection reset by peer"),
    ("a slow close", [0.2, "close"], "closed the connection before its answer was whole"),
]


def test_daliserver_breaks(folder):
    """The frame after the one that broke the link isn't sent, and neither gets an answer."""
    for (name, _, words), (status, answers, heard, told) in beside_each_other(
            lambda case: over_server([[NONE], case[1], [ONE]], "C301 0B9C A303".split()), BREAKS):
        want((name, status, answers, heard), (name, 4, ["--", "end"], ["0200c301", "02000b9c"]))
        errors = [line for line in told.splitlines() if line.startswith("error: ")]
        assert len(errors) == 1 and words in errors[0], (name, told)


def test_daliserver_breaks_between_frames(folder):
    for name, turn, words in [("an answer more", [ONE, 0.1, "02016600"], "the server spoke unasked"),
                              ("a byte more", [ONE, 0.1, "02"], "the server spoke unasked"),
                              ("a close", [ONE, 0.1, "close"], "the server closed the connection"),
                              ("a reset", [ONE, 0.1, "reset"], "Connection reset by peer")]:
        status, answers, heard, told = over_server([turn, [NONE]], ["0B9C", *SECOND, "A303"])
        want((name, status, answers, heard), (name, 4, ["01", "end"], ["02000b9c"]))
        assert words in told, (name, told)


def test_daliserver_a_late_answer_is_of_no_other_frame(folder):
    server = Server([[], [2.5, "02015500"]], [[], [NONE], [ONE]])
    want(run(DALISERVER, options_for(server.port), ["0B9C", "0B98"])[:2], (4, ["end"]))
    want(run(DALISERVER, options_for(server.port), ["0B98", "0BC5"])[:2], (7, ["--", "01"]))
    server.close()
    want(server.heard, [["02000b9c"], ["02000b98", "02000bc5"]])


def test_daliserver_the_first_frame_waits(folder):
    server, began = Server([[], [NONE]]), time.monotonic()
    want(run(DALISERVER, options_for(server.port, "--time-limit", 4), ["C301"])[:2], (7, ["--"]))
    server.close()
    assert server.first_heard - began >= 4, (server.first_heard, began)


def test_daliserver_a_broken_link_is_never_status_0(folder):
    server = Server([[], ["02FF0000"]])
    words = [DALISERVER, *map(str, options_for(server.port)), "--", "sh", "-c", "echo C301; read -r answer; exit 0"]
    ended = subprocess.run(words, capture_output=True, text=True, timeout=PATIENCE)
    server.close()
    want((ended.returncode, ended.stderr), (1, "error: the server tells an error\n"))


def test_daliserver_command_gone(folder):
    want(over_server([[NONE]], ["C301", "kill"])[0], 137)
    want(over_server([[NONE]], ["close", "C301"]), (7, [], ["0200c301"], "answers \n"))
    for line in ["a303", "A30", "A3033", "A30300"]:
        status, answers, heard, told = over_server([[NONE]], ["C301", line])
        want((line, status, answers, heard), (line, 4, ["--", "end"], ["0200c301"]))
        assert "isn't four upper-case" in told, told


# Servers that are gone, come again, or have two adapters


def test_daliserver_gone_at_connect(folder):
    with socket.socket() as held:
        port = refused_port(held)
        status, answers, told = run(DALISERVER, options_for(port), ["C301"])
    words = (f"error: the server at 127.0.0.1, port {port}, can't be reached: Connection refused: is daliserver running"
             " there?\n")
    want((status, answers, told), (2, None, words))
    for turn, words in [(["close"], "error: the server closed the connection\n"),
                        ([0.2, "close"], "error: the server closed the connection\n"),
                        ([0.2, "reset"], "error: the interface can't be used: Connection reset by peer\n"),
                        ([NONE], "error: the server spoke unasked\n"),
                        ([0.2, "02"], "error: the server spoke unasked\n")]:
        server = Server([turn, [NONE]])
        found = run(DALISERVER, options_for(server.port), ["C301"])
        server.close()
        want((turn, found, server.heard), (turn, (2, None, words), [[]]))


def test_daliserver_restarts_between_two_runs(folder):
    server = Server([[], [NONE], [ONE]])
    port = server.port
    want(run(DALISERVER, options_for(port), ["C301", "0B9C"])[:2], (7, ["--", "01"]))
    server.close()
    want(run(DALISERVER, options_for(port), ["C301", "0B9C"])[:2], (2, None))
    server = Server([[], [NONE], ["02010200"]], port=port)
    want(run(DALISERVER, options_for(port), ["C302", "0B9C"])[:2], (7, ["--", "02"]))
    server.close()
    want(server.heard, [["0200c302", "02000b9c"]])


def test_daliserver_is_never_connected_anew(folder):
    for parts in ([NONE, "close"], ["close"], ["02FF0000"]):
        server = Server([[], parts], [[], [ONE], [ONE]])
        status, answers, _ = run(DALISERVER, options_for(server.port), ["C301", *SECOND, "0B9C"])
        server.close()
        want((parts, status, answers[-1], server.heard), (parts, 4, "end", [["0200c301"]]))


def test_daliserver_has_one_adapter_at_a_time(folder):
    server = Server([[], [NONE], [ONE]], [[], [NONE]], [[], ["02010300"]])
    flag = folder / "flag"
    waiting = 'echo C301; read -r a; while [ ! -e "$0" ]; do sleep 0.1; done; echo 0B9C; read -r b; echo "$a $b" >&2'
    options = options_for(server.port)
    words = [DALISERVER, *map(str, options), "--", "sh", "-c", waiting, flag]
    first = subprocess.Popen(words, stderr=subprocess.PIPE, text=True)
    wait_for_frame(server)
    status, answers, told = run(DALISERVER, options, ["C302"])
    flag.write_text("")
    want(first.communicate(timeout=PATIENCE)[1], "-- 01\n")
    words = f"error: another adapter is connected to the server at 127.0.0.1, port {server.port}\n"
    want((status, answers, told), (2, None, words))
    want(run(DALISERVER, options, ["0B9C"])[:2], (7, ["03"]))
    server.close()
    want((first.returncode, server.heard), (0, [["0200c301", "02000b9c"], [], ["02000b9c"]]))


def test_daliserver_after_a_killed_adapter(folder):
    server = Server([[], [NONE]], [[], [ONE]])
    words = [DALISERVER, *map(str, options_for(server.port)), "--", *player(["C301", *["pause"] * 9])]
    killed = subprocess.Popen(words, stderr=subprocess.DEVNULL)
    wait_for_frame(server)
    killed.send_signal(signal.SIGKILL)
    want(killed.wait(), -signal.SIGKILL)
    want(run(DALISERVER, options_for(server.port), ["0B9C"])[:2], (7, ["01"]))
    server.close()
    want(server.heard, [["0200c301"], ["02000b9c"]])


def test_daliserver_answers_of_two_adapters_stay_apart(folder):
    """As from two computers: each has another address of the server."""
    server = Server(*2 * [[[], *8 * [[0.03, "echo"]]]], address="0.0.0.0")
    cases = [("127.0.0.1", "A301 A302 A303 A304 A305 A306 A307 A308", "01 02 03 04 05 06 07 08"),
             ("127.0.0.2", "C311 C312 C313 C314 C315 C316 C317 C318", "11 12 13 14 15 16 17 18")]
    found = beside_each_other(
        lambda case: run(DALISERVER, [*options_for(server.port), "--host", case[0]], case[1].split()), cases)
    server.close()
    for (host, _, answers), (status, wanted, told) in found:
        want((host, status, wanted, told), (host, 7, answers.split(), f"answers {answers}\n"))
    want(len(server.heard), 2)


def test_daliserver_a_connection_to_itself(folder):
    """Where no server is, the system may connect a port with itself; what we send would come back as an answer."""
    sys.path.insert(0, str(ADAPTERS))
    link = load(DALISERVER)
    with socket.socket() as itself:
        itself.bind(("127.0.0.1", 0))
        itself.connect(itself.getsockname())
        link.socket = type("Sockets", (), {"create_connection": lambda where, seconds: itself})
        try:
            link.open_server(link.parser().parse_args([]))
        except OSError as fault:
            words = "the server at localhost, port 55825, can't be reached: the connection leads back to itself"
            want(str(fault), words)
            return
    raise AssertionError("it was taken for a server")


def test_daliserver_hands_on_what_the_command_names(folder):
    server = Server([[]], [[]])
    want_named_descriptors(DALISERVER, options_for(server.port))
    server.close()


# Options


def test_daliserver_default_host(folder):
    server = Server([[], [ONE]])
    want(run(DALISERVER, ["--port", server.port], ["0B9C"])[:2], (7, ["01"]))
    server.close()


def test_daliserver_help(folder):
    ended = subprocess.run([DALISERVER, "--help"], capture_output=True, text=True, env={**os.environ, "COLUMNS": "200"})
    want((ended.returncode, ended.stderr), (0, ""))
    for words in ("(default: localhost)", "(default: 55825)", "(default: 0.5)", "Not tried on hardware"):
        assert words in ended.stdout, (words, ended.stdout)


def test_daliserver_wrong_options(folder):
    server = Server([[], [NONE]])
    no_port, no_host = "is no port, 1 to 65535", "is no name of a host"
    no_limit = "is no number of seconds over 0, up to 60"
    for options, words in [
            *((["--port", text], no_port) for text in ("", "0", "65536", "x", "-1", "55825.0", "\u0665")),
            *((["--time-limit", text], no_limit) for text in ("", "0", "-1", "x", "nan", "inf", "60.1")),
            *((["--host", text], no_host) for text in ("", "a..b", "x" * 64)),
            (["--time"], "unrecognized arguments: --time"), (["--port"], "expected one argument"),
            (["/dev/ttyUSB0"], "unrecognized arguments: /dev/ttyUSB0: put -- before the command")]:
        status, answers, told = run(DALISERVER, [*options_for(server.port), *options], ["A303"])
        want((options, status, answers), (options, 2, None))
        assert words in told and "error: " in told and "Traceback" not in told, (options, told)
    for words in ([], ["--"]):
        ended = subprocess.run([DALISERVER, *words], capture_output=True, text=True)
        want((ended.returncode, "there is no command" in ended.stderr), (2, True))
    words = [DALISERVER, *map(str, options_for(server.port)), "--", "/none"]
    ended = subprocess.run(words, capture_output=True, text=True)
    want((ended.returncode, ended.stderr), (2, "error: the command can't be started: /none: No such file or directory\n"))
    server.close()
    want(server.heard, [[]])

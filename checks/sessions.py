#!/usr/bin/env python3
"""Serves each stored link again and again: cut at each byte, with each of its calls failing in turn, and with the calls of its audit sink failing.

usage: checks/sessions.py [PROGRAM] [--only WORD] [--list]      (crates/test_threads/out/test_threads where not given; links whose name has WORD)

The links and what each leaves are those that links.py works out from docs/HTTP.md. What has to stand after a sweep is worked out here, from that and
from how docs/FORMATS.md, section 6, divides bytes into messages:
- cut: the messages that came whole are answered, and no other; the link has ended, is cut or is bad where docs/FORMATS.md says so;
- a call of the link fails: the link has failed; what was written before stays, and so do the commands; a decision is audited once its answer is
  written whole;
- calls of the first audit sink fail, one, two or three of them: it has the other lines, and none from its third fault on; answers and the second
  sink are as ever.
Printed is how many rows there were of each kind. Where a row differs it is printed, and the status is 1. --list prints the rows and runs nothing.
Links of more than 20,000 bytes are left out, and byte by byte those of more than 2,000. It is no part of the gate, since it takes minutes."""
import argparse
import itertools
import re
import subprocess
import sys

import links

HEAD, PIECE, FIELDS, BODY = 16384, 4096, 64, 1048576
LONGEST, LONGEST_BY_BYTES = 20000, 2000
SINK_FAULTS = 3


class Place:
    """What stands at the front of bytes: a message up to `end`, or, where `status` isn't None, what is bad once the first `end` bytes came."""

    def __init__(self, end, status=None, closes=False):
        self.end, self.status, self.closes = end, status, closes


def place_at(data, at):
    """The place, or None where all bytes from here on are the beginning of a message."""
    begin = at
    while data.startswith(b"\r\n", begin):
        begin += 2
    if data[begin : begin + 1] == b"\0":
        return Place(begin + 1, 400)
    found = data.find(b"\r\n\r\n", begin)
    if found < 0 or found + 4 - at > HEAD:
        return Place(at + HEAD, 431) if len(data) - at >= HEAD else None
    head = found + 4
    line, *fields = data[begin:found].decode().split("\r\n")
    method, _, version = line.split(" ")
    named = [(name.lower(), value.strip()) for name, _, value in (field.partition(":") for field in fields)]
    lengths = [value for name, value in named if name == "content-length"]
    if len(fields) > FIELDS:
        return Place(head, 431)
    if any(name in ("transfer-encoding", "content-encoding") for name, _ in named):
        return Place(head, 501)
    if len(lengths) > 1 or any(not re.fullmatch("[0-9]{1,19}", value) for value in lengths):
        return Place(head, 400)
    if not lengths and method in ("POST", "PUT"):
        return Place(head, 411)
    length = int(lengths[0]) if lengths else 0
    if length > BODY:
        return Place(head, 413)
    closes = version == "HTTP/1.0" or any(name == "connection" and value.lower() == "close" for name, value in named)
    end = head + length
    return Place(end, closes=closes) if end <= len(data) else None


class Answer:
    """The response to a message, whether the administration was called for it, and the line that is audited, or None."""

    def __init__(self, text, is_command, audited):
        self.text, self.is_command, self.audited = text, is_command, audited


class Link:
    """A stored link with the places in its bytes and what it is answered."""

    def __init__(self, row, whole):
        fields = row.split("|") + [""] * 8
        self.name, self.text, self.before = fields[0], fields[1], fields[6]
        self.data = links.spelled(self.text)
        end, calls, told, *kept = whole.split("|")[1:]
        self.whole_end, lines = end, kept[0].split(" ")[1:]
        self.places = list(self.find_places())
        self.answers, self.bad = list(self.find_answers(self.untold(told), lines)), None
        if self.places and self.places[-1].status:
            self.bad = self.answers.pop()
        assert int(calls) == sum(answer.is_command for answer in self.answers), self.name
        assert not lines or lines == self.audited(len(self.answers)), self.name

    def untold(self, told):
        """The responses, of which equal ones one after another are told by their number."""
        parts = re.split(r"(?:([0-9]+)\*)?HTTP/1\.1 ", told)
        for count, part in zip(parts[1::2], parts[2::2]):
            yield from [links.START + part.replace("~", "\r\n").replace("^", "\r")] * int(count or 1)

    def find_places(self):
        at = 0
        while at < len(self.data) and (place := place_at(self.data, at)):
            yield place
            if place.status or place.closes:
                return
            at = place.end

    def find_answers(self, responses, lines):
        """An answer to each message, and the one to the bad place. Decisions aren't asked of the administration, nor is what is answered without a
        command."""
        rest, at = iter(lines), 0
        for place, response in zip(self.places, responses):
            message, at = self.data[at : place.end].lstrip(b"\r\n"), place.end
            is_decision = b" /service/decide/" in message.split(b"\r\n")[0]
            is_answered = place.status is not None or is_decision or '{"error":' in response or '{"kind":' in response
            yield Answer(response, not is_answered, next(rest) if is_decision and '"audited":true' in response else None)

    def audited(self, count):
        return [answer.audited for answer in self.answers[:count] if answer.audited]

    def told(self, name, end, answers, written, audited=None, **more):
        """The line of a run after so many answers, of which `written` is the text."""
        commands = sum(answer.is_command for answer in self.answers[:answers])
        links.line(name, end, commands, written, self.audited(answers) if audited is None else audited, **more)
        return links.wanted.pop()

    def text_of(self, count):
        return "".join(answer.text for answer in self.answers[:count])

    # ---- the sweeps: each gives a row, and the lines that are wanted of it

    def cuts(self):
        name = self.name + ", cut"
        links.row(name, self.text, cut="each", before=self.before)
        yield links.rows.pop(), [self.cut_line(f"{name}, {size} bytes", size) for size in range(len(self.data) + 1)]

    def cut_line(self, name, size):
        came = [place for place in self.places if place.end <= size]
        whole = sum(place.status is None for place in came)
        if came and came[-1].status:
            return self.told(name, f"bad {came[-1].status} after {whole}", whole, self.text_of(whole) + self.bad.text)
        ended = came and came[-1].closes or size == (came[-1].end if came else 0)
        return self.told(name, f"{'ended' if ended else 'cut'} after {whole}", whole, self.text_of(whole))

    def calls(self, piece):
        """For each call on the link: how many commands were done and decisions audited before, as numbers of answers, and what was written."""
        came, written, done, most = 0, "", 0, min(piece or PIECE, PIECE)
        for number, place in enumerate(self.places):
            while came < place.end:
                yield done, done, written
                came = min(came + most, len(self.data))
            answer = self.bad if place.status else self.answers[number]
            done += place.status is None
            for at in range(0, len(answer.text), piece or len(answer.text)):
                yield done, number, written
                written += answer.text[at : at + (piece or len(answer.text))]
            if place.status or place.closes:
                return
        while came < len(self.data):
            yield done, done, written
            came = min(came + most, len(self.data))
        yield done, done, written

    def failures(self, piece):
        calls = list(self.calls(piece))
        name = f"{self.name}, in pieces of {piece}" if piece else self.name
        links.row(name, self.text, piece=piece or "", fails=f"each {len(calls) + 1}", before=self.before)
        lines = [self.told(f"{name}, call {call} fails", "failed", done, written, audited=self.audited(answered))
                 for call, (done, answered, written) in enumerate(calls, 1)]
        last = self.cut_line(f"{name}, call {len(calls) + 1} fails", len(self.data))
        yield links.rows.pop(), [*lines, last]

    def deaf(self):
        """The calls of the first sink that fail."""
        lines, text = self.audited(len(self.answers)), self.text_of(len(self.answers)) + (self.bad.text if self.bad else "")
        for count in range(1, SINK_FAULTS + 1):
            for fails in itertools.combinations(range(1, len(lines) + 1), count):
                name = f"{self.name}, deaf at {' '.join(map(str, fails))}"
                held = [line for call, line in enumerate(lines, 1) if call not in fails and (count < SINK_FAULTS or call < fails[-1])]
                links.row(name, self.text, sink=" ".join(map(str, fails)), before=self.before)
                more = {"dropped": 1, "second": lines} if count == SINK_FAULTS else {}
                yield links.rows.pop(), [self.told(name, self.whole_end, len(self.answers), text, audited=held, **more)]


def stored():
    """The stored links, each once, with what it leaves."""
    for table in (links.downloads_and_refusals, links.ends, links.limits, links.decisions, links.sinks, links.enriched):
        table()
    pairs = list(zip(links.rows, links.wanted))
    links.rows.clear()
    links.wanted.clear()
    for row, whole in pairs:
        fields = row.split("|") + [""] * 8
        if not any(fields[place] for place in (2, 3, 4, 5)) and len(links.spelled(fields[1])) <= LONGEST:
            yield Link(row, whole)


def sweeps(link):
    yield "bytes at which a link ends", link.cuts()
    for piece in (None, 61, 1):
        if piece != 1 or len(link.data) <= LONGEST_BY_BYTES:
            yield "calls of a link that fail", link.failures(piece)
    yield "calls of an audit sink that fail", link.deaf()


def compare(program, row, wanted):
    run = subprocess.run([program, "links"], input=(row + "\n").encode(), stdout=subprocess.PIPE, cwd=links.CRATE / "data", timeout=600)
    told = run.stdout.decode().splitlines()
    if run.returncode == 0 and told == wanted:
        return True
    differ = [(one, other) for one, other in itertools.zip_longest(told, wanted) if one != other]
    print(f"status {run.returncode}, {len(differ)} of {len(wanted)} lines differ; the first, and what is wanted:")
    print(*(differ[0] if differ else ("", "")), sep="\n", flush=True)
    return False


def main():
    asked = argparse.ArgumentParser(usage=__doc__)
    asked.add_argument("program", nargs="?", default=str(links.CRATE / "out" / "test_threads"))
    asked.add_argument("--only", default="")
    asked.add_argument("--list", action="store_true")
    words = asked.parse_args()
    counts, links_of, are_right = {}, {}, True
    for link in stored():
        if words.only not in link.name:
            continue
        for kind, rows in sweeps(link):
            for row, wanted in rows:
                counts[kind] = counts.get(kind, 0) + len(wanted)
                links_of.setdefault(kind, set()).add(link.name)
                if words.list:
                    print(row, *wanted, sep="\n")
                elif not compare(words.program, row, wanted):
                    are_right = False
    for kind, count in counts.items():
        print(f"{kind}: {count}, of {len(links_of[kind])} links")
    sys.exit(not are_right)


if __name__ == "__main__":
    main()

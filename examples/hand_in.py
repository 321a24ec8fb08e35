#!/usr/bin/env python3
"""Submits sweeps over HTTP and follows them to their ends, with nothing but Python's standard library: docs/api.md.

    examples/hand_in.py [--count N] [--clients N] [--name WORD] [--token WORD] http://127.0.0.1:8080

Each sweep has a reference, as `WORD-17`, so it is placed once however often it is submitted. A lost answer is asked for
again. If the program was started again it stops: a new run doesn't know the references of the one before.
"""
import argparse
import http.client
import json
import sys
import threading
import time
import uuid
from urllib.parse import quote, urlsplit

# What a broken connection or half an answer comes to.
LOST = (OSError, http.client.HTTPException, ValueError)


class Desk:
    def __init__(self, base, token):
        self.host = urlsplit(base).netloc
        self.fields = {"Content-Type": "application/json"}
        self.run = None
        if token:
            self.fields["Authorization"] = f"Bearer {token}"

    def is_of_run(self, run):
        """Whether this is the run that answered first."""
        self.run = self.run or run
        return run == self.run

    def ask(self, method, path, body=None, fields=None):
        """The status and the object that are answered. Each connection carries one request."""
        connection = http.client.HTTPConnection(self.host, timeout=30)
        try:
            said = None if body is None else json.dumps(body)
            connection.request(method, path, said, {**self.fields, **(fields or {})})
            answer = connection.getresponse()
            # Of an answer that is cut in its head, nothing else tells that it is: so its body comes first.
            told = json.loads(answer.read())
            if not self.is_of_run(answer.getheader("Dispatch-Run")):
                raise AnotherRun
            return answer.status, told
        finally:
            connection.close()

    def ask_until_answered(self, path):
        """The same of a GET, which changes nothing: it is asked again while no answer comes."""
        while True:
            try:
                return self.ask("GET", path)
            except LOST:
                time.sleep(0.1)

    def submit(self, reference, legs):
        """Places a sweep once under this reference, and gives the status and the answer."""
        while True:
            try:
                return self.ask("POST", "/api/sweeps", {"legs": legs}, {"Idempotency-Key": reference})
            except LOST:
                time.sleep(0.1)
                # This stops at another run, before the sweep is submitted to it.
                status, found = self.ask_until_answered(f"/api/sweeps?ref={quote(reference, safe='')}")
                if status == 200:
                    return status, {"placed": found["sweep"]}

    def all_sweeps(self):
        """The sweeps that are there now."""
        after = 0
        while found := self.ask_until_answered(f"/api/sweeps?after={after}")[1]["sweeps"]:
            yield from found
            after = found[-1]["sweep"]

    def events(self):
        """What changes from now on. The first event names the run."""
        connection = http.client.HTTPConnection(self.host, timeout=30)
        try:
            connection.request("GET", "/api/events")
            stream = connection.getresponse()
            if stream.status != 200:
                raise http.client.HTTPException(f"the desk can't be followed: {stream.status}")
            name = None
            for line in stream:
                word, _, said = line.decode().rstrip("\n").partition(": ")
                if word == "event":
                    name = said
                elif word == "data":
                    yield name, json.loads(said)
        finally:
            connection.close()


class AnotherRun(Exception):
    pass


def main():
    words = argparse.ArgumentParser(description=__doc__, formatter_class=argparse.RawDescriptionHelpFormatter)
    words.add_argument("base")
    words.add_argument("--count", type=int, default=10000)
    words.add_argument("--clients", type=int, default=4)
    words.add_argument("--name", default=uuid.uuid4().hex[:12])
    words.add_argument("--token")
    asked = words.parse_args()
    desk = Desk(asked.base, asked.token)
    venues = [venue["venue"] for venue in desk.ask_until_answered("/api/venues")[1]["venues"]]
    legs = [{"venue": name, "symbol": "BRK.B", "side": "buy", "shares": 100, "price": "10.25"} for name in venues[:2]]
    placed, ended, refused = set(), set(), []
    has_left = False
    changed = threading.Condition()

    def leave():
        nonlocal has_left
        with changed:
            has_left = True
            changed.notify()

    def hand_in(numbers):
        try:
            for number in numbers:
                status, answer = desk.submit(f"{asked.name}-{number}", legs)
                with changed:
                    if status in (200, 201):
                        placed.add(answer["placed"])
                    else:
                        refused.append(answer)
                    changed.notify()
        except AnotherRun:
            leave()

    def note(sweeps):
        with changed:
            ended.update(sweep["sweep"] for sweep in sweeps if sweep["open"] == 0)
            changed.notify()

    def follow():
        """Follows the day; where the events are lost it follows anew, and reads what came meanwhile."""
        try:
            while not is_over():
                try:
                    for name, said in desk.events():
                        if name == "run":
                            if not desk.is_of_run(said["run"]):
                                raise AnotherRun
                            note(desk.all_sweeps())
                        elif name == "sweep":
                            note([said])
                        elif name == "closed":
                            return
                except LOST:
                    pass
                time.sleep(0.1)
        except AnotherRun:
            pass
        finally:
            leave()

    def is_over():
        return has_left or (len(placed) + len(refused) == asked.count and placed <= ended)

    threading.Thread(target=follow, daemon=True).start()
    clients = [
        threading.Thread(target=hand_in, args=(range(at, asked.count, asked.clients),)) for at in range(asked.clients)
    ]
    for client in clients:
        client.start()
    with changed:
        changed.wait_for(is_over)
    for client in clients:
        client.join()
    print(f"{len(placed)} placed, {len(placed & ended)} ended, {len(refused)} refused")
    sys.exit(len(placed) + len(refused) != asked.count)


main()

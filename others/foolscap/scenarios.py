"""One vat of a scenario, as a process: `scenarios.py SETTINGS`, where SETTINGS is JSON that run.py writes.

Bob and Carol serve. Alice's opening turn is the function of the scenario's name; what each shows stands in README.md.
"""
from __future__ import annotations

import json
import os
import socket
import sys
import time

from foolscap.api import Tub
from twisted.internet import reactor

from vat import Object, SturdyReference, Vat

SETTINGS = json.loads(sys.argv[1])
# How long Alice waits, at the end, for what is under way elsewhere.
LINGER = 0.7


# ---- what Bob and Carol serve

class Cell(Object):
    def remote_set(self, value):
        self.write("value", value)

    def remote_get(self):
        return self.read("value")


class Carol(Object):
    """Holds a document: an integer, or a text, of which she tells the length."""

    def remote_put(self, document):
        self.write("document", document)
        return len(document) if isinstance(document, str) else document

    def remote_latest(self):
        document = self.read("document")
        return len(document) if isinstance(document, str) else document

    def remote_cell(self, value):
        return self.vat.make(Cell, value=value)

    def remote_fail(self):
        raise ValueError("carol says no")


class Bob(Object):
    def remote_meet(self, friend, number):
        self.write("friend", friend)
        return self.vat.send(friend, "put", number)

    def remote_meet_list(self, members):
        self.write("friend", members[0])
        return self.vat.send(members[0], "put", members[1])

    def remote_friend(self):
        return self.read("friend")

    def remote_review(self, friend):
        self.write("friend", friend)
        return self.vat.send(friend, "latest")

    def remote_review_old(self, friend):
        return self.vat.send(self.read("friend"), "latest")

    def remote_fetch(self, giver):
        answer = self.vat.send(giver, "give")
        return self.vat.when(answer, lambda friend: self.vat.send(friend, "put", 2), "fetched")

    def remote_ring(self, bell, text):
        self.vat.send_only(bell, "rung", text + "!")

    def remote_borrow(self, thing):
        self.write("lent", thing)
        return self.vat.send(thing, "put", 9)

    def remote_again(self):
        return self.vat.send(self.read("lent"), "put", 10)

    def remote_note(self, number):
        self.write("number", number)
        return number

    def remote_relay(self, friend, number):
        self.vat.send_only(friend, "put", number)


# ---- what Alice makes

class Bell(Object):
    def remote_rung(self, text):
        self.write("text", text)


class Caretaker(Object):
    def remote_put(self, number):
        if not self.read("live"):
            raise ValueError("revoked")
        return self.vat.send(self.captures["target"], "put", number)

    def remote_revoke(self):
        self.write("live", False)


class Giver(Object):
    def remote_give(self):
        friend = self.read("friend")
        self.vat.send(friend, "put", 1)
        return friend


# ---- parts of scenarios

def in_folder(name: str) -> str:
    return os.path.join(SETTINGS["folder"], name)


def control(order: str) -> None:
    """Gives the proxy an order, and waits until it is done."""
    with socket.create_connection(("127.0.0.1", SETTINGS["control"])) as connection:
        connection.sendall(order.encode() + b"\n")
        connection.recv(10)


def furl_of(vat: str) -> str:
    while not os.path.exists(in_folder(vat + ".furl")):
        time.sleep(0.02)
    with open(in_folder(vat + ".furl")) as file:
        return file.read().strip()


def finish(*_) -> None:
    reactor.callLater(LINGER, reactor.stop)


def with_both(vat: Vat, go, **captures):
    """Gets the roots of Carol and Bob, and then calls `go` with both and what it captures."""
    carol, bob = vat.root("carol", furl_of("carol")), vat.root("bob", furl_of("bob"))

    def got_carol(carol, bob, **captures):
        return vat.when(bob, lambda bob, carol, **captures: go(carol, bob, **captures), "got_bob", carol=carol, **captures)

    return vat.when(carol, got_carol, "got_carol", bob=bob, **captures)


def ask_latest(vat: Vat, carol):
    return vat.when(vat.send(carol, "latest"), finish, "end")


def release_and_ask(vat: Vat, answer, carol):
    """Once the answer is there, lets the held connection go, and asks Carol what she has."""
    def answered(_, carol):
        control("release 1")
        return ask_latest(vat, carol)
    return vat.when(answer, answered, "answered", carol=carol)


# ---- the scenarios

def meet(vat: Vat):
    bell = vat.make(Bell, text=None)

    def go(carol, bob, bell):
        vat.send(carol, "put", 0)
        vat.send(carol, "put", 1)
        vat.send_only(carol, "put", 2)
        vat.send(bob, "meet", carol, 3)
        cell = vat.send(carol, "cell", 5)
        vat.send(cell, "set", carol)
        vat.send(cell, "get")
        vat.send(bob, "ring", bell, "hello")
        vat.send(bob, "meet", carol, 4)
        vat.send(carol, "fail")
        vat.send(bob, "meet_list", [carol, 6, bell, [bob, "x"]])
        return vat.when(vat.send(bob, "friend"), lend, "lend", bob=bob, carol=carol)

    def lend(friend, bob, carol):
        vat.send(friend, "put", 7)
        caretaker = vat.make(Caretaker, {"target": carol}, live=True)
        return vat.when(vat.send(bob, "borrow", caretaker), revoke, "revoke", bob=bob, caretaker=caretaker)

    def revoke(_, bob, caretaker):
        vat.send(caretaker, "revoke")
        return vat.when(vat.send(bob, "again"), finish, "end")

    return with_both(vat, go, bell=bell)


def slow(vat: Vat):
    def go(carol, bob):
        control("hold 1")
        vat.send(carol, "put", 1)
        return release_and_ask(vat, vat.send(bob, "meet", carol, 2), carol)
    return with_both(vat, go)


def slow_list(vat: Vat):
    def go(carol, bob):
        control("hold 1")
        vat.send(carol, "put", 1)
        return release_and_ask(vat, vat.send(bob, "meet_list", [carol, 2]), carol)
    return with_both(vat, go)


def slow_answer(vat: Vat):
    giver = vat.make(Giver, friend=None)

    def go(carol, bob, giver):
        giver.write("friend", carol)
        control("hold 1")
        return release_and_ask(vat, vat.send(bob, "fetch", giver), carol)

    return with_both(vat, go, giver=giver)


def kragen(vat: Vat):
    def go(carol, bob):
        return vat.when(vat.send(bob, "meet", carol, 0), update, "update", carol=carol, bob=bob)

    def update(_, carol, bob):
        vat.send(carol, "put", "d" * SETTINGS["size"])
        return vat.when(vat.send(bob, "review", carol), lambda _, carol: ask_latest(vat, carol), "reviewed", carol=carol)

    return with_both(vat, go)


def older(vat: Vat):
    def go(carol, bob):
        return vat.when(vat.send(bob, "meet", carol, 0), again, "again", carol=carol, bob=bob)

    def again(_, carol, bob):
        control("hold 1")
        vat.send(carol, "put", 1)
        return release_and_ask(vat, vat.send(bob, "review_old", carol), carol)

    return with_both(vat, go)


def waiting(vat: Vat):
    def go(carol, bob):
        control("hold 1")
        reactor.callLater(0.5, control, "release 1")
        return vat.when(vat.send(carol, "put", 1), introduce, "introduce", carol=carol, bob=bob)

    def introduce(_, carol, bob):
        return vat.when(vat.send(bob, "meet", carol, 2), finish, "end")

    return with_both(vat, go)


def gap(vat: Vat):
    def go(carol, bob):
        vat.send(bob, "note", 1)
        vat.send(bob, "meet", carol, 2)
        return vat.when(vat.send(bob, "note", 3), finish, "end")
    return with_both(vat, go)


def part(vat: Vat, relays: bool = True):
    def go(carol, bob, sturdy):
        vat.send(carol, "put", 1)
        return vat.when(vat.send(bob, "meet", carol, 2), cut, "cut", carol=carol, bob=bob, sturdy=sturdy)

    def cut(_, carol, bob, sturdy):
        control("hold 1")
        vat.send(carol, "put", 3)
        reactor.callLater(0.3, control, "cut 1")
        vat.after(0.8, later, "later", carol=carol, bob=bob, sturdy=sturdy)

    def later(carol, bob, sturdy):
        vat.send(carol, "put", 4)
        if relays:
            vat.send(bob, "relay", carol, 5)
        anew = vat.root(sturdy.vat, sturdy.furl)
        return vat.when(anew, lambda carol: vat.when(vat.send(carol, "put", 6), finish, "end"), "anew")

    return with_both(vat, go, sturdy=SturdyReference("carol", furl_of("carol")))


def reconnect(vat: Vat):
    return part(vat, relays=False)


def many(vat: Vat):
    def step(_, carol, bob, left):
        for number in range(10):
            vat.send(carol, "put", left)
            if number % 5 == 0:
                vat.send(bob, "relay", carol, left - 1)
            else:
                vat.send(bob, "note", number)
        answer = vat.send(bob, "note", 0)
        if left <= 23:
            return vat.when(answer, finish, "end")
        return vat.when(answer, lambda _, carol, bob: step(_, carol, bob, left - 23), "step", carol=carol, bob=bob)

    return with_both(vat, lambda carol, bob: step(None, carol, bob, SETTINGS["messages"]))


def closure(vat: Vat):
    bell = vat.make(Bell, text=None)

    def go(carol, bob):
        return vat.when(vat.send(bob, "ring", bell, "hello"), finish, "end")

    return with_both(vat, go)


def ambient(vat: Vat):
    def go(carol, bob):
        vat.after(0.1, later, "later")

    def later():
        return vat.when(vat.root("carol", furl_of("carol")), lambda carol: ask_latest(vat, carol), "got_carol")

    return with_both(vat, go)


# ---- the process

def serve(vat: Vat):
    served = vat.make(Carol, document=None) if vat.name == "carol" else vat.make(Bob, friend=None, lent=None, number=None)
    furl = vat.tub.registerReference(served)
    with open(in_folder(vat.name + ".new"), "w") as file:
        file.write(furl)
    os.rename(in_folder(vat.name + ".new"), in_folder(vat.name + ".furl"))
    return served


def main() -> None:
    name = SETTINGS["vat"]
    os.chdir(SETTINGS["folder"])
    tub = Tub(certFile=in_folder(name + ".pem"))
    tub.listenOn(f"tcp:{SETTINGS['listen']}:interface=127.0.0.1")
    tub.setLocation(f"tcp:127.0.0.1:{SETTINGS['location']}")
    tub.startService()
    vat = Vat(name, in_folder(name + ".log"), tub)
    scenario = globals()[SETTINGS["scenario"]]
    vat.open(lambda: scenario(vat) if name == "alice" else serve(vat))


reactor.callWhenRunning(main)
reactor.callLater(SETTINGS["seconds"], reactor.stop)
reactor.run()

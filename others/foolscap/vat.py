"""A vat of Foolscap that writes down what its objects do, one JSON object a line.

Nothing of Foolscap is patched. The classes of a scenario derive from `Object`, and make, send and wait by their `Vat`.
The number of a message travels with it as one more keyword argument. README.md has the events.
"""
from __future__ import annotations

import json
import time

from foolscap.api import DeadReferenceError, Referenceable, RemoteException, eventually
from foolscap.promise import makePromise, send
from foolscap.referenceable import RemoteReference
from twisted.internet import defer, reactor
from twisted.python.failure import Failure

# The keyword argument by which a message carries its number.
NUMBER = "message_number"
# How much of a text is written down; a line of a history shows 32 characters.
SHOWN = 60


class SturdyReference:
    """A FURL in hand: the text that gives the root of a vat."""

    def __init__(self, vat: str, furl: str) -> None:
        self.vat, self.furl = vat, furl


class Answer:
    """What a send gives: the answer once it comes, and Foolscap's promise for it, on which more can be sent before."""

    def __init__(self, described: dict) -> None:
        self.described = described
        self.is_settled, self.value, self.waiting = False, None, []
        self.promise, self.resolve_promise = makePromise()

    def settle(self, value) -> None:
        self.is_settled, self.value = True, value
        if not isinstance(value, Failure):
            # A broken promise of Foolscap 21.7.0 raises AttributeError where it is used, so it is never broken.
            self.resolve_promise(value)
        for reaction in self.waiting:
            eventually(reaction, value)

    def react(self, reaction) -> None:
        if self.is_settled:
            eventually(reaction, self.value)
        else:
            self.waiting.append(reaction)

    def deferred(self) -> defer.Deferred:
        ended = defer.Deferred()
        self.react(lambda value: ended.errback(value) if isinstance(value, Failure) else ended.callback(value))
        return ended


def identity(furl: str) -> str:
    """A FURL without the addresses: the number of its Tub and the name there."""
    tub, rest = furl[len("pb://"):].split("@", 1)
    return tub + "/" + rest.rsplit("/", 1)[1]


def problem_of(failure: Failure) -> str:
    if failure.check(DeadReferenceError):
        return "dead reference"
    value = failure.value
    if isinstance(value, RemoteException):
        value = value.failure
    return str(getattr(value, "value", value))[:200]


class Log:
    """The events of a vat, with the turn and the activation in which they happen."""

    def __init__(self, vat: str, path: str, tub) -> None:
        self.vat, self.tub, self.file = vat, tub, open(path, "w")
        self.turn, self.activation, self.activations = 0, None, 0
        self.connections = []

    def write(self, event: str, **members) -> None:
        members.update(event=event, vat=self.vat, turn=self.turn, time=time.clock_gettime_ns(time.CLOCK_MONOTONIC))
        if self.activation is not None:
            members["activation"] = self.activation
        self.file.write(json.dumps(members, sort_keys=True) + "\n")
        self.file.flush()

    def begin(self, event: str, **members) -> None:
        """A turn, and its activation: `event` says why it begins."""
        self.turn += 1
        self.activation, self.activations = self.activations, self.activations + 1
        self.write(event, **members)

    def beside(self, event: str, **members) -> None:
        """An event of no activation: of the turn at hand, or else a turn of its own."""
        activation, self.activation = self.activation, None
        if activation is None:
            self.turn += 1
        self.write(event, **members)
        self.activation = activation

    def describe(self, value) -> dict:
        if isinstance(value, Answer):
            return value.described
        if isinstance(value, SturdyReference):
            return {"root": value.vat}
        if isinstance(value, RemoteReference):
            return {"object": identity(value.getSturdyRef().getURL()), "connection": self.connection_of(value)}
        if isinstance(value, Referenceable):
            return {"object": identity(self.tub.getOrCreateURLForReference(value))}
        if isinstance(value, (list, tuple)):
            return {"list": [self.describe(member) for member in value]}
        if isinstance(value, str) and len(value) > SHOWN:
            return {"data": value[:SHOWN], "more": len(value) - SHOWN}
        if value is None or isinstance(value, (bool, int, str)):
            return {"data": value}
        return {"other": type(value).__name__}

    def connection_of(self, reference: RemoteReference) -> int:
        """The number, at this vat, of the connection to which the reference belongs."""
        broker = reference.tracker.broker
        if broker not in self.connections:
            self.connections.append(broker)
        return self.connections.index(broker)


class Vat:
    """What the code of a scenario calls: it does the thing by Foolscap, and writes it down."""

    def __init__(self, name: str, path: str, tub) -> None:
        self.name, self.tub, self.log = name, tub, Log(name, path, tub)
        self.messages = self.slots = self.callbacks = self.promises = 0
        self.roots, self.watched = set(), set()

    # ---- activations

    def run(self, body, answer: Answer | None = None):
        """Runs the body of the activation at hand, and writes its end. Foolscap is given the result, or the answer is."""
        try:
            result = body()
        except Exception as raised:
            self.log.write("threw", problem=str(raised)[:200])
            self.log.activation = None
            if answer is None:
                raise
            return answer.settle(Failure(raised))
        self.log.write("done", value=self.log.describe(result))
        self.log.activation = None
        if answer is None:
            return result.deferred() if isinstance(result, Answer) else result
        if isinstance(result, Answer):
            return result.react(answer.settle)
        return answer.settle(result)

    def open(self, body) -> None:
        """The opening turn."""
        self.log.begin("open", tub=self.tub.tubID)
        self.run(body)

    # ---- objects

    def make(self, kind, captures=None, **slots) -> "Object":
        """An object of the class, with what it captures for good and what it can change."""
        made = kind()
        made.vat, made.captures, made.slots = self, dict(captures or {}), {}
        for name, value in slots.items():
            made.slots[name] = [self.slots, value]
            self.log.write("slot", slot=self.slots, value=self.log.describe(value))
            self.slots += 1
        self.log.write("made", object=self.log.describe(made), name=kind.__name__, captures=self.described(made.captures),
                       slots=[slot for slot, _ in made.slots.values()])
        return made

    def described(self, captures: dict) -> list:
        return [self.log.describe(value) for value in captures.values()]

    # ---- messages

    def root(self, vat: str, furl: str) -> Answer:
        """The object that the FURL gives, which is asked for anew by each call."""
        described = {"root": vat}
        if vat in self.roots:
            described = {"promise": self.promises}
            self.log.write("enliven", root=vat, promise=self.promises)
            self.promises += 1
        self.roots.add(vat)
        answer = Answer(described)

        def came(reference):
            self.watch(reference)
            self.log.beside("root", root=vat, settles=described, value=self.log.describe(reference))
            answer.settle(reference)

        def failed(failure):
            self.log.beside("no root", root=vat, settles=described, problem=problem_of(failure))
            answer.settle(failure)

        self.tub.getReference(furl).addCallbacks(came, failed)
        return answer

    def next_message(self) -> str:
        self.messages += 1
        return f"{self.name}/{self.messages - 1}"

    def write_send(self, event: str, target, verb: str, arguments) -> str:
        message = self.next_message()
        self.log.write(event, message=message, target=self.log.describe(target), verb=verb,
                       arguments=[self.log.describe(one) for one in arguments])
        return message

    def send(self, target, verb: str, *arguments) -> Answer:
        message = self.write_send("send", target, verb, arguments)
        answer = Answer({"answer": message})

        def came(value):
            self.watch(value)
            self.log.beside("result", message=message, value=self.log.describe(value))
            answer.settle(value)

        def failed(failure):
            self.log.beside("broke", message=message, problem=problem_of(failure))
            answer.settle(failure)

        self.deliver(target, verb, arguments, message).addCallbacks(came, failed)
        return answer

    def send_only(self, target, verb: str, *arguments) -> None:
        message = self.write_send("only", target, verb, arguments)
        if isinstance(target, RemoteReference):
            target.callRemoteOnly(verb, *arguments, **{NUMBER: message})
        else:
            self.deliver(target, verb, arguments, message).addErrback(lambda failure: None)

    def deliver(self, target, verb: str, arguments, message: str) -> defer.Deferred:
        if isinstance(target, RemoteReference):
            return target.callRemote(verb, *arguments, **{NUMBER: message})
        ended = defer.Deferred()
        if isinstance(target, Answer):
            # Foolscap's promise holds the message until it is settled.
            promise = send(target.promise).callRemote(verb, *arguments, **{NUMBER: message})
            promise._then(ended.callback)
            promise._except(ended.errback)
        else:
            call = lambda: defer.maybeDeferred(target.doRemoteCall, verb, list(arguments), {NUMBER: message})
            eventually(lambda: call().addCallbacks(ended.callback, ended.errback))
        return ended

    # ---- reactions

    def write_callback(self, event: str, name: str, captures: dict, **members) -> tuple[str, int]:
        message, callback = self.next_message(), self.callbacks
        self.callbacks += 1
        self.log.write(event, message=message, callback=callback, name=name, captures=self.described(captures), **members)
        return message, callback

    def when(self, awaited: Answer, reaction, name: str, **captures) -> Answer:
        """Calls the reaction with the value, once it is there, and with what it captures."""
        message, callback = self.write_callback("when", name, captures, awaited=awaited.described)
        answer = Answer({"answer": message})

        def fire(value):
            self.log.begin("react", message=message, callback=callback, awaited=awaited.described)
            self.run(lambda: reaction(value, **captures), answer)

        awaited.react(fire)
        return answer

    def after(self, seconds: float, reaction, name: str, **captures) -> None:
        """Calls the reaction so much later, with what it captures."""
        message, callback = self.write_callback("after", name, captures)

        def fire():
            self.log.begin("timer", message=message, callback=callback)
            self.run(lambda: reaction(**captures))

        reactor.callLater(seconds, fire)

    # ---- connections

    def watch(self, value) -> None:
        """Writes down, once, when the connection of a reference is lost."""
        if isinstance(value, (list, tuple)):
            for member in value:
                self.watch(member)
        if isinstance(value, RemoteReference) and self.log.connection_of(value) not in self.watched:
            self.watched.add(self.log.connection_of(value))
            tub = value.getRemoteTubID()
            value.notifyOnDisconnect(lambda: self.log.beside("disconnected", tub=tub))


class Object(Referenceable):
    """An object whose state and calls are written down. `make` gives it its vat, captures and slots."""

    def read(self, name: str):
        slot, value = self.slots[name]
        self.vat.log.write("read", slot=slot, value=self.vat.log.describe(value))
        return value

    def write(self, name: str, value) -> None:
        self.slots[name][1] = value
        self.vat.log.write("wrote", slot=self.slots[name][0], value=self.vat.log.describe(value))

    def doRemoteCall(self, verb, arguments, keywords):
        message = keywords[NUMBER]
        others = {name: value for name, value in keywords.items() if name != NUMBER}
        log = self.vat.log
        self.vat.watch(arguments)
        log.begin("take", message=message, target=log.describe(self), verb=verb, arguments=[log.describe(one) for one in arguments])
        return self.vat.run(lambda: Referenceable.doRemoteCall(self, verb, arguments, others))

"""What to do about each reason for a refusal: one table, searched in its order."""
from __future__ import annotations

import re

_KNOWN = "write a value that is known before the run, or let a message tell the cases apart in the branches of an `alt`"
_ORDER = "let one component wait for the other: for its message, or with `.done` for its end"
_SMALLER = "split the test case into smaller ones, or let fewer messages decide how it goes on"
_COMPILER = "correct the script as a compiler of TTCN-3 asks for it"
_TIMED = "start, stop and wait for each timer by its own name"
_PLAIN = "leave it out, or say it with another construct: docs/FROM_TTCN3.md has one for each clause"
_SETUP = "create, connect and start all components at the head of the test case, before a message is waited for"
_CALLED = "call the function before this, in a statement of its own, and use a variable with its value"
_TYPES = "write the type before the value, as `T:1`, or another type in the port's list"

# A regular expression for the reason, and what to do.
_TABLE = (
    (r"--values|--statements|--seconds", "give the option the number that is named, or split the test case"),
    (r"comes? after the end of|may come after the end", f"{_ORDER}; or give --ended=queued"),
    (r"give one with --param", "give the parameter's value with --param NAME=VALUE"),
    (r"needs a codec", "send and receive the value itself, with its type"),
    (r"--encode", "give the option --encode"),
    (r"several test cases", "give the name of one with --case"),
    (r"isn't among the files", "give the module's file too"),
    (r"computed from what was received|what was received are compared|is open here|a part of what was received"
     r"|which alternative it has|isn't a template that can be written|isn't known before the run", _KNOWN),
    (r"depends on a message|components are created|component is created|was used before it was joined"
     r"|a component that runs already|the argument for", _SETUP),
    (r"\.done|may end before|still waits|may still send|was disconnected", _ORDER),
    (r"does more than compute", _CALLED),
    (r"permutation", _PLAIN),
    (r"more than|nested too deep|no bound|goes on and on|repeated|seconds|calls itself again|too many", _SMALLER),
    (r"below 0|whose name isn't known here|this operation on a timer|form of `timeout`|several timers alone|which timer is meant", _TIMED),
    (r"a timer of `sut`", "give --timers=never in place of the other reading"),
    (r"no time in a run", "give --timers=both, or --timers=never or --timers=any alone; or leave the timer and its branches out"),
    (r"from outside|ends behaviours|testcase.stop|kill", "let each behaviour come to its own end, by a message that tells it to"),
    (r"of a procedure|of procedures|signature", "send a record for the call, and one for its reply, at a message port"),
    (r"outside the script|outside the run|`action`", "let a function `sut` play the system, and send messages to it"),
    (r"`alive`|killed|alive", "wait for the component's end with `.done`"),
    (r"interleave", "write an `alt`, and in each branch an `alt` for what is still missing"),
    (r"goto|a label", "write a `for` around what is done again, or the statements once more"),
    (r"no function is called|function is called|each look at|called through"
     r"|changes a variable|returns nothing|without a `return`|`return` in an altstep", _CALLED),
    (r"pattern|length|range|bound that|modifier|`@|redirect|decoded|subset|superset", _PLAIN),
    (r"asked by the test case|connected with itself and|an altstep that has parameters|has a behaviour already"
     r"|part of a variable|may be gone by then|array of ports|has at most", _PLAIN),
    (r"the (index|size of the array|template|type of the component|number of this enumerated value) isn't known|a value isn't known|is compared with"
     r"|this is present|this element is open|what kind of template", _KNOWN),
    (r"never ends|ever ends it", "write a `for` with as many turns as are needed, or a branch that ends it"),
    (r"which (component|port|default|ports)|this redirect|who is meant", "name it by a variable that is set before the run"),
    (r"of the port's types|the port's list|doesn't fit the type|one type here|no message has the type"
     r"|allows less|subtype|sent as another type|hasn't the type", _TYPES),
    (r"isn't evaluated|isn't computed|asks for something that is known only in a run|the verdict isn't known|`error` isn't set", _KNOWN),
    (r"isn't carried over|aren't carried over|no place in the profile|has no parameters", _PLAIN),
    (r"", _COMPILER),
)
_PATTERNS = tuple((re.compile(words), text) for words, text in _TABLE)


def instead_of(reason: str) -> str:
    return next(text for pattern, text in _PATTERNS if pattern.search(reason))

"""Explains the answer of `tpr check` to a script."""
from __future__ import annotations

import re
from dataclasses import replace
from typing import Any, Callable, Iterator, NamedTuple, Optional, Sequence, Union

from ..refusals import Refusal
from ..script.checks import faults_of
from ..script.cursor import A_STATEMENT, A_VALUE, GrammarFault
from ..script.faults import RuleFault
from ..script.refusal_rules import BEYOND_SCRIPTS, RULES_OF, Rule
from ..script.tokens import MOST_BYTES, Text, TokenFault, is_name
from ..words import RESERVED, RESERVED_ELSEWHERE
from .brackets import unclosed_at
from .construct_letters import construct_of_rest
from .construct_signs import Found, Signs, construct_of_name
from .explanation import STANDARD, Answer, Explanation, Shown, Warned
from .warnings import warnings_of

_REFUSED = re.compile(r"refused ([0-9]{1,9}) ([A-Za-z]+)(?: line ([0-9]{1,9}))?")
_FAULT = re.compile(r"fault ([0-9]+) [A-Za-z]+")
_ARRIVAL = re.compile(r"^came ", re.MULTILINE)
_MOST_WARNINGS = 20  # of one script: the others are counted

Fault = Union[TokenFault, GrammarFault, RuleFault]


def explain(file: str, data: Optional[bytes], said: str) -> Explanation:
    """The explanation of `said`, the output of `tpr check`. `data` is None if the file can't be read."""
    return next(explanations_of(file, data, said))


def explanations_of(file: str, data: Optional[bytes], said: str) -> Iterator[Explanation]:
    """The explanation of the program's answer, then one for each further fault that explain's own reading finds."""
    if said == "accepted":
        yield _accepted(file, data)
        return
    refused = _REFUSED.fullmatch(said)
    if refused is None or int(refused[1]) not in RULES_OF or refused[2] != Refusal(int(refused[1])).word:
        answer = Answer.FAULT if _FAULT.fullmatch(said) else Answer.BROKEN
        yield Explanation(file, answer, said.partition("\n")[0] or "nothing was printed")
        return
    line = int(refused[3]) if refused[3] else None
    explanation = Explanation(file, Answer.REFUSED, said, int(refused[1]), refused[2], line)
    reading = reading_of(data)
    if reading.answer != said:
        explanation.own_reading = reading.answer
        _by_rules(explanation)
    elif reading.text is not None:
        yield from (_of_fault(file, reading.text, fault) for fault in reading.faults)
        return
    elif data is None:
        _by_rules(explanation)
    else:
        _of_long_text(explanation)
    yield explanation


def _of_fault(file: str, text: Text, fault: Fault) -> Explanation:
    refusal, line = Refusal(fault.number), line_of(text, fault)
    said = f"refused {refusal.told()} line {line}"
    explanation = Explanation(file, Answer.REFUSED, said, refusal.value, refusal.word, line)
    _EXPLAINED[type(fault)](explanation, text, fault)
    return explanation


def _accepted(file: str, data: Optional[bytes]) -> Explanation:
    explanation = Explanation(file, Answer.ACCEPTED, "accepted")
    text = Text(data) if data is not None and len(data) <= MOST_BYTES else None
    if text is None or text.fault():
        return explanation
    try:
        warnings = warnings_of(text)
    except (GrammarFault, RuleFault):
        return explanation
    explanation.more_warnings = len(warnings[_MOST_WARNINGS:])
    for found in warnings[:_MOST_WARNINGS]:
        places = [_show(text, found.place), *(_show(text, *other) for other in found.others)]
        explanation.warnings.append(Warned(found.sentence, places))
    return explanation


class Reading(NamedTuple):
    """The answer of `tpr check` that would agree with explain's own reading, and the faults in the text."""

    answer: str
    text: Optional[Text] = None
    faults: Sequence[Fault] = ()


def reading_of(data: Optional[bytes]) -> Reading:
    if data is None:
        return Reading(f"refused {Refusal.READ.told()}")
    if len(data) > MOST_BYTES:
        return Reading(f"refused {Refusal.LIMIT.told()} line 0")
    text = Text(data)
    faults = _faults_of(text)
    if not faults:
        return Reading("accepted")
    first = f"refused {Refusal(faults[0].number).told()} line {line_of(text, faults[0])}"
    return Reading(first, text, faults)


def _faults_of(text: Text) -> Sequence[Fault]:
    if fault := text.fault():
        return [fault]
    try:
        return faults_of(text)
    except GrammarFault as found:
        return [found]


def line_of(text: Text, fault: Fault) -> int:
    """The line at which the fault is reported."""
    if isinstance(fault, TokenFault):
        return text.position_of(fault.offset, 1).line
    return text.line(fault.told if isinstance(fault, RuleFault) else fault.place)


def _by_rules(explanation: Explanation) -> None:
    """Adds the rules of the number, and nothing about the script."""
    rules = list(RULES_OF[Refusal(explanation.number or 0)])
    is_one = len(rules) == 1
    explanation.sentence = _sentence(rules[0]) if is_one else "a rule is broken, but explain doesn't find the place"
    explanation.rules = rules


def _sentence(rule: Rule) -> str:
    return rule.told().partition(". ")[0]


def _of_long_text(explanation: Explanation) -> None:
    explanation.sentence = f"the text has more than {MOST_BYTES:,} bytes"
    explanation.rules = [Rule.SHORT_TEXT]
    explanation.instead = "a script for each test case"


def _show(text: Text, place: int, label: str = "") -> Shown:
    position = text.position(place)
    return Shown(position, text.shown_line(position.line), label)


def _of_token(explanation: Explanation, text: Text, fault: TokenFault) -> None:
    position = text.position_of(fault.offset, fault.length)
    explanation.column = position.column
    explanation.sentence = fault.sentence
    explanation.places = [Shown(position, text.shown_line(position.line))]
    if fault.number == 15:
        is_number = text.letters[fault.offset].isdecimal()
        explanation.rules = [Rule.SMALL_NUMBER if is_number else Rule.SHORT_NAME]
        return
    found = construct_of_rest(text, fault.offset)
    if found:
        _add_construct(explanation, found, fault.sentence)
        if found.start < len(text.tokens):
            _add_start(explanation, text, found)


def _of_grammar(explanation: Explanation, text: Text, fault: GrammarFault) -> None:
    shown = _show(text, fault.place)
    explanation.column = shown.position.column
    explanation.places = [shown]
    if fault.number == 15:
        explanation.sentence = fault.sentence
        is_number = text.spelling(fault.place).isdecimal()
        explanation.rules = [Rule.POSITIVE_NUMBER if is_number else Rule.FEW_BRACKETS]
        return
    if _of_report(explanation, text):
        return
    explanation.can_stand = fault.wanted[:6]
    if _of_type_alone(explanation, text, fault) or _of_open_bracket(explanation, text, fault):
        return
    found = Signs(text, fault).found()
    explanation.sentence = fault.sentence or _refused_token(text, fault, found is not None)
    if fault.wanted == ["`.`"] and is_name(text.spelling(fault.place - 1)):
        explanation.can_stand = [f"`.`, because `{text.spelling(fault.place - 1)}` is a name here"]
    if found:
        _add_construct(explanation, found, explanation.sentence)
        _add_start(explanation, text, found, fault.place)


def _of_report(explanation: Explanation, text: Text) -> bool:
    """Whether the text is a report or a trace in place of a script. Somebody may ask why `tpr judge` calls it unlawful."""
    if text.spelling(0) != "component":
        return False
    if _ARRIVAL.search(text.letters):
        explanation.sentence = "this is a trace, which `tpr judge` reads; a script begins with `module`"
    else:
        explanation.sentence = "this is a report of `tpr run`; a script begins with `module`"
        explanation.instead = "`tpr trace SCRIPT`, if `tpr judge` is to read it: a report has no lines `came`"
    return True


# Example values for these types, shown if the script has only the type.
_VALUES = {"integer": "1", "boolean": "true", "charstring": '".."'}


def _of_type_alone(explanation: Explanation, text: Text, fault: GrammarFault) -> bool:
    """Whether the fault is `receive(TYPE)` or `send(TYPE)`, where a template or a value is missing."""
    word, before, how = (text.spelling(fault.place - number) for number in (0, 2, 3))
    type_name = text.spelling(fault.place - 1)
    if (word, before) != (")", "(") or how not in ("receive", "trigger", "send"):
        return False
    if type_name not in _VALUES and not _is_message_type(text, type_name):
        return False
    what = "a value" if how == "send" else "a template, such as `?` for any value,"
    explanation.sentence = f"{_unexpected(text, fault.place)}: {what} is missing after the type"
    value = _VALUES.get(type_name, "{..}") if how == "send" else "?"
    explanation.instead = f"`{type_name}:{value}`"
    return True


def _is_message_type(text: Text, name: str) -> bool:
    """Whether the text defines a record or a record of with this name."""
    tokens = text.tokens
    if any(it == ("record", name) for it in zip(tokens, tokens[1:])):
        return True
    fours = zip(*(tokens[at:] for at in range(4)))
    return any(it[:2] == ("record", "of") and it[3] == name for it in fours)


def _of_open_bracket(explanation: Explanation, text: Text, fault: GrammarFault) -> bool:
    """Whether the fault is an unclosed bracket, which is shown with its line."""
    unclosed = unclosed_at(text, fault.place)
    if unclosed is None:
        return False
    line = text.line(unclosed.place)
    told = f"the `{text.spelling(unclosed.place)}` in line {line} isn't closed"
    if unclosed.is_guess:
        told = f"judging by the indentation, {told}"
    explanation.sentence = f"{_unexpected(text, fault.place)}: {told}"
    explanation.places.append(_show(text, unclosed.place, "isn't closed"))
    return True


def _unexpected(text: Text, place: int) -> str:
    """For example: unexpected `;` after `(`."""
    word, before = text.spelling(place), text.spelling(place - 1)
    after = f"after `{before}`" if before else "at the beginning"
    return f"unexpected `{word}` {after}" if word else f"unexpected end of the text {after}"


def _refused_token(text: Text, fault: GrammarFault, is_named: bool) -> str:
    """Which word is unexpected there, and why, if that is clear."""
    word, before, behind = (text.spelling(fault.place + number) for number in (0, -1, 1))
    told = _unexpected(text, fault.place)
    if not word:
        return told
    is_on_new_line = fault.place > 0 and text.line(fault.place) > text.line(fault.place - 1)
    if "`;`" in fault.wanted and is_on_new_line and before != "}":
        return f"{told}: a `;` is missing"
    if is_named:
        return told
    is_name_wanted = any("name" in kind for kind in fault.wanted)
    is_used_as_name = behind in (".", ":=") and {A_STATEMENT, A_VALUE} & {*fault.wanted}
    if word in RESERVED and (is_name_wanted or is_used_as_name):
        return f"{told}: `{word}` is a reserved word, so it can't be a name"
    if word in RESERVED_ELSEWHERE:
        return f"{told}: `{word}` is a word of the full language that isn't in the profile"
    return told


def _add_construct(explanation: Explanation, found: Found, sentence: str) -> None:
    explanation.construct, explanation.clause = found.title(), found.construct.clause
    explanation.instead = found.instead()
    where = f"({STANDARD}, {explanation.clause})"
    explanation.sentence = f"{explanation.construct} isn't supported {where}: {sentence}"


def _add_start(explanation: Explanation, text: Text, found: Found, place: int = -1) -> None:
    """Shows where the construct begins, unless that place is shown already."""
    if found.start == place:
        return
    begin, shown = _show(text, found.start, "it begins here"), explanation.places[0]
    if begin.position.line == shown.position.line and begin.position.column < shown.position.column:
        explanation.places = [replace(shown, begin=begin.position.column)]
    else:
        explanation.places.append(begin)


def _of_rule(explanation: Explanation, text: Text, fault: RuleFault) -> None:
    shown = _show(text, fault.place)
    is_there = shown.position.line == explanation.line
    explanation.column = shown.position.column if is_there else text.position(fault.told).column
    explanation.sentence = fault.sentence
    explanation.places = [shown] + [_show(text, place, label) for place, label in fault.others]
    explanation.rules = [fault.rule]
    explanation.instead = fault.instead
    construct = fault.construct
    if fault.number == 11 and construct is None:
        construct = construct_of_name(text.spelling(fault.place))
    if construct:
        found = Found(construct, fault.place, {"word": text.spelling(fault.place)})
        _add_construct(explanation, found, fault.sentence)


_EXPLAINED: dict[type, Callable[[Explanation, Text, Any], None]] = {
    TokenFault: _of_token,
    GrammarFault: _of_grammar,
    RuleFault: _of_rule,
}


def rules_text(number: int) -> str:
    """The rules of a number, in the words of the documents. For a number that isn't about a script, also what to do."""
    refusal = Refusal(number)
    lines = [refusal.told()]
    if beyond := BEYOND_SCRIPTS.get(refusal):
        lines += [f"  {beyond.rule.told()}", f"  what to do: {beyond.remedy}"]
    else:
        lines += [f"  {rule.told()}" for rule in RULES_OF[refusal]]
    return "\n".join(lines) + "\n"

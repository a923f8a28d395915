#!/usr/bin/env python3
"""Tests what `tools/titan --port` writes and refuses for headers as Titan's compiler writes them. It needs no Titan.

It prints a line `passed NAME` or `FAILED: NAME: WHY` for each case.
"""
from __future__ import annotations

import subprocess
import sys
import tempfile
from pathlib import Path
from typing import Optional

sys.dont_write_bytecode = True

TOOL = Path(__file__).resolve().parents[2] / "tools" / "titan"
HEADER = """\
namespace Kitchen {
class My__Counter_BASE : public PORT {
struct msg_queue_item : public msg_queue_item_base {
};

protected:
virtual void outgoing_send(const Order& send_par) = 0;
public:
alt_status receive(const COMPONENT_template& sender_template, COMPONENT *sender_ptr, Index_Redirect*);
alt_status receive(const Order_template& value_template, Order *value_redirect, Index_Redirect*);
alt_status check_receive(const COMPONENT_template& sender_template, COMPONENT *sender_ptr, Index_Redirect*);
alt_status trigger(const COMPONENT_template& sender_template, COMPONENT *sender_ptr, Index_Redirect*);
@
boolean process_message(const char *message_type, Text_Buf& incoming_buf);
};
}
"""
CALL = "alt_status getcall(const COMPONENT_template& sender_template, COMPONENT *sender_ptr, Index_Redirect*);"
WRITTEN = (
    "class My__Counter : public My__Counter_BASE {",
    "alt_status receive(const COMPONENT_template& sender_template, COMPONENT *sender_ptr, Index_Redirect* index",
    "return shown.status = My__Counter_BASE::receive(value_template, value_redirect, index_redirect);",
    "return shown.status = My__Counter_BASE::check_receive(sender_template, sender_ptr, index_redirect);",
    "return shown.status = My__Counter_BASE::trigger(sender_template, sender_ptr, index_redirect);",
    "void outgoing_send(const Order&) {",
    '#include "Kitchen.hh"',
    "namespace Kitchen {",
)


def asked(text: Optional[str], *words: str) -> tuple[int, str, str]:
    """The status and both outputs for a header with this text; with None, there is no header."""
    with tempfile.TemporaryDirectory() as room:
        if text is not None:
            (Path(room) / "Kitchen.hh").write_text(text, encoding="utf-8")
        ran = subprocess.run([TOOL, *words], cwd=room, capture_output=True, text=True, check=False)
    return ran.returncode, ran.stdout, ran.stderr


def writes() -> str:
    status, printed, said = asked(HEADER.replace("@\n", ""), "--port", "My_Counter", "Kitchen.hh")
    lines = {line.strip() for line in printed.splitlines()}
    lost = [it for it in WRITTEN if not any(line.startswith(it) for line in lines)]
    return f"status {status}, {said}" if status or said else f"it lacks `{lost[0]}`" if lost else ""


def refuses(text: Optional[str], port_type: str, told: str) -> str:
    status, printed, said = asked(text, "--port", port_type, "Kitchen.hh")
    return "" if (status, printed) == (2, "") and told in said else f"status {status}, it said {said!r}"


def main() -> int:
    plain = HEADER.replace("@\n", "")
    calls = HEADER.replace("@", CALL)
    wrong = {
        "the class of a port type": writes(),
        "a port type that isn't there": refuses(plain, "Bell", "has no class `Bell_BASE` for the port type `Bell`"),
        "a port type with calls": refuses(calls, "My_Counter", "`My_Counter` of Kitchen.hh isn't a port type"),
        "a header that isn't there": refuses(None, "Bell", "Kitchen.hh can't be read"),
        "no header": "" if asked(plain, "--port", "Bell")[0] == 4 else "its status isn't 4",
        "the help of --port": "" if "--port TYPE HEADER" in asked(None, "--port", "--help")[1] else "it isn't printed",
    }
    for name, why in wrong.items():
        print(f"FAILED: {name}: {why}" if why else f"passed {name}")
    return 1 if any(wrong.values()) else 0


if __name__ == "__main__":
    sys.exit(main())

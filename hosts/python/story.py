"""The story of docs/RETRY.md in Python: story.py LIBRARY STORY.img. A fault behind a Return has counted; before it, it has not."""
import sys

from chaffwheel import Machine, Refused


def told(outcome):
    answer = f"fault {outcome.fault}" if outcome.kind == "fault" else f"value {outcome.value}" if outcome.kind == "value" else outcome.kind
    return f"{answer}, spent {outcome.spent}, returns {outcome.returns}"


library, path = sys.argv[1:]
image = open(path, "rb").read()
machine = Machine(library, image)
print(f"{told(machine.whole_run(1_000_000))}, last result {machine.last_result():g}")
print(f"run again: {told(machine.whole_run(1_000_000))}")
parts = Machine(library, image)
print(f"begun: {told(parts.begin())}")
print(f"given 5 units: {told(parts.continue_run(5))}, last result {parts.last_result():g}")
print(f"given 4 more: {told(parts.continue_run(4))}, last result {parts.last_result():g}")
fresh = Machine(library, image)
print(f"given 5 units and abandoned: {told(fresh.whole_run(5))}, last result {fresh.last_result():g}")
try:
    fresh.abandon()
except Refused as refused:
    print(f"refused {refused.number}")
try:
    Machine(library, b"no image")
except Refused as refused:
    print(f"refused {refused.number}")

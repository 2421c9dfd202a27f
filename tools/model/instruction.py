"""Processing instructions: docs/GRAMMAR.md, "One processing instruction as source text"."""

from .characters import in_value
from .messages import Instruction
from .reading import DATA, Item, Reading


def instruction_item(reading: Reading, place: int) -> Item:
    start = place + 2
    stop = reading.find(">", start)
    content = reading.text[start:stop]
    end = start + len(content)
    told = reading.nuls(start, end, "ProcessingInstruction")
    instruction = [(end, Instruction(in_value(content)))]
    if stop is None:
        return Item(end, told + reading.saw_end("ProcessingInstruction") + instruction, None)
    return Item(end + 1, told + instruction, DATA)

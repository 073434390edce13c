"""What `?` prints at the console."""

from textwrap import fill

from workbench.console_codes import COMMANDS, INSTRUCTIONS, INTRODUCTION, LETTERS, REQUESTS

WIDTH = 79


def help_text(words, own):
    """All codes, or the ones that are asked for, to a drive of an address."""
    return "\n".join(help_on(word, own) for word in words) if words else overview(own)


def help_on(word, own):
    """A code, or the fields that have a name."""
    topics = [*COMMANDS, *REQUESTS, *INSTRUCTIONS]
    found = [detail(topic, own) for topic in topics if topic.code == word.upper()]
    if not found:
        found = dict.fromkeys(f"{letters}: {meaning}" for topic in topics for letters, meaning in topic.fields if letters == word)
    return "\n".join(found) or f"There is no code {word}; ? lists them."


def detail(topic, own):
    fields = [indented(f"{letters:6}{meaning}", 8) for letters, meaning in topic.fields]
    return "\n".join([f"{form_of(topic)}: {topic.name}", indented(topic.does, 2), *fields, f"  For example {example(topic, own)}"])


def example(topic, own):
    return f"{own:02}{topic.example[2:]}"


def indented(text, further):
    """Text in from the left by two, its further lines by as many as is said."""
    return fill(text, WIDTH, initial_indent="  ", subsequent_indent=" " * further)


def form_of(topic):
    """How a string is made, from its code on."""
    if topic not in INSTRUCTIONS:
        return topic.form
    return ",".join(["WN", "BBB", short_form(topic), *([] if topic.code == "69" else ["DDD"])])


def short_form(topic):
    """Of an instruction its code and what stands between that and the next cell."""
    return ",".join(filter(None, [topic.code, topic.form])) if topic in INSTRUCTIONS else topic.form


def overview(own):
    parts = [("Commands", COMMANDS), ("Requests", REQUESTS), ("Instructions: what stands between WN,BBB and DDD", INSTRUCTIONS)]
    introduction = fill(INTRODUCTION.format(own=f"{own:02}"), WIDTH)
    return "\n".join([introduction, *(f"{title}\n{listed(topics, own)}" for title, topics in parts), fill(LETTERS, WIDTH)])


def listed(topics, own):
    return "\n".join(f"  {short_form(topic):18}{topic.name:26}{example(topic, own)}" for topic in topics)

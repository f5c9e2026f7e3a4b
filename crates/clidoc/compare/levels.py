"""The tables of a description, and the commands of a level."""


def commands(level):
    """The commands of a level, those of its groups first."""
    return [command for group in level.get("group", []) for command in group.get("command", [])] + level.get("command", [])


def tables(data):
    """Each table of a description."""
    if isinstance(data, dict):
        yield data
        for each in data.values():
            yield from tables(each)
    elif isinstance(data, list):
        for each in data:
            yield from tables(each)


def called(command):
    return [command["name"], *([command["short"]] if "short" in command else []), *command.get("aliases", [])]

"""The table docs/commands.toml as the tools of this folder use it."""

import pathlib
import tomllib

TOP = pathlib.Path(__file__).resolve().parent.parent


def read():
    """The table, with the commands that stand alone, each option whole."""
    with open(TOP / "docs" / "commands.toml", "rb") as file:
        table = tomllib.load(file)
    table["commands"] = [it for it in table["commands"] if it["stands"]]
    for command in table["commands"]:
        command["options"] = [whole(it, table["options"]) for it in command["options"]]
    return table


def whole(option, shared):
    """The option, or the shared one that it names with what it says otherwise."""
    if "use" not in option:
        return option
    return {"name": option["use"], **shared[option["use"]], **option}


def of_program(table):
    """The commands that the program itself has, without the tools beside it."""
    return [it for it in table["commands"] if not it.get("beside")]


def range_of(option):
    """How the range of an option's numbers is said, if they have one."""
    if "range" in option:
        return option["range"]
    if "least" in option:
        return f"{option['least']} to {option['greatest']}"
    return None

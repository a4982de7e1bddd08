"""Why a command, or a task of one, can't do its work."""


class Fault(Exception):
    """What is wrong, and what to do: a line for a person."""


class WrongWords(Fault):
    """What is wrong with the command line."""


class Busy(Exception):
    """Another program has the folder of a shard open. The engine runs the task again."""

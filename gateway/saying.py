"""Lines on standard error, each with the name of the command in front."""
import sys

name = 'gateway'


def say(text: str) -> None:
    """Writes one line to standard error. Where nobody reads it any more, it is lost, and nothing else is."""
    try:
        sys.stderr.write(f'{name}: {text}\n')
        sys.stderr.flush()
    except (OSError, ValueError):
        pass

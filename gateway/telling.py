"""Telling systemd how a service is, where it started this one."""
import os
import socket
import time

from saying import say


def notify(text: str) -> None:
    """Sends a line to systemd; no systemd, no line."""
    path = os.environ.get('NOTIFY_SOCKET')
    if not path:
        return
    if text == 'RELOADING=1':
        text += f'\nMONOTONIC_USEC={time.clock_gettime_ns(time.CLOCK_MONOTONIC) // 1000}'
    try:
        with socket.socket(socket.AF_UNIX, socket.SOCK_DGRAM) as link:
            link.connect('\0' + path[1:] if path[0] == '@' else path)
            link.send(text.encode())
    except OSError as fault:
        say(f'systemd could not be told {text!r}: {fault}')

"""How all parts are, for `up status`."""
import time

from children import Child, pages_answer, repository_answers
from mirror import OFTEN


def line_of(child: Child, fault: str, seconds: float) -> str:
    """The line of a child."""
    process = child.process.pid if child.process and child.process.poll() is None else None
    times = f'started {child.starts} time{"s" if child.starts != 1 else ""}'
    return f'{child.name}: {fault or f"answers in {seconds:.3f} s"}; {f"process {process}, " if process else ""}{times}'


def of(team) -> tuple[int, str]:
    """0 where all is well and 1 where a part is ill, and a line for each part."""
    lines, is_well = [], True
    parts = [(team.server, repository_answers)] + ([(team.pages.child, pages_answer)] if team.pages else [])
    for child, look in parts:
        begin = time.monotonic()
        fault = (look(child.port) if child.is_open else child.why) or ''
        is_well &= not fault
        lines.append(line_of(child, fault, time.monotonic() - begin))
    if team.mirror:
        age = f'synced {time.time() - team.mirror.last:.0f} s ago' if team.mirror.last else 'not synced yet'
        is_well &= team.mirror.said == 'in step' and time.time() - team.mirror.last < 3 * OFTEN
        lines.append(f'mirror: {team.mirror.said}, {age}, {team.mirror.syncs} sync{"s" if team.mirror.syncs != 1 else ""}')
    lines.append(f'users: {len(team.known)}; up for {time.monotonic() - team.begin:.0f} s')
    is_well &= not team.disk.is_full()
    lines.append(f'disk: {team.disk.status()}')
    return 0 if is_well else 1, '\n'.join(lines)

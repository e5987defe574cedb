"""A pytest plugin that keeps the journals of failing tests, so that a flaky test can be run again exactly as it failed.

    def test_pool(open_hub):
        with open_hub(procs=3) as hub:          # as Hub(procs=3)
            ...

If the test fails, the journals of the hubs that it opened are written to files in the folder chanhub-journals, or that of the option
`--chanhub-journals`, and the report names them, in JUnit's XML as a property `chanhub-journal`. One that cannot be written is a warning.
With `--chanhub-follow`, the hubs of a test that has such files follow them: each call gets the answer that it had in that run, whatever the
schedule of the threads is, also under a debugger. A call that the journal has not there raises Diverged.

    pytest -k test_pool                         # it fails once in a hundred times
    pytest -k test_pool --chanhub-follow        # now always, until the program does something else

pytest finds the plugin if chanhub is installed; otherwise give it `-p chanhub_pytest`. Hubs with `keep` are not kept: a chapter
cannot be followed.
"""
from __future__ import annotations

import hashlib
import re
import warnings
from pathlib import Path
from typing import Any, Callable, Iterator, List, NamedTuple, Optional

import pytest
from chanhub import Hub


class _Kept(NamedTuple):
    """A hub that a test opened, and the file for its journal."""
    hub: Hub
    file: Path
    follows: bool


_KEPT = pytest.StashKey[List[_Kept]]()


def pytest_addoption(parser: pytest.Parser) -> None:
    group = parser.getgroup('chanhub')
    group.addoption('--chanhub-journals', metavar='FOLDER', default='chanhub-journals',
                    help='where the journals of failing tests are written (default: chanhub-journals)')
    group.addoption('--chanhub-follow', action='store_true', help='have the hubs of each test follow its journals in that folder')


def _file_of(item: pytest.Item, place: int) -> Path:
    """The file for the journal of the hub that a test opens at this place, from 0. The digest is the test's own: names may be equal in what
    can be read."""
    digest = hashlib.sha256(item.nodeid.encode(errors='backslashreplace')).hexdigest()[:12]
    readable = re.sub('[^A-Za-z0-9.-]+', '_', item.nodeid)[:100]
    return Path(item.config.getoption('chanhub_journals'), f'{readable}.{digest}.{place}.journal')


def _opened(item: pytest.Item, procs: int, arguments: Any, options: Any) -> Hub:
    """Opens the next hub of a test."""
    if options.get('keep'):
        return Hub(procs, *arguments, **options)
    kept = item.stash.setdefault(_KEPT, [])
    file = _file_of(item, len(kept))
    follows = item.config.getoption('chanhub_follow') and file.exists()
    hub = (Hub.follow(file.read_bytes(), objects=options.get('objects', False)) if follows
           else Hub(procs, *arguments, **options))
    kept.append(_Kept(hub, file, follows))
    return hub


@pytest.fixture
def open_hub(request: pytest.FixtureRequest) -> Callable[..., Hub]:
    """Opens hubs as `Hub` does. If the test fails, their journals are kept."""
    def opens(procs: int, *arguments: Any, **options: Any) -> Hub:
        return _opened(request.node, procs, arguments, options)
    return opens


def _note(item: pytest.Item, kept: _Kept) -> str:
    """Writes the journal of a hub whose test failed, unless it followed one. Returns what to say of it."""
    if not kept.follows:
        try:
            kept.file.parent.mkdir(parents=True, exist_ok=True)
            kept.file.write_bytes(kept.hub.journal())
        except (OSError, MemoryError) as error:
            words = f'could not write {kept.file}: {error or "out of memory"}'
            with warnings.catch_warnings():
                warnings.simplefilter('always')  # as an error it would end all tests
                item.warn(pytest.PytestWarning(words))
            return words
    item.user_properties.append(('chanhub-journal', str(kept.file)))
    return f'followed {kept.file}' if kept.follows else f'wrote {kept.file}; --chanhub-follow follows it'


@pytest.hookimpl(hookwrapper=True)
def pytest_runtest_makereport(item: pytest.Item, call: pytest.CallInfo[None]) -> Iterator[Optional[Any]]:
    report = (yield).get_result()  # type: ignore[union-attr]
    if call.when == 'call' and report.failed:
        notes = [_note(item, kept) for kept in item.stash.get(_KEPT, [])]
        if notes:
            report.sections.append(('Journals of hubs', '\n'.join(notes)))

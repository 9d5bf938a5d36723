"""The page and the VOUT_MODE of an access: what is sent before it so that they are known, and what is
read after it, since another master may have changed them.

PAGE acts at STOP, so that its write is a packet of its own. From there to the access anybody may have
the bus. What happens then is seen only afterwards, by reading VOUT_MODE and PAGE again. PAGE is read
last: so the VOUT_MODE that is read again is that of its page too.
"""

import contextlib
from typing import Any, Callable, Dict, Optional

from . import Error, _within
from ._commands import PAGE, VOUT_MODE, Command
from ._reading import TransferError
from ._transfers import Transfers

ALL_PAGES = 0xFF
# How often all of an access is done once more.
MOST_AGAIN = 3


class Selection:
    """What accesses need beside their own packets. `chosen` is the page of those that name none; where
    it is `None`, it is the page that is selected on the device. `mode` is the VOUT_MODE that was read
    for a voltage, as digits."""

    def __init__(
        self, transfers: Transfers, commands: Dict[int, Command], has_pages: bool
    ) -> None:
        self._transfers, self._commands, self._has_pages = transfers, commands, has_pages
        self.chosen: Optional[int] = None
        self.mode: Optional[str] = None
        # Whether VOUT_MODE is the profile's: it can't be read, and nothing was written to it.
        self.is_fixed = not self._is_read(VOUT_MODE)
        self.forget()

    def under(
        self,
        page: Optional[int],
        act: Callable[[], Any],
        is_voltage: bool = False,
        is_write: bool = False,
    ) -> Any:
        """What an access returns under a page. Without one that is the page of accesses that name
        none. A voltage that is read is returned as its object."""
        raise NotImplementedError

    def page(self) -> Optional[int]:
        """The page of accesses that name none, read from the device where it isn't known."""
        return self._selected() if self.chosen is None else self.chosen

    def choose(self, page: Optional[int]) -> None:
        """Sets the page of accesses that name none, and selects it."""
        if page is not None:
            self.select(_within("page", page, ALL_PAGES))
        self.chosen = page

    def select(self, page: int) -> None:
        """Writes PAGE."""
        if PAGE not in self._commands:
            raise Error("UnknownCommand", "PAGE")
        self._transfers.put(self._transfers.written(self._commands[PAGE], bytes([page])))

    def forget(self) -> None:
        """Forgets what was told of PAGE and VOUT_MODE."""
        self.mode = None
        self._transfers.begin(self.is_fixed)

    def _wanted(self, page: Optional[int]) -> Optional[int]:
        return self.chosen if page is None else _within("page", page, ALL_PAGES)

    def _is_read(self, code: int) -> bool:
        return code in self._commands and self._commands[code].read is not None

    def _read(self, code: int) -> str:
        digits: str = self._transfers.get(self._commands[code])["bytes"]
        return digits

    def _selected(self) -> Optional[int]:
        """The page that is selected on the device, where that can be read."""
        return int(self._read(PAGE), 16) if self._is_read(PAGE) else None

    def _read_mode(self) -> Optional[str]:
        """VOUT_MODE, where the device has one for the page. (All pages may have several.)"""
        if not self._is_read(VOUT_MODE):
            return None
        if self._transfers.page == ALL_PAGES and self._commands[VOUT_MODE].is_paged:
            return None
        return self._read(VOUT_MODE)


class _Changed(Exception):
    """Another master has changed what an access rests on."""


class Shared(Selection):
    """Beside other masters: nothing is kept from one access to the next. An access whose page or
    VOUT_MODE was changed is done once more."""

    def under(
        self,
        page: Optional[int],
        act: Callable[[], Any],
        is_voltage: bool = False,
        is_write: bool = False,
    ) -> Any:
        wanted, first, why = self._wanted(page), None, ""
        for times in range(1 + MOST_AGAIN):
            self.forget()
            self._enter(wanted)
            if times == 0:
                first = self._transfers.page
            elif is_write and self._transfers.page != first:
                # (what names no page was meant for the one that was selected)
                break
            try:
                return self._bracketed(act, is_voltage)
            except _Changed as changed:
                why = str(changed)
                self._transfers.remark(why)
        raise TransferError(why, self._transfers.events)

    def _enter(self, wanted: Optional[int]) -> None:
        """Selects the page that is named, or reads which one is selected."""
        if wanted is not None:
            self.select(wanted)
        elif self._has_pages:
            self._selected()

    def _bracketed(self, act: Callable[[], Any], is_voltage: bool) -> Any:
        """What an access returns, if neither the page nor VOUT_MODE is another one after it."""
        page = self._transfers.page
        try:
            self.mode = self._read_mode() if is_voltage else None
            found = act()
            is_same_mode = self.mode is None or self._read(VOUT_MODE) == self.mode
        except OSError:
            # (what a device refuses under all pages may be meant for one)
            with contextlib.suppress(OSError):
                self._compare(page)
            raise
        self._compare(page)
        if not is_same_mode:
            raise _Changed("ModeChanged")
        return found

    def _compare(self, page: Optional[int]) -> None:
        if page is not None and self._is_read(PAGE) and self._selected() != page:
            raise _Changed("PageChanged")


class Exclusive(Selection):
    """Without another master: PAGE and VOUT_MODE are kept, until `forget`."""

    def under(
        self,
        page: Optional[int],
        act: Callable[[], Any],
        is_voltage: bool = False,
        is_write: bool = False,
    ) -> Any:
        wanted = self._wanted(page)
        if wanted is not None and wanted != self._transfers.page:
            self.select(wanted)
        if is_voltage and is_write:
            self._learn()
        found = act()
        if is_voltage and not is_write and found.get("raw") == "unknown":
            self._learn()
            found = act()
        return found

    def page(self) -> Optional[int]:
        known = self._transfers.page
        return known if self.chosen is None and known is not None else super().page()

    def choose(self, page: Optional[int]) -> None:
        if page is None:
            self.forget()
        elif _within("page", page, ALL_PAGES) != self._transfers.page:
            self.select(page)
        self.chosen = page

    def _learn(self) -> None:
        """Reads the page where it isn't known, and its VOUT_MODE."""
        if self._transfers.page is None:
            self._selected()
        self.mode = self._read_mode()

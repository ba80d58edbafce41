"""Configurations of the programs that run by themselves: TOML files, as tables that are read key
by key. A key that nobody reads is a fault, so that no misspelt one is passed over."""

from __future__ import annotations

import tomllib
from collections.abc import Callable, Mapping
from dataclasses import dataclass
from pathlib import Path
from typing import Any, Optional, TypeVar, Union

from slo_tools.wire import address_of, tls_of

Read = TypeVar("Read")


class ConfigFault(Exception):
    """A file that can't be used; the text names the key."""


@dataclass(frozen=True)
class Login:
    """How to reach an address: a password, a token, a certificate to trust."""

    credentials: Optional[tuple[str, str]] = None
    token: Optional[str] = None
    verify: Union[bool, str] = True

    @property
    def has_secret(self) -> bool:
        return self.credentials is not None or self.token is not None


class Table:
    """A table of the file that knows which of its keys were read."""

    def __init__(self, values: Mapping[str, Any], path: str = "") -> None:
        self._values = dict(values)
        self._path = path

    def names(self) -> list[str]:
        """The keys that weren't read yet."""
        return list(self._values)

    def table(self, key: str) -> Table:
        """The table of a key; an empty one where there is none."""
        return self._table(self._values.pop(key, {}), key)

    def tables(self, key: str) -> list[Table]:
        """The tables of a list, as `[[key]]` begins them."""
        found = self._values.pop(key, [])
        if not isinstance(found, list):
            raise self.fault(key, "is no list of tables")
        return [self._table(each, f"{key} {number}") for number, each in enumerate(found, 1)]

    def _table(self, value: Any, key: str) -> Table:
        if not isinstance(value, dict):
            raise self.fault(key, "is no table")
        return Table(value, f"{self._path}{key}.")

    def text(self, key: str) -> Optional[str]:
        value = self._values.pop(key, None)
        if value is not None and (not isinstance(value, str) or not value):
            raise self.fault(key, "is no text")
        return value

    def wanted(self, key: str) -> str:
        value = self.text(key)
        if value is None:
            raise self.fault(key, "is missing")
        return value

    def address(self, key: str) -> str:
        """An address as `http://127.0.0.1:8080`, without a password in it. What is told of one
        that is none names the key alone: the rest of it may be a secret."""
        text = self.wanted(key)
        try:
            address_of(text)
        except ValueError as fault:
            raise self.fault(key, str(fault)) from None
        return text

    def word(self, key: str) -> str:
        """A text, or a number or a truth as its text."""
        value = self._values.get(key)
        if isinstance(value, (bool, int)):
            self._values[key] = str(value).lower()
        return self.wanted(key)

    def file(self, key: str, folder: Path) -> Optional[Path]:
        """A path, from the folder of the configuration."""
        value = self.text(key)
        return None if value is None else folder / value

    def number(self, key: str, usual: int, least: int, most: int) -> int:
        value = self._values.pop(key, usual)
        if not isinstance(value, int) or isinstance(value, bool) or not least <= value <= most:
            raise self.fault(key, f"is no number from {least} to {most}")
        return value

    def seconds(self, key: str) -> Optional[float]:
        value = self._values.pop(key, None)
        if value is None:
            return None
        if isinstance(value, bool) or not isinstance(value, (int, float)) or not 0 <= value <= 600:
            raise self.fault(key, "is no number of seconds from 0 to 600")
        return float(value)

    def truth(self, key: str, usual: bool = False) -> bool:
        value = self._values.pop(key, usual)
        if not isinstance(value, bool):
            raise self.fault(key, "is neither true nor false")
        return value

    def login(self, folder: Path) -> Login:
        """The keys `user`, `password_file`, `token_file` and `ca`."""
        user = self.text("user")
        password = self.file("password_file", folder)
        token = self.file("token_file", folder)
        certificate = self.file("ca", folder)
        if (user is None) != (password is None):
            raise self.fault("user", "and password_file go together")
        if user is not None and token is not None:
            raise self.fault("token_file", "and user: one of them")
        credentials = None
        if user is not None and password is not None:
            credentials = (user, _secret(password))
        if certificate is not None:
            self._trusted(certificate)
        return Login(
            credentials,
            None if token is None else _secret(token),
            True if certificate is None else str(certificate),
        )

    def _trusted(self, certificate: Path) -> None:
        try:
            tls_of(str(certificate))
        except OSError:
            raise self.fault("ca", f"names no file of certificates: {certificate}") from None

    def end(self) -> None:
        """All keys were read. Raises ConfigFault where the file has another."""
        for key in self._values:
            raise self.fault(key, "is no key of this file")

    def fault(self, key: str, why: str) -> ConfigFault:
        return ConfigFault(f"{self._path}{key} {why}")


def read_settings(path: Path, read: Callable[[Table, Path], Read]) -> Read:
    """What is read of a file's table and its folder. Raises ConfigFault with the file's name."""
    try:
        return read(Table(tomllib.loads(path.read_text(encoding="utf-8"))), path.parent)
    except OSError as fault:
        raise ConfigFault(f"{path}: {fault.strerror}") from fault
    except (UnicodeDecodeError, tomllib.TOMLDecodeError, ConfigFault) as fault:
        raise ConfigFault(f"{path}: {fault}") from fault


def first_line(path: Path) -> str:
    """The first line of a file with a password. Raises OSError, or UnicodeDecodeError."""
    lines = path.read_text(encoding="utf-8").splitlines()
    return lines[0] if lines else ""


def _secret(path: Path) -> str:
    try:
        return first_line(path)
    except (OSError, UnicodeDecodeError) as fault:
        raise ConfigFault(f"{path} can't be read") from fault

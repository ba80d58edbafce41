"""The options of every tool that asks an office."""

from __future__ import annotations

import argparse
import os
from pathlib import Path
from typing import Union

from slo_tools.office import Office, Pauses, office_address
from slo_tools.settings import first_line
from slo_tools.wire import tls_of

DEFAULT_OFFICE = "http://127.0.0.1:8080"


def add_office_options(parser: argparse.ArgumentParser) -> None:
    """Where the office is, and the password of a proxy in front of it."""
    parser.add_argument(
        "--office",
        metavar="URL",
        type=_address,
        default=os.environ.get("SLO_OFFICE_URL", DEFAULT_OFFICE),
        help="the office's address (default: $SLO_OFFICE_URL, else " + DEFAULT_OFFICE + ")",
    )
    parser.add_argument("--user", metavar="NAME", help="the name for a proxy in front of it")
    parser.add_argument(
        "--password-file", metavar="FILE", help="a file whose first line is the password"
    )
    parser.add_argument(
        "--ca",
        metavar="FILE",
        type=_certificate,
        help="the certificate that the proxy's is signed by",
    )


def _address(text: str) -> str:
    try:
        office_address(text)
    except ValueError as fault:
        raise argparse.ArgumentTypeError(str(fault)) from None
    return text


def _certificate(file: str) -> str:
    try:
        tls_of(file)
    except OSError:
        raise argparse.ArgumentTypeError(f"{file} is no file of certificates") from None
    return file


def office_of(options: argparse.Namespace, pauses: Pauses, timeout: float = 30.0) -> Office:
    """The office that the options name. Raises OSError where the password's file can't be read."""
    credentials = None
    if options.user is not None:
        file = options.password_file
        credentials = (options.user, "" if file is None else first_line(Path(file)))
    verify: Union[bool, str] = options.ca if options.ca is not None else True
    return Office(
        options.office, timeout=timeout, pauses=pauses, credentials=credentials, verify=verify
    )

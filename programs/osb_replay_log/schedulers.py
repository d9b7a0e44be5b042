"""A scheduler of Dask that runs already: its address, and the files with which it is reached over TLS."""
from __future__ import annotations

import argparse
import ipaddress
import ssl
from typing import NamedTuple
from urllib.parse import urlsplit

from osb_replay_log.faults import reason

_PLAIN, _TLS = "tcp", "tls"
_RISK = "whoever reaches its port can run programs on the workers, and on this machine as you"


class Tls(NamedTuple):
    """Paths of files in PEM: the certificates of the cluster's authority, and a certificate of this program's, with its
    key.
    """

    ca: str
    cert: str
    key: str


class Scheduler(NamedTuple):
    """Where it listens, as Dask writes it, and how it is reached if that is over TLS."""

    address: str
    tls: Tls | None = None


def address(text: str) -> str:
    """The address with its scheme, which is tcp:// if the text has none. Raises `ArgumentTypeError` if Dask couldn't
    connect to such an address, or would do it by another way than TCP and TLS.
    """
    if not text:
        raise argparse.ArgumentTypeError("it is empty")
    whole = text if "://" in text else f"{_PLAIN}://{text}"
    try:
        parts = urlsplit(whole)
        is_one = parts.scheme in (_PLAIN, _TLS) and bool(parts.hostname and parts.port) and not parts.path
    except ValueError:
        is_one = False
    if not is_one:
        raise argparse.ArgumentTypeError(f"{text!r} is no address such as tcp://127.0.0.1:8786 or tls://HOST:PORT")
    return whole


def named(asked: argparse.Namespace) -> Scheduler | None:
    """The scheduler that the options name, which `refused` has nothing against."""
    if asked.scheduler is None:
        return None
    return Scheduler(asked.scheduler, Tls(asked.tls_ca, asked.tls_cert, asked.tls_key) if asked.tls_ca else None)


def refused(asked: argparse.Namespace) -> str | None:
    """Why these options can't be used together, or aren't safe; None if they can."""
    files = [asked.tls_ca, asked.tls_cert, asked.tls_key]
    if asked.scheduler is None:
        if any(files):
            return "argument --tls-ca, --tls-cert, --tls-key: they are for a --scheduler at tls://"
        if asked.insecure and asked.engine != "dask":
            return "argument --insecure: it is for --engine dask, or for a --scheduler at tcp://"
        return None
    if asked.engine == "processes":
        return "argument --scheduler: its workers are Dask's, and not of --engine processes"
    if urlsplit(asked.scheduler).scheme == _TLS:
        return _refused_over_tls(asked, files)
    if any(files):
        return f"argument --scheduler: {asked.scheduler} has no TLS, for which --tls-ca, --tls-cert and --tls-key are"
    if not asked.insecure and not _is_loopback(urlsplit(asked.scheduler).hostname or ""):
        return (
            f"argument --scheduler: {asked.scheduler} is at another machine and has no TLS: {_RISK}. Start that "
            "scheduler with TLS, and pass tls://HOST:PORT with --tls-ca, --tls-cert and --tls-key. Or accept the risk: "
            "pass --insecure"
        )
    return None


def _refused_over_tls(asked: argparse.Namespace, files: list[str | None]) -> str | None:
    if not all(files):
        return "argument --scheduler: tls:// needs all of --tls-ca, --tls-cert and --tls-key"
    if asked.insecure:
        return "argument --insecure: it isn't for a --scheduler at tls://"
    return _unusable(Tls(asked.tls_ca, asked.tls_cert, asked.tls_key))


def _is_loopback(host: str) -> bool:
    try:
        return host == "localhost" or ipaddress.ip_address(host).is_loopback
    except ValueError:
        return False


def _unusable(tls: Tls) -> str | None:
    """What is wrong with the files, if anything. Dask itself would ask for the passphrase of a key on the terminal."""
    for option, path in zip(("--tls-ca", "--tls-cert", "--tls-key"), tls):
        try:
            open(path, "rb").close()
        except OSError as error:
            return f"argument {option}: {path} can't be read: {reason(error)}"
    context = ssl.SSLContext(ssl.PROTOCOL_TLS_CLIENT)
    try:
        context.load_verify_locations(cafile=tls.ca)
    except OSError as error:
        return f"argument --tls-ca: {tls.ca} has no certificate in PEM: {reason(error)}"
    try:
        context.load_cert_chain(tls.cert, tls.key, password=lambda: "")
    except (OSError, ValueError) as error:
        return (
            f"argument --tls-cert, --tls-key: {tls.cert} and {tls.key} aren't a certificate and its key, in PEM and "
            f"without a passphrase: {reason(error)}"
        )
    return None

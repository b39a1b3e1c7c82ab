"""Writes entry logs byte by byte, and finds entries in them, as docs/format.md describes.

An entry is a triple: ledger, entry id, data.
"""

import entry_logs
import sample_folder

HEADER = entry_logs.HEADER
# Bytes of a record before its data: length, ledger, entry.
FRONT = 20


def name_of(log):
    return f"{log:x}.log"


def records(entries):
    return b"".join(sample_folder.record(*it) for it in entries)


def open_log(entries, end=b""):
    """Returns the bytes of a log that is not sealed, with an end that is no record."""
    return sample_folder.header(0, 0) + records(entries) + end


def sizes_of(entries):
    """Returns the bytes of the records of each ledger."""
    sizes = {}
    for ledger, _, data in entries:
        sizes[ledger] = sizes.get(ledger, 0) + FRONT + len(data)
    return sizes


def sealed_log(entries):
    """Returns the bytes of a sealed log."""
    body, sizes = records(entries), sizes_of(entries)
    header = sample_folder.header(HEADER + len(body), len(sizes))
    return header + body + sample_folder.map_batch(sizes)


def write(folder, logs, opened=()):
    """Makes a directory of logs, by id; those in `opened` are not sealed."""
    folder.mkdir(exist_ok=True)
    for log, entries in logs.items():
        make = open_log if log in opened else sealed_log
        (folder / name_of(log)).write_bytes(make(entries))


def offsets(entries):
    """Yields the position of each record of a log with these entries."""
    at = HEADER
    for it in entries:
        yield at
        at += FRONT + len(it[2])


def read(folder):
    """Returns the data of each key in the directory's logs, that of its last record."""
    return entry_logs.last_records(entry_logs.read_folder(folder))


def where(folder, ledger, entry):
    """Returns the ids of the logs that have a record of an entry, with its data."""
    logs = entry_logs.read_folder(folder)
    return {
        log: data
        for log, found in sorted(logs.items())
        for _, its_ledger, its_entry, data in found.entries
        if (its_ledger, its_entry) == (ledger, entry)
    }


def log_bytes(folder):
    """Returns the bytes of all records with a key in the directory's logs."""
    logs = entry_logs.read_folder(folder).values()
    return sum(FRONT + len(data) for found in logs for _, _, _, data in found.entries)

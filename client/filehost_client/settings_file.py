"""The file `.site.json`, which says where a folder is deployed."""

import json
import os

from .errors import WrongWords
from .names import shown

NAME = ".site.json"
MEMBERS = ("host", "site", "read", "ca", "user")
LARGEST = 65_536


def find_settings(folder):
    """The members of the nearest `.site.json` in a folder or above it, all of them texts; none if there is no such file. The place of `ca` counts from the
    file's folder. Raises WrongWords if the file is not of this form."""
    place = os.path.realpath(folder)
    while True:
        file = os.path.join(place, NAME)
        if os.path.isfile(file):
            return read_settings(file)
        above = os.path.dirname(place)
        if above == place:
            return {}
        place = above


def read_settings(file):
    """The members of one such file."""
    try:
        with open(file, encoding="utf-8") as source:
            told = json.loads(source.read(LARGEST))
    except (OSError, ValueError) as error:
        raise WrongWords(f"{shown(file)} can't be read as JSON: {error}") from None
    if not isinstance(told, dict) or not all(isinstance(value, str) for value in told.values()):
        raise WrongWords(f'{shown(file)} is not of the form {{"host": "https://example.org", "site": "one"}}')
    if others := sorted(told.keys() - set(MEMBERS)):
        raise WrongWords(f"{shown(file)} has the member {shown(others[0])}, and only {', '.join(MEMBERS)} are known")
    if "ca" in told:
        told["ca"] = os.path.join(os.path.dirname(file), told["ca"])
    return told

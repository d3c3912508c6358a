"""The data of a page of facl-report, for tests."""
from __future__ import annotations

import base64
import json
import re
from typing import Any, Dict, List, Tuple

Node = Dict[str, Any]


def numbers_of(column: str) -> List[int]:
    """The numbers of a column of the page."""
    found: List[int] = []
    number = shift = 0
    for byte in base64.b64decode(column):
        number |= (byte & 127) << shift
        shift += 7
        if byte < 128:
            found.append(number)
            number = shift = 0
    return found


def spread(data: Node, row: List[Any]) -> List[int]:
    """What each of the shown users has."""
    most, others = row
    return [others.get(str(place), most) for place in range(len(data["whos"]))]


def names_of(files: Node) -> List[str]:
    """The name of each file."""
    names, known = files["names"].split("\n"), 0
    found: List[str] = []
    for back in numbers_of(files["name"]):
        found.append(names[known - back])
        known += back == 0
    return found


def parents_of(depths: List[int]) -> List[int]:
    """What each file is in; -1 where that is nothing."""
    last: Dict[int, int] = {-1: -1}
    found: List[int] = []
    for file, depth in enumerate(depths):
        found.append(last[depth - 1])
        last[depth] = file
    return found


def inner_of(data: Node, parents: List[int], kinds: List[int]) -> List[int]:
    """Of each directory the number of who can get to what is in it; -1 of other files."""
    insides = {(reach, row): found for reach, row, found in data["insides"]}
    found: List[int] = []
    for parent, kind in zip(parents, kinds):
        is_folder, row, _ = data["kinds"][kind]
        found.append(insides[data["start"] if parent < 0 else found[parent], row] if is_folder else -1)
    return found


def unpacked(data: Node) -> Node:
    """The data with its columns as lists, and with rows and reaches as a text with the digits of each shown user."""
    files, kinds = data["files"], data["kinds"]
    now, parents = numbers_of(files["kind"]), parents_of(numbers_of(files["depth"]))
    before = [files["changed"].get(str(file), kind) for file, kind in enumerate(now)]
    inner, inner_before = (inner_of(data, parents, it) for it in (now, before))
    columns: Node = {
        "parents": parents, "names": names_of(files), "rights": [kinds[it][1] for it in now], "records": [kinds[it][2] for it in now],
        "inner": inner, "changed": {file: kinds[it][1:] for file, it in files["changed"].items()},
        "reached": {str(file): reach for file, reach in enumerate(inner_before) if reach != inner[file]},
    }
    assert [len(columns[name]) for name in ("names", "rights")] == [files["count"]] * 2
    return {**data, "files": columns, "rows": [bytes(spread(data, it)).hex() for it in data["rows"]],
            "reaches": ["".join(map(str, spread(data, it))) for it in data["reaches"]]}


def data_in(page: bytes) -> Node:
    """The data as the page has it, also that of a folder."""
    found = re.search(rb'<script type="application/json" id="data">(.*?)</script>', page, re.DOTALL)
    assert found is not None
    data: Node = json.loads(found[1])
    return data


def read_data(page: bytes) -> Node:
    return unpacked(data_in(page))


def nodes_of(data: Node) -> Dict[str, Node]:
    """The files by their paths. Each has its row `r`, its list `l`, the reach above it, as `above`, and where the script
    changes it its row `q` and its list `m` before that."""
    files = data["files"]
    paths: Dict[int, str] = {}
    found: Dict[str, Node] = {}
    for place, (parent, name) in enumerate(zip(files["parents"], files["names"])):
        above = data["start"] if parent < 0 else files["inner"][parent]
        paths[place] = "." if parent < 0 else name if paths[parent] == "." else paths[parent] + "/" + name
        found[paths[place]] = {"n": name, "r": files["rights"][place], "l": files["records"][place], "above": above}
        if str(place) in files["changed"]:
            found[paths[place]].update(zip("qm", files["changed"][str(place)]))
    return found


def granted(data: Node, node: Node, place: int, request: int, key: str = "r") -> bool:
    """Whether the user of a place is granted a request on a file, or was before the script (key q)."""
    row = data["rows"][node.get(key, node["r"])]
    return bool(row) and int(row[2 * place : 2 * place + 2], 16) >> request & 1 == 1


def places_of(data: Node) -> Dict[Tuple[str, str], int]:
    return {(kind, name): place for place, (kind, name) in enumerate(data["whos"])}

"""The page of a record: picture_page.html with its style, its script and the data in their places."""
from pathlib import Path

from picture_data import json_of

HERE = Path(__file__).resolve().parent


def page_of(data: dict[str, list]) -> str:
    page = (HERE / "picture_page.html").read_text()
    parts = {
        "/*STYLE*/": (HERE / "picture_page.css").read_text(),
        "/*SCRIPT*/": (HERE / "picture_page.js").read_text(),
        "/*DATA*/": json_of(data).replace("<", "\\u003c"),
    }
    for mark, part in parts.items():
        page = page.replace(mark, part)
    return page

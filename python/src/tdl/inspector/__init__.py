"""The inspector: a page that shows what a code says, and a server of that page on 127.0.0.1.

    python3 -m tdl inspect --port 8090

`Inspector` asks the program about a text and explains its answers by the rows of the tables; `serve` gives the page its results.
The module decides nothing: the program says what a text means, and why it means nothing.
"""
from .analysis import Inspector
from .questions import Question
from .server import address_of, is_served, serve

__all__ = ["Inspector", "Question", "address_of", "is_served", "serve"]

from typing import Callable, List, Sequence, Type, Union

from .errors import FilesRejected, Rejected

VERSION: int

class Session:
    def __init__(
        self,
        source: int,
        target: int,
        filter: int,
        gcp: int,
        keys_only: int,
        encoding: bytes,
        stem: bytes,
        tables: bytes,
        prefixes: bytes,
        bytes_of: Callable[[Union[str, bytes]], bytes],
        rejected: Callable[[bytes, str], Rejected],
        refused: Type[FilesRejected],
    ) -> None: ...
    def translate(self, text: Union[str, bytes], /) -> str: ...
    def translate_list(self, texts: Sequence[Union[str, bytes]], /) -> List[object]: ...
    def print_answers(self, lines: bytes, /) -> bytes: ...
    def after_fork(self) -> bool: ...
